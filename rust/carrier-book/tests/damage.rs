//! Tables of any content: every call returns, and no word outside the part changes. Of a book with damage in its memory alone the
//! check's answer is held to the rule.
mod common;

use carrier_book::{lent, words, Declined};
use common::memory::{entry, undoable, RING};
use common::{offer, Random, Scan, LIES};
use std::collections::BTreeMap;

/// the words around a part
const EDGE: usize = 40;
const MARK: i64 = 0x7a7a_7a7a;

/// the greatest price of a report
const MOST: i64 = 101_000_000_000;

/// A part between marked words.
fn framed(part: &[i64]) -> Vec<i64> {
    let edge = vec![MARK; EDGE];
    [&edge[..], part, &edge[..]].concat()
}

fn book(r: &mut Random, capacity: usize, posts: usize) -> Vec<i64> {
    let mut part: Vec<i64> = (0..words(capacity)).map(|_| r.word()).collect();
    lent::open(&mut part, 0, capacity as i64).unwrap();
    let lie = r.pick(&LIES);
    let mut numbers = vec![];
    for _ in 0..posts {
        let o = offer(r, lie, capacity as i64);
        if lent::post(&mut part, 0, o.number, o.rate, o.base).is_ok() {
            numbers.push(o.number);
        }
        if r.one_in(4) && !numbers.is_empty() {
            lent::withdraw(&mut part, 0, r.pick(&numbers)).ok();
        }
    }
    part
}

fn wild(r: &mut Random, capacity: usize) -> i64 {
    let c = capacity as i64;
    match r.within(0, 7) {
        0 => r.word(),
        1 => r.within(-2, 30),
        2 => r.within(1, c),
        3 => 4_096 + r.within(1, c),
        4 => r.within(0, 8_200),
        5 => r.pick(&[i64::MIN, i64::MAX, -1, u32::MAX as i64, 1 << 32]),
        6 => r.within(-2_000_000_000, 2_000_000_000),
        _ => r.within(-200_000, 200_000),
    }
}

/// Reports of all, of none and of some: words around the output keep their marks, and so do all of it where the report is declined.
fn report(r: &mut Random, table: &[i64], capacity: usize) {
    let load = r.within(-1_000_000, 1_000_000);
    for price in [MOST, -MOST, r.within(-MOST, MOST), r.within(-1_000, 1_000)] {
        let mut out = vec![MARK; r.within(0, 3 * capacity as i64) as usize + 2 * EDGE];
        let room = out.len() - 2 * EDGE;
        let told = lent::report(table, EDGE, load, price, &mut out[EDGE..EDGE + room]);
        let written = if told.is_ok() { room } else { 0 };
        assert!(out[..EDGE].iter().chain(&out[EDGE + written..]).all(|w| *w == MARK));
    }
}

/// All calls on a part, with what must hold on any words.
fn calls(r: &mut Random, table: &mut [i64], capacity: usize, rounds: usize) {
    let end = EDGE + words(capacity);
    let other = &book(r, 3, 9);
    for _ in 0..rounds {
        let lie = r.pick(&LIES);
        let o = offer(r, lie, capacity as i64);
        lent::post(table, EDGE, o.number, o.rate, o.base).ok();
        lent::withdraw(table, EDGE, r.within(1, 3 * capacity as i64).min(9_999)).ok();
        lent::take_back(table, EDGE).ok();
        let before = table.to_vec();
        let mut out = vec![MARK; r.within(0, 3 * capacity as i64) as usize + 2 * EDGE];
        let room = out.len() - EDGE;
        lent::listing(table, EDGE, &mut out[EDGE..room]).ok();
        assert!(out[..EDGE].iter().chain(&out[room..]).all(|w| *w == MARK));
        report(r, table, capacity);
        lent::query(table, EDGE, r.within(-1_000_000, 1_000_000)).ok();
        lent::check(table, EDGE);
        lent::mark(table, EDGE, r.within(0, capacity as i64)).ok();
        assert!(lent::pieces(table, EDGE).unwrap().count() <= 4_096);
        if rounds < 20 || r.one_in(10) {
            assert!(lent::marks(table, EDGE).take(100).count() <= 4_097);
        }
        lent::meet(table, EDGE, table, EDGE).ok();
        lent::meet(table, EDGE, other, 0).ok();
        lent::meet(other, 0, table, EDGE).ok();
        // causes before any word of the part is trusted
        assert_eq!(lent::post(table, EDGE, 10_000, 100_001, i64::MIN), Err(Declined::OutOfRange));
        assert_eq!(lent::post(table, EDGE, o.number, -100_001, i64::MIN), Err(Declined::RateOutOfRange));
        assert_eq!(lent::post(table, EDGE, o.number, o.rate, 1_000_000_001), Err(Declined::BaseOutOfRange));
        assert_eq!(lent::withdraw(table, EDGE, 0), Err(Declined::OutOfRange));
        assert_eq!(lent::query(table, EDGE, -1_000_001), Err(Declined::LoadOutOfRange));
        assert_eq!(lent::report(table, EDGE, 1_000_001, MOST + 1, &mut []), Err(Declined::OutOfRange));
        assert_eq!(lent::report(table, EDGE, 1_000_001, -MOST, &mut []), Err(Declined::LoadOutOfRange));
        assert!(table == before);
        assert!(table[..EDGE].iter().chain(&table[end..]).all(|w| *w == MARK));
    }
}

#[test]
fn a_book_with_some_words_changed() {
    for seed in 0..1_500 {
        let r = &mut Random::new(9_000 + seed);
        let capacity = r.pick(&[1, 2, 3, 8, 16, 64]);
        let mut part = book(r, capacity, 3 * capacity);
        for _ in 0..r.pick(&[1, 2, 5, 40]) {
            let at = r.within(1, (part.len() - RING) as i64 - 1) as usize;
            part[at] = wild(r, capacity);
        }
        calls(r, &mut framed(&part), capacity, 20);
    }
}

#[test]
fn header_words_changed() {
    for seed in 0..600 {
        let r = &mut Random::new(19_000 + seed);
        let capacity = r.pick(&[2, 8, 64]);
        let mut part = book(r, capacity, 3 * capacity);
        part[r.within(1, 8) as usize] = wild(r, capacity);
        calls(r, &mut framed(&part), capacity, 20);
    }
}

#[test]
fn words_of_any_content() {
    for seed in 0..600 {
        let r = &mut Random::new(29_000 + seed);
        let capacity = r.pick(&[1, 2, 3, 16, 64]);
        let mut part: Vec<i64> = (0..words(capacity)).map(|_| wild(r, capacity)).collect();
        part[0] = capacity as i64;
        calls(r, &mut framed(&part), capacity, 20);
    }
}

#[test]
fn links_of_any_content_in_a_large_part() {
    for seed in 0..6 {
        let r = &mut Random::new(39_000 + seed);
        let capacity = 4_096;
        let mut part: Vec<i64> = (0..words(capacity)).map(|_| r.within(4_097, 8_192)).collect();
        part[0] = capacity as i64;
        part[3] = r.within(0, 4_096);
        calls(r, &mut framed(&part), capacity, 15);
    }
}

/// A book behind 300 posts and withdrawals, by which its memory is full, and the scan beside it.
fn remembering(r: &mut Random, capacity: usize) -> (Vec<i64>, Scan) {
    let mut part: Vec<i64> = (0..words(capacity)).map(|_| r.word()).collect();
    lent::open(&mut part, 0, capacity as i64).unwrap();
    let mut scan = Scan::new(capacity);
    let lie = r.pick(&LIES);
    let mut updates = 0;
    while updates < 300 {
        let o = offer(r, lie, capacity as i64);
        if !scan.offers.is_empty() && r.one_in(2) {
            let number = r.pick(&scan.offers).number;
            scan.withdraw(number).unwrap();
            lent::withdraw(&mut part, 0, number).unwrap();
        } else if scan.post(o).is_ok() {
            lent::post(&mut part, 0, o.number, o.rate, o.base).unwrap();
        } else {
            continue;
        }
        updates += 1;
    }
    assert!(lent::check(&part, 0) && part[8] == 256);
    (part, scan)
}

/// the words of the header about the memory, and those of the ring
fn of_memory(capacity: usize) -> impl Iterator<Item = usize> {
    [7, 8].into_iter().chain(entry(capacity, 0)..words(capacity))
}

/// words to put in the place of one: near it, what was done, the ends of each range, a number of the book, or anything
fn changes(r: &mut Random, old: i64, capacity: usize) -> Vec<i64> {
    let mut words = vec![old.wrapping_add(1), old.wrapping_sub(1), 0, 1, 2, 3, 255, 256, 257, r.within(0, 255)];
    let ends = [9_999, 100_000, 1_000_000_000];
    words.extend(ends.into_iter().flat_map(|end| [end, end + 1, -end, -end - 1]));
    words.extend([r.within(1, 3 * capacity as i64), r.within(1, 3 * capacity as i64), i64::MIN, i64::MAX, r.word()]);
    words
}

/// holds the check to the rule, and counts what the rule says
fn hold_check(part: &[i64], scan: &Scan, what: &str, seen: &mut BTreeMap<Result<(), i64>, usize>) {
    let rule = undoable(part, scan.clone());
    assert_eq!(lent::check(part, 0), rule.is_ok(), "{what}: {rule:?}");
    *seen.entry(rule).or_default() += 1;
}

#[test]
fn a_word_of_the_memory_changed() {
    let mut seen = BTreeMap::new();
    for (seed, capacity) in (0..).zip([1, 3, 16, 64, 200]) {
        let r = &mut Random::new(69_000 + seed);
        let (mut part, scan) = remembering(r, capacity);
        for at in of_memory(capacity) {
            let old = part[at];
            for word in changes(r, old, capacity) {
                part[at] = word;
                hold_check(&part, &scan, &format!("capacity {capacity}, word {at}: {old} became {word}"), &mut seen);
            }
            part[at] = old;
        }
    }
    let rules = [Ok(()), Err(0), Err(4), Err(5), Err(8), Err(14), Err(15)];
    assert!(rules.iter().all(|rule| seen[rule] > 500), "{seen:?}");
}

#[test]
fn an_entry_of_the_memory_changed() {
    let mut seen = BTreeMap::new();
    for (seed, capacity) in (0..).zip([1, 2, 3, 5, 16]) {
        let r = &mut Random::new(79_000 + seed);
        let (mut part, scan) = remembering(r, capacity);
        let numbers = 3 * capacity as i64;
        for place in 0..256 {
            let at = entry(capacity, place);
            let old = part[at..at + 4].to_vec();
            for _ in 0..8 {
                let new = [r.within(1, 2), r.within(1, numbers), r.within(-9, 9), r.within(-9, 9)];
                part[at..at + 4].copy_from_slice(&new);
                hold_check(&part, &scan, &format!("capacity {capacity}, place {place}: {old:?} became {new:?}"), &mut seen);
            }
            part[at..at + 4].copy_from_slice(&old);
        }
        // the ring as it is, with other places for the last entry and fewer entries
        for last in 0..256 {
            part[7] = last;
            part[8] = r.pick(&[1, 2, 5, 256]);
            hold_check(&part, &scan, &format!("capacity {capacity}, {} entries from {last} on", part[8]), &mut seen);
        }
    }
    assert!([Ok(()), Err(5), Err(7), Err(8)].iter().all(|rule| seen[rule] > 100), "{seen:?}");
}

/// Until the damaged entry's turn has come, and past it. No more than 256 are accepted, and one that is declined changes no word.
#[test]
fn take_backs_with_a_word_of_the_memory_changed() {
    for (seed, capacity) in (0..).zip([1, 3, 16, 64]) {
        let r = &mut Random::new(89_000 + seed);
        let (part, _) = remembering(r, capacity);
        for at in of_memory(capacity) {
            let mut table = framed(&part);
            let words = changes(r, part[at], capacity);
            table[EDGE + at] = r.pick(&words);
            calls(r, &mut table, capacity, 1);
            for _ in 0..256 {
                lent::take_back(&mut table, EDGE).ok();
            }
            let before = table.clone();
            lent::take_back(&mut table, EDGE).unwrap_err();
            assert!(table == before);
            calls(r, &mut table, capacity, 1);
        }
    }
}

#[test]
fn no_book() {
    let r = &mut Random::new(49_000);
    let whole = book(r, 3, 9);
    let mut cases: Vec<(Vec<i64>, usize)> = vec![(vec![], 0), (vec![], 1), (whole.clone(), 1 << 60), (whole.clone(), usize::MAX)];
    cases.extend([(whole.clone(), whole.len()), (whole.clone(), whole.len() + 1), (whole[..whole.len() - 1].to_vec(), 0)]);
    cases.push((book(r, 1, 3)[..1_151].to_vec(), 0));
    for told in [0, -1, 4, 4_097, i64::MIN, i64::MAX] {
        let mut part = whole.clone();
        part[0] = told;
        cases.push((part, 0));
    }
    for (mut table, start) in cases {
        let before = table.clone();
        for (number, rate, base) in [(0, 0, 0), (1, 100_001, 0), (1, 0, i64::MIN)] {
            assert_eq!(lent::post(&mut table, start, number, rate, base), Err(Declined::NoBook));
        }
        assert_eq!(lent::withdraw(&mut table, start, 0), Err(Declined::NoBook));
        assert_eq!(lent::take_back(&mut table, start), Err(Declined::NoBook));
        assert_eq!(lent::query(&table, start, i64::MAX), Err(Declined::NoBook));
        assert_eq!(lent::listing(&table, start, &mut []), Err(Declined::NoBook));
        for (load, price) in [(i64::MAX, i64::MIN), (i64::MAX, 0), (0, 0)] {
            assert_eq!(lent::report(&table, start, load, price, &mut []), Err(Declined::NoBook));
        }
        assert_eq!(lent::mark(&table, start, -1), Err(Declined::NoBook));
        assert_eq!(lent::pieces(&table, start).unwrap_err(), Declined::NoBook);
        assert_eq!(lent::marks(&table, start).next(), None);
        assert_eq!(lent::meet(&table, start, &whole, 0), Err(Declined::NoBook));
        assert_eq!(lent::meet(&whole, 0, &table, start), Err(Declined::NoBook));
        assert!(table == before);
    }
}

#[test]
fn opening_on_any_words() {
    for seed in 0..300 {
        let r = &mut Random::new(59_000 + seed);
        let capacity = r.pick(&[1, 2, 3, 64]);
        let part: Vec<i64> = (0..words(capacity)).map(|_| wild(r, capacity)).collect();
        let mut table = framed(&part);
        let before = table.clone();
        for wrong in [0, -1, 4_097, i64::MIN, i64::MAX] {
            assert_eq!(lent::open(&mut table, usize::MAX, wrong), Err(Declined::Capacity));
        }
        let beyond = table.len() - words(capacity) + 1;
        for start in [beyond, table.len(), table.len() + 1, usize::MAX] {
            assert_eq!(lent::open(&mut table, start, capacity as i64), Err(Declined::NoRoom));
        }
        assert!(table == before);
        lent::open(&mut table, EDGE, capacity as i64).unwrap();
        assert!(table[..EDGE] == before[..EDGE] && table[EDGE + part.len()..] == before[EDGE + part.len()..]);
        assert_eq!(lent::query(&table, EDGE, 0), Err(Declined::Empty));
        assert_eq!(lent::listing(&table, EDGE, &mut []), Ok(0));
        assert_eq!(lent::report(&table, EDGE, 0, MOST, &mut []), Ok(0));
        assert_eq!(lent::take_back(&mut table, EDGE), Err(Declined::NothingToTakeBack));
        assert_eq!(lent::post(&mut table, EDGE, 5, 1, 2).map(|u| u.live), Ok(1));
        assert_eq!(lent::take_back(&mut table, EDGE).map(|u| u.live), Ok(0));
        assert!(lent::check(&table, EDGE));
    }
}
