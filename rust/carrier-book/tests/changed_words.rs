//! Check says no after a change of any one word that the form fixes, and yes whatever the words hold that it does not use.
mod common;

use carrier_book::{lent, words};
use common::memory::entry;
use common::{offer, Lie, Random, LIES};
use std::collections::{BTreeMap, BTreeSet};

/// The trees, by the number that the layout gives them.
const PIECES: usize = 0;
const OFFERS: usize = 1;
const NUMBERS: usize = 2;
const ORDER: usize = 3;

/// The words of the header, from the first on.
const HEADER: [&str; 7] =
    ["capacity", "root of offers", "root of pieces", "live count", "root of numbers", "first free slot", "root of the order"];

/// The words of a part that its form fixes, each with what it is, and those of its memory that are read. These may have several right
/// values; damage.rs holds the check to the rule about them.
struct Used<'a> {
    part: &'a [i64],
    words: BTreeMap<usize, &'static str>,
    memory: BTreeSet<usize>,
}

impl Used<'_> {
    fn of(part: &[i64]) -> Used<'_> {
        let mut used = Used { part, words: BTreeMap::new(), memory: BTreeSet::from([7, 8]) };
        used.words.extend(HEADER.into_iter().enumerate());
        for back in 0..part[8] {
            used.remembered((part[7] - back).rem_euclid(256) as usize);
        }
        if part[3] > 0 {
            used.tree(OFFERS, part[1]);
            used.tree(PIECES, part[2]);
            used.tree(NUMBERS, part[4]);
            used.tree(ORDER, part[6]);
        }
        let mut slot = part[5];
        while slot != 0 {
            used.field(slot, 0, "number of a free slot");
            slot = used.field(slot, 3, "link of the free chain");
        }
        used
    }

    /// the rate and the base of a post are not read
    fn remembered(&mut self, place: usize) {
        let at = entry(self.part[0] as usize, place);
        let read = if self.part[at] == 1 { 2 } else { 4 };
        self.memory.extend(at..at + read);
    }

    fn place(&self, slot: i64, field: usize) -> usize {
        64 + 4 * (field / 4 * (self.part[0] as usize + 1) + slot as usize) + field % 4
    }

    fn field(&mut self, slot: i64, field: usize, what: &'static str) -> i64 {
        let at = self.place(slot, field);
        self.words.insert(at, what);
        self.part[at]
    }

    /// each live offer is a leaf of the order, and its rank tells the rest of it
    fn leaf(&mut self, tree: usize, slot: i64) {
        if tree == ORDER {
            for (field, what) in ["number of an offer", "rate", "base", "rank"].into_iter().enumerate() {
                self.field(slot, field, what);
            }
        }
    }

    fn tree(&mut self, tree: usize, x: i64) {
        if x <= 4_096 {
            return self.leaf(tree, x);
        }
        let slot = x - 4_096;
        let children = [self.field(slot, 4 + 4 * tree, "left child"), self.field(slot, 5 + 4 * tree, "right child")];
        self.field(slot, 24 + tree, "height");
        if tree == PIECES {
            self.field(slot, 6, "numerator of a crossing");
            self.field(slot, 7, "denominator of a crossing");
            self.field(slot, 19, "next piece");
        }
        if tree == OFFERS {
            self.field(slot, 10, "left end of a bridge");
            self.field(slot, 11, "right end of a bridge");
            for child in children {
                let stored = match child {
                    leaf @ 0..=4_096 => self.field(leaf, 21, "stored part of a leaf"),
                    inner => self.field(inner - 4_096, 20, "stored part of an inner node"),
                };
                self.tree(PIECES, stored);
            }
        }
        for child in children {
            self.tree(tree, child);
        }
    }
}

fn book(r: &mut Random, capacity: usize, lie: Lie, calls: usize) -> Vec<i64> {
    let mut part: Vec<i64> = (0..words(capacity)).map(|_| r.word()).collect();
    lent::open(&mut part, 0, capacity as i64).unwrap();
    let mut numbers = vec![];
    for _ in 0..calls {
        let o = offer(r, lie, capacity as i64);
        if lent::post(&mut part, 0, o.number, o.rate, o.base).is_ok() {
            numbers.push(o.number);
        } else if r.one_in(2) && !numbers.is_empty() {
            lent::withdraw(&mut part, 0, r.pick(&numbers)).ok();
        }
        if r.one_in(6) {
            lent::take_back(&mut part, 0).ok();
        }
    }
    part
}

/// another word than `old`: near it, a node or a slot, no node's number, or anything
fn other(r: &mut Random, old: i64, capacity: usize) -> i64 {
    let c = capacity as i64;
    loop {
        let word = match r.within(0, 7) {
            0 => old.wrapping_add(1),
            1 => old.wrapping_sub(1),
            2 => 0,
            3 => old.wrapping_add(1 << 32),
            4 => r.within(1, c),
            5 => 4_096 + r.within(1, c),
            6 => r.pick(&[i64::MIN, i64::MAX, -1, 8_193]),
            _ => r.word(),
        };
        if word != old {
            return word;
        }
    }
}

#[test]
fn a_word_of_the_form() {
    let mut seen: BTreeMap<&str, usize> = BTreeMap::new();
    for seed in 0..240 {
        let r = &mut Random::new(70_000 + seed);
        let capacity = r.pick(&[1, 2, 3, 5, 8, 16, 64]);
        let lie = LIES[seed as usize % LIES.len()];
        let calls = r.within(0, 5 * capacity as i64) as usize;
        let mut part = book(r, capacity, lie, calls);
        assert!(lent::check(&part, 0));
        for (at, what) in Used::of(&part.clone()).words {
            let old = part[at];
            for _ in 0..4 {
                part[at] = other(r, old, capacity);
                assert!(!lent::check(&part, 0), "seed {seed}, word {at} ({what}): {old} became {}", part[at]);
                *seen.entry(what).or_default() += 1;
            }
            part[at] = old;
        }
        assert!(lent::check(&part, 0));
    }
    // each kind of word was among them, often
    assert_eq!(seen.len(), 23);
    assert!(seen.values().all(|n| *n > 500), "{seen:?}");
}

/// An empty stored part and the end of the free chain are told by 0, and not by a word that is no node's number.
#[test]
fn a_word_that_is_no_link() {
    let mut seen: BTreeMap<&str, usize> = BTreeMap::new();
    for seed in 0..60 {
        let r = &mut Random::new(85_000 + seed);
        let capacity = r.pick(&[2, 3, 5, 16]);
        let calls = r.within(0, 3 * capacity as i64) as usize;
        let mut part = book(r, capacity, LIES[seed as usize % LIES.len()], calls);
        for (at, what) in Used::of(&part.clone()).words {
            if at < 64 || part[at] != 0 {
                continue;
            }
            for word in [-1, 8_193, 9_000, 1 << 32, i64::MIN, i64::MAX] {
                part[at] = word;
                assert!(!lent::check(&part, 0), "seed {seed}, word {at} ({what}): 0 became {word}");
            }
            part[at] = 0;
            *seen.entry(what).or_default() += 1;
        }
        assert!(lent::check(&part, 0));
    }
    for what in ["link of the free chain", "stored part of a leaf", "stored part of an inner node"] {
        assert!(seen[what] > 20, "{seen:?}");
    }
}

/// A tree of offers that is one leaf, with its envelope: the first offer of the only rate, and no other.
#[test]
fn another_leaf_for_the_tree_of_offers() {
    for (offers, first) in
        [([(3, 5), (3, 6), (3, 6)], Some(1)), ([(3, 6), (3, 6), (3, 5)], Some(3)), ([(3, 0), (3, 1), (1, 10)], None)]
    {
        let mut part = vec![0; words(4)];
        lent::open(&mut part, 0, 4).unwrap();
        for (number, (rate, base)) in (1..).zip(offers) {
            lent::post(&mut part, 0, number, rate, base).unwrap();
        }
        assert!(lent::check(&part, 0));
        // the offers stand in the slots 1, 2 and 3
        for slot in 1..=4 {
            part[1] = slot;
            part[2] = slot;
            assert_eq!(lent::check(&part, 0), first == Some(slot), "{offers:?}, slot {slot}");
        }
    }
}

#[test]
fn a_word_of_a_large_book() {
    let r = &mut Random::new(80_000);
    for lie in [Lie::Mixed, Lie::EightRates, Lie::OneRate] {
        let mut part = book(r, 4_096, lie, 5_000);
        assert!(lent::check(&part, 0));
        let used: Vec<(usize, &str)> = Used::of(&part).words.into_iter().collect();
        for _ in 0..400 {
            let (at, what) = r.pick(&used);
            let old = part[at];
            part[at] = other(r, old, 4_096);
            assert!(!lent::check(&part, 0), "word {at} ({what}): {old} became {}", part[at]);
            part[at] = old;
        }
    }
}

#[test]
fn words_that_the_form_leaves_free() {
    for seed in 0..120 {
        let r = &mut Random::new(90_000 + seed);
        let capacity = r.pick(&[1, 2, 3, 8, 64]);
        let calls = r.within(0, 5 * capacity as i64) as usize;
        let mut part = book(r, capacity, LIES[seed as usize % LIES.len()], calls);
        let Used { words, memory, .. } = Used::of(&part);
        for (at, word) in part.iter_mut().enumerate().skip(HEADER.len()) {
            if !words.contains_key(&at) && !memory.contains(&at) {
                *word = r.word();
            }
        }
        assert!(lent::check(&part, 0), "seed {seed}");
    }
}

#[test]
fn no_where_there_is_no_book() {
    let r = &mut Random::new(95_000);
    let part = book(r, 3, Lie::Close, 9);
    assert!(!lent::check(&[], 0));
    assert!(!lent::check(&part, 1));
    assert!(!lent::check(&part, part.len() + 1));
    assert!(!lent::check(&part, usize::MAX));
    assert!(!lent::check(&part[..part.len() - 1], 0));
    for told in [0, -1, 4, 4_097, i64::MIN] {
        let mut other = part.clone();
        other[0] = told;
        assert!(!lent::check(&other, 0));
    }
    assert!(lent::check(&[&[7, 7][..], &part].concat(), 2));
}
