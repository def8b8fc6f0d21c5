//! Random histories of calls, long and short, against a scan of all offers.
mod common;

use carrier_book::{lent, words, Declined, Found, Update};
use common::reports::{hold_report, hold_reports};
use common::{log2_up, offer, Done, Lie, Offer, Random, Scan, FEW_RATES, LIES};
use std::collections::BTreeMap;

/// What an accepted update does to the first offer of its rate.
#[derive(Clone, Copy)]
enum Does {
    PostAlone,
    PostBehind,
    PostAhead,
    WithdrawLater,
    WithdrawFollowed,
    WithdrawLast,
}

const KINDS_OF_UPDATE: usize = 6;

/// that offer before the update, and after it
fn does(posted: bool, before: Option<Offer>, after: Option<Offer>) -> Does {
    match (posted, before, after) {
        (true, None, _) => Does::PostAlone,
        (true, ..) if before == after => Does::PostBehind,
        (true, ..) => Does::PostAhead,
        (false, _, None) => Does::WithdrawLast,
        (false, ..) if before == after => Does::WithdrawLater,
        (false, ..) => Does::WithdrawFollowed,
    }
}

/// A book somewhere in a table of other words, and the scan beside it.
struct Pair {
    table: Vec<i64>,
    start: usize,
    scan: Scan,
    /// how often an update of each kind was accepted
    seen: [usize; KINDS_OF_UPDATE],
    /// how many take-backs were accepted, and how many were declined
    taken_back: usize,
    nothing_left: usize,
    /// how many offers were reported between the updates
    reported: usize,
}

impl Pair {
    fn open(r: &mut Random, capacity: usize) -> Pair {
        let start = r.within(0, 70) as usize;
        let mut table: Vec<i64> = (0..start + words(capacity) + 9).map(|_| r.word()).collect();
        let before = table.clone();
        lent::open(&mut table, start, capacity as i64).unwrap();
        let seen = [0; KINDS_OF_UPDATE];
        let pair = Pair { table, start, scan: Scan::new(capacity), seen, taken_back: 0, nothing_left: 0, reported: 0 };
        pair.same_outside(&before);
        pair
    }

    fn same_outside(&self, before: &[i64]) {
        let end = self.start + words(self.scan.capacity);
        assert_eq!(self.table[..self.start], before[..self.start]);
        assert_eq!(self.table[end..], before[end..]);
    }

    /// holds an update's answer to the scan's, and a refusal to changing nothing
    fn hold(&self, before: Option<Vec<i64>>, expected: Result<i64, i64>, told: Result<Update, Declined>) {
        assert_eq!(told.map(|u| u.live).map_err(Declined::number), expected);
        if let Some(before) = before {
            match told {
                Ok(_) => self.same_outside(&before),
                Err(_) => assert!(self.table == before),
            }
        }
    }

    /// holds an update's counts to their bounds; nothing is searched where the first offer of its rate stays, nor where no other rate is live
    fn hold_counts(&mut self, n: usize, rate: i64, first: Option<Offer>, u: Update) {
        assert!(u.searches <= 8 * log2_up(n.max(self.scan.offers.len())) + 4);
        assert!(u.steps >= u.searches && u.steps <= 3 * u.heights + u.searches);
        let after = self.scan.first_of(rate);
        if first == after || self.scan.offers.iter().all(|o| o.rate == rate) {
            assert_eq!((u.searches, u.steps, u.heights), (0, 0, 0));
        }
        self.seen[does(self.scan.offers.len() > n, first, after) as usize] += 1;
    }

    /// an update of an offer with that rate, by the book and by the scan
    fn update(
        &mut self,
        rate: i64,
        whole: bool,
        by_book: impl FnOnce(&mut [i64], usize) -> Result<Update, Declined>,
        by_scan: impl FnOnce(&mut Scan) -> Result<i64, i64>,
    ) -> Result<Update, Declined> {
        let before = whole.then(|| self.table.clone());
        let n = self.scan.offers.len();
        let first = self.scan.first_of(rate);
        let told = by_book(&mut self.table, self.start);
        let expected = by_scan(&mut self.scan);
        self.hold(before, expected, told);
        if let Ok(u) = told {
            self.hold_counts(n, rate, first, u);
        }
        told
    }

    fn post(&mut self, o: Offer, whole: bool) -> Result<Update, Declined> {
        let by_book = |table: &mut [i64], start| lent::post(table, start, o.number, o.rate, o.base);
        self.update(o.rate, whole, by_book, |scan| scan.post(o))
    }

    fn withdraw(&mut self, number: i64, whole: bool) -> Result<Update, Declined> {
        let rate = self.scan.offers.iter().find(|o| o.number == number).map_or(0, |o| o.rate);
        let by_book = |table: &mut [i64], start| lent::withdraw(table, start, number);
        self.update(rate, whole, by_book, |scan| scan.withdraw(number))
    }

    /// its counts are those of the update that it performs
    fn take_back(&mut self, whole: bool) -> Result<Update, Declined> {
        let last = self.scan.memory.back().copied();
        let undoing = last.filter(|_| whole).map(|done| self.undoing(done));
        let told = self.update(last.map_or(0, |done| done.offer.rate), whole, lent::take_back, Scan::take_back);
        if let Some(update) = undoing {
            assert_eq!(told, update);
        }
        self.taken_back += told.is_ok() as usize;
        self.nothing_left += told.is_err() as usize;
        told
    }

    /// what the update that undoes another tells on the same words
    fn undoing(&self, done: Done) -> Result<Update, Declined> {
        let mut table = self.table.clone();
        let Offer { number, rate, base } = done.offer;
        if done.posted {
            lent::withdraw(&mut table, self.start, number)
        } else {
            lent::post(&mut table, self.start, number, rate, base)
        }
    }

    fn query(&self, load: i64) -> Option<Found> {
        let told = lent::query(&self.table, self.start, load);
        assert_eq!(told.map(|f| (f.number, f.price, f.second)).map_err(Declined::number), self.scan.query(load), "load {load}");
        let found = told.ok()?;
        assert!((0..=2 * log2_up(self.scan.offers.len())).contains(&found.probes));
        Some(found)
    }

    /// how many pieces are listed
    fn listing(&self) -> usize {
        let expected = self.scan.listing();
        let mut out = vec![-7; expected.len() + 4];
        assert_eq!(lent::listing(&self.table, self.start, &mut out), Ok(expected.len() / 3));
        assert_eq!(out[..expected.len()], expected[..]);
        assert_eq!(out[expected.len()..], [-7; 4]);
        let mut exact = vec![-7; expected.len()];
        assert_eq!(lent::listing(&self.table, self.start, &mut exact), Ok(expected.len() / 3));
        assert_eq!(exact, expected);
        let read = lent::pieces(&self.table, self.start).unwrap();
        assert!(read.flat_map(|p| [p.number, p.numerator, p.denominator]).eq(expected.iter().copied()));
        if let Some(short) = expected.len().checked_sub(1) {
            let mut out = vec![-7; short];
            assert_eq!(lent::listing(&self.table, self.start, &mut out), Err(Declined::OutputTooShort));
            assert_eq!(out, vec![-7; short]);
        }
        expected.len() / 3
    }

    fn check(&self) {
        assert!(lent::check(&self.table, self.start));
    }

    /// a report at a price that is a live offer's, or one cent off
    fn report(&self, r: &mut Random, load: i64) -> usize {
        let price = if self.scan.offers.is_empty() { 0 } else { r.pick(&self.scan.offers).price(load) + r.within(-1, 1) };
        hold_report(&self.table, self.start, &self.scan, load, price).unwrap_or_default()
    }

    /// a listing, queries, reports and the check; no probe goes deeper than so many pieces ask for
    fn sweep(&self, r: &mut Random) {
        let deepest = 2 * log2_up(self.listing());
        let mut loads = vec![-1_000_000, 1_000_000, 1_000_001, -1_000_001, i64::MIN, 13];
        loads.extend([r.within(-1_000_000, 1_000_000), r.within(-40, 40)]);
        loads.extend((0..4).map(|_| self.near_crossing(r)));
        for load in loads {
            assert!(self.query(load).map_or(true, |found| found.probes <= deepest));
        }
        for load in [r.pick(&[-1_000_000, 1_000_000, 1_000_001, i64::MIN]), r.within(-40, 40), self.near_crossing(r)] {
            hold_reports(r, &self.table, self.start, &self.scan, load);
        }
        self.check();
    }

    /// a load at which two live offers cost nearly the same, where they do so in range
    fn near_crossing(&self, r: &mut Random) -> i64 {
        if self.scan.offers.is_empty() {
            return 0;
        }
        let (a, b) = (r.pick(&self.scan.offers), r.pick(&self.scan.offers));
        if a.rate == b.rate {
            return 0;
        }
        ((b.base - a.base) / (a.rate - b.rate) + r.within(-1, 1)).clamp(-1_000_000, 1_000_000)
    }

    fn number_to_withdraw(&self, r: &mut Random) -> i64 {
        if self.scan.offers.is_empty() || r.one_in(12) {
            return r.within(-1, 10_001);
        }
        // half the time one that is listed, so that hidden ones come up
        let load = self.near_crossing(r);
        match self.query(load) {
            Some(found) if r.one_in(2) => found.number,
            _ => r.pick(&self.scan.offers).number,
        }
    }

    /// a post or a withdrawal that is accepted
    fn some_update(&mut self, r: &mut Random, lie: Lie) {
        loop {
            let told = if r.one_in(2) {
                self.post(offer(r, lie, self.scan.capacity as i64), true)
            } else {
                let number = self.number_to_withdraw(r);
                self.withdraw(number, true)
            };
            if told.is_ok() {
                return;
            }
        }
    }

    /// withdraws all offers, so that each hidden one comes up
    fn withdraw_all(&mut self, r: &mut Random) {
        while let Some(o) = self.scan.offers.first().copied() {
            self.withdraw(o.number, true).unwrap();
            self.sweep(r);
        }
    }

    /// the live offers, by number
    fn offers(&self) -> Vec<Offer> {
        let mut offers = self.scan.offers.clone();
        offers.sort_by_key(|o| o.number);
        offers
    }
}

/// the offers that updates leave, by number
fn left_by(updates: &[Done]) -> Vec<Offer> {
    let mut left = BTreeMap::new();
    for done in updates {
        if done.posted {
            left.insert(done.offer.number, done.offer);
        } else {
            left.remove(&done.offer.number);
        }
    }
    left.into_values().collect()
}

/// none, some or all of an offer's entries out of range
fn key_wrong(r: &mut Random, o: &mut Offer) {
    if r.one_in(2) {
        o.number = r.pick(&[0, 10_000, -5, i64::MAX, i64::MIN]);
    }
    if r.one_in(2) {
        o.rate = r.pick(&[100_001, -100_001, i64::MAX, i64::MIN]);
    }
    if r.one_in(2) {
        o.base = r.pick(&[1_000_000_001, -1_000_000_001, i64::MAX, i64::MIN]);
    }
}

struct Kind {
    capacity: usize,
    calls: usize,
    /// one call of so many is held to the whole table, as all are in small books, and is followed by queries and a listing that are held
    /// to the scan, and by the check
    every: usize,
}

fn history(seed: u64, lie: Lie, kind: &Kind) -> Pair {
    let r = &mut Random::new(seed);
    let mut pair = Pair::open(r, kind.capacity);
    let mut posts = 95;
    let mut take_backs = 3;
    let mut was_full = false;
    for call in 0..kind.calls {
        // the book fills up first; then it empties, fills, is taken back and stays about as it is, by turns
        if call > 3 * kind.capacity && r.one_in(kind.capacity as i64 / 2 + 5) {
            posts = r.pick(&[90, 70, 50, 40, 10]);
            take_backs = r.pick(&[0, 3, 45, 97]);
        }
        was_full |= pair.scan.offers.len() == kind.capacity;
        let whole = kind.capacity <= 64 || call % kind.every == 0;
        if r.one_in(8) {
            let load = pair.near_crossing(r);
            pair.reported += pair.report(r, load);
        } else if r.within(1, 100) <= take_backs {
            pair.take_back(whole).ok();
        } else if r.within(1, 100) <= posts {
            let mut o = offer(r, lie, kind.capacity as i64);
            if r.one_in(20) {
                key_wrong(r, &mut o);
            }
            pair.post(o, whole).ok();
        } else {
            let number = pair.number_to_withdraw(r);
            pair.withdraw(number, whole).ok();
        }
        if call % kind.every == 0 {
            pair.sweep(r);
        }
    }
    assert!(was_full);
    pair
}

fn histories(first: u64, each: u64, kind: Kind) {
    for (i, lie) in LIES.iter().enumerate() {
        for seed in 0..each {
            history(first + 100 * i as u64 + seed, *lie, &kind);
        }
    }
}

#[test]
fn few_rates() {
    let mut seen = [0; KINDS_OF_UPDATE];
    for (i, lie) in FEW_RATES.iter().enumerate() {
        for capacity in [6, 20, 64, 300] {
            let kind = Kind { capacity, calls: 3_000, every: 10 };
            let pair = history(700_000 + 1_000 * i as u64 + capacity as u64, *lie, &kind);
            seen.iter_mut().zip(pair.seen).for_each(|(sum, count)| *sum += count);
        }
    }
    assert!(seen.iter().all(|n| *n > 500), "{seen:?}");
}

#[test]
fn capacity_1() {
    histories(1_000, 10, Kind { capacity: 1, calls: 60, every: 1 });
}

#[test]
fn capacity_2() {
    histories(2_000, 20, Kind { capacity: 2, calls: 100, every: 1 });
}

#[test]
fn capacity_3() {
    histories(3_000, 20, Kind { capacity: 3, calls: 150, every: 1 });
    histories(3_500, 1, Kind { capacity: 3, calls: 5_000, every: 1 });
}

#[test]
fn other_small_capacities() {
    for capacity in 4..=24 {
        histories(4_000 + 1_000 * capacity as u64, 2, Kind { capacity, calls: 300, every: 1 });
    }
}

#[test]
fn capacity_64() {
    histories(64_000, 5, Kind { capacity: 64, calls: 1_200, every: 1 });
}

#[test]
fn capacity_4096() {
    histories(4_096_000, 1, Kind { capacity: 4_096, calls: 20_000, every: 1_000 });
}

#[test]
fn a_hundred_thousand_calls() {
    for (lie, capacity) in [(Lie::Close, 20), (Lie::Mixed, 64), (Lie::Shared, 300), (Lie::Tangent, 900)] {
        let pair = history(100_000 + capacity as u64, lie, &Kind { capacity, calls: 100_000, every: 100 });
        // down to an empty memory and past a full one, again and again
        assert!(pair.taken_back > 15_000 && pair.nothing_left > 100 && pair.scan.forgotten > 1_000);
        assert!(pair.reported > 50_000, "{}", pair.reported);
    }
}

/// Of 300 take-backs behind 300 updates 256 are accepted, and what the first 44 updates left stands.
#[test]
fn three_hundred_taken_back() {
    for (i, lie) in LIES.iter().enumerate() {
        let r = &mut Random::new(300_000 + i as u64);
        let capacity = r.pick(&[3, 12, 40, 200]);
        let mut pair = Pair::open(r, capacity);
        // the offers before the first update, behind it, behind the second, and so on
        let mut stood = vec![pair.offers()];
        for _ in 0..300 {
            pair.some_update(r, *lie);
            stood.push(pair.offers());
        }
        for back in 1..=300 {
            let told = pair.take_back(true).map(|u| u.live as usize);
            if back <= 256 {
                assert_eq!(told, Ok(stood[300 - back].len()));
            } else {
                assert_eq!(told, Err(Declined::NothingToTakeBack));
            }
            assert_eq!(pair.offers(), stood[300 - back.min(256)]);
            pair.sweep(r);
        }
        pair.withdraw_all(r);
    }
}

/// Updates and take-backs by turns, so many that older updates fall out of memory: what the remaining ones leave stands.
#[test]
fn what_is_not_taken_back_stands() {
    for (i, lie) in LIES.iter().enumerate() {
        let r = &mut Random::new(310_000 + i as u64);
        let capacity = r.pick(&[3, 12, 40, 200]);
        let mut pair = Pair::open(r, capacity);
        let mut remaining = vec![];
        for _ in 0..25 {
            for _ in 0..r.within(1, 300) {
                pair.some_update(r, *lie);
                remaining.extend(pair.scan.memory.back());
            }
            for _ in 0..r.within(1, 300) {
                if pair.take_back(true).is_ok() {
                    remaining.pop();
                }
            }
            assert_eq!(pair.offers(), left_by(&remaining));
            pair.sweep(r);
        }
        assert!(pair.scan.forgotten > 50 && pair.nothing_left > 50);
        pair.withdraw_all(r);
    }
}

/// A full book at one rate, filled and emptied in mixed orders. Its tree of offers is one leaf, so nothing is ever searched.
#[test]
fn all_4096_at_one_rate() {
    let r = &mut Random::new(4_096_001);
    let mut pair = Pair::open(r, 4_096);
    let mut numbers: Vec<i64> = (1..=4_096).collect();
    for i in (1..numbers.len()).rev() {
        numbers.swap(i, r.within(0, i as i64) as usize);
    }
    for (i, number) in numbers.iter().enumerate() {
        pair.post(Offer { number: *number, rate: 77, base: r.within(-500, 500) }, false).unwrap();
        if i % 256 == 0 {
            pair.sweep(r);
        }
    }
    pair.post(Offer { number: 5_000, rate: 77, base: 0 }, false).unwrap_err();
    assert_eq!(pair.scan.offers.len(), 4_096);
    for i in 0..4_096 {
        let first = pair.scan.first_of(77).unwrap().number;
        let number = if r.one_in(2) { first } else { r.pick(&pair.scan.offers).number };
        pair.withdraw(number, false).unwrap();
        if i % 256 == 0 {
            pair.sweep(r);
        }
    }
    pair.sweep(r);
    assert!(pair.scan.offers.is_empty());
    let seen = |kind: Does| pair.seen[kind as usize];
    assert!(seen(Does::PostAhead) > 5 && seen(Does::PostBehind) > 4_000);
    assert!(seen(Does::WithdrawFollowed) > 1_500 && seen(Does::WithdrawLater) > 1_500 && seen(Does::WithdrawLast) == 1);
}

#[test]
fn short_histories_of_all_calls() {
    // every sequence of four of eleven calls
    let offers = [(1, 2, 0), (2, 1, 5), (3, 0, 10), (1, -3, 7), (2, 2, -1), (4, 1, 11)];
    for sequence in 0..14_641 {
        let mut pair = Pair::open(&mut Random::new(7), 3);
        let mut rest = sequence;
        for _ in 0..4 {
            match rest % 11 {
                n @ 0..=5 => {
                    let (number, rate, base) = offers[n];
                    pair.post(Offer { number, rate, base }, true).ok()
                }
                n @ 6..=9 => pair.withdraw(n as i64 - 5, true).ok(),
                _ => pair.take_back(true).ok(),
            };
            rest /= 11;
            for load in [-12, 2, 5, 10] {
                pair.query(load);
                hold_report(&pair.table, pair.start, &pair.scan, load, 10).unwrap();
            }
            pair.listing();
            pair.check();
        }
    }
}
