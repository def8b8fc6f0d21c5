//! An offer is put in and taken out: the slots, the two indexes over all live offers, and the tree with a leaf for each rate.
use super::{Book, Counts, Held};
use super::{CAPACITY, DATA, ENVELOPE_ROOT, FIRST_FREE, LIVE_COUNT, NEXT_FREE, NUMBER, NUMBERS, NUMBERS_ROOT};
use super::{OFFERS, OFFERS_ROOT, ORDER, ORDER_ROOT, RANK, RATE};

/// Ranks fall in the order of offers: each rate has a span of them, in it each base, in that each number.
const RANKS_A_RATE: i64 = 20_000_000_010_000;
const RANKS_A_BASE: i64 = 10_000;

fn rank(number: i64, rate: i64, base: i64) -> i64 {
    rate * RANKS_A_RATE - (base * RANKS_A_BASE + number)
}

impl Book {
    fn root(&self, at: usize) -> usize {
        self.words[at] as usize
    }

    fn held(&self) -> Held {
        Held { x: self.root(OFFERS_ROOT), e: self.root(ENVELOPE_ROOT) }
    }

    fn set_roots(&mut self, held: Held, live: i64) {
        self.words[OFFERS_ROOT] = held.x as i64;
        self.words[ENVELOPE_ROOT] = held.e as i64;
        self.words[LIVE_COUNT] = live;
    }

    /// puts an offer into the first free slot
    fn fill(&mut self, number: i64, rate: i64, base: i64) -> usize {
        let slot = self.root(FIRST_FREE);
        self.words[FIRST_FREE] = self.get(DATA, slot, NEXT_FREE);
        let at = self.at(DATA, slot, 0);
        self.words[at..at + 4].copy_from_slice(&[number, rate, base, rank(number, rate, base)]);
        slot
    }

    fn give(&mut self, slot: usize) {
        let free = self.words[FIRST_FREE];
        self.put(DATA, slot, NUMBER, 0);
        self.put(DATA, slot, NEXT_FREE, free);
        self.words[FIRST_FREE] = slot as i64;
    }

    /// enters the offer in `slot` in the index whose root is at word `at`
    fn enter(&mut self, tree: usize, key: usize, at: usize, slot: usize) {
        self.words[at] = match self.root(at) {
            0 => slot,
            root => self.add(tree, key, root, slot, self.get(DATA, slot, key)),
        } as i64;
    }

    fn strike(&mut self, tree: usize, key: usize, at: usize, value: i64) {
        self.words[at] = self.drop(tree, key, self.root(at), value) as i64;
    }

    /// the slot of the offer behind that in `slot`, where it has the same rate, and 0 otherwise
    fn follower(&self, slot: usize) -> usize {
        let next = self.after(ORDER, RANK, self.root(ORDER_ROOT), self.get(DATA, slot, RANK));
        if next > 0 && self.get(DATA, next, RATE) == self.get(DATA, slot, RATE) {
            next
        } else {
            0
        }
    }

    /// joins the offer in `slot` to the tree; that in slot `first` is the first of its rate, 0 for none
    fn join_in(&mut self, slot: usize, first: usize, counts: &mut Counts) -> Held {
        let held = self.held();
        if held.x == 0 {
            Held::alone(slot)
        } else if first == 0 {
            self.insert(held, slot, counts)
        } else if self.get(DATA, slot, RANK) > self.get(DATA, first, RANK) {
            self.remove(held, first, slot, counts)
        } else {
            held
        }
    }

    /// puts an offer in; the live count after it and the counts, or the cause's number
    pub(super) fn put_in(&mut self, number: i64, rate: i64, base: i64) -> Result<(i64, Counts), i64> {
        if self.find(NUMBERS, NUMBER, self.root(NUMBERS_ROOT), number) > 0 {
            return Err(5);
        }
        if self.words[LIVE_COUNT] == self.words[CAPACITY] {
            return Err(7);
        }
        let first = self.find(OFFERS, RATE, self.root(OFFERS_ROOT), rate);
        let slot = self.fill(number, rate, base);
        self.enter(NUMBERS, NUMBER, NUMBERS_ROOT, slot);
        self.enter(ORDER, RANK, ORDER_ROOT, slot);
        let mut counts = Counts::default();
        let held = self.join_in(slot, first, &mut counts);
        self.set_roots(held, self.words[LIVE_COUNT] + 1);
        Ok((self.words[LIVE_COUNT], counts))
    }

    /// takes an offer out; the slot that it had, and the same
    pub(super) fn take_out(&mut self, number: i64) -> Result<(usize, (i64, Counts)), i64> {
        let slot = self.find(NUMBERS, NUMBER, self.root(NUMBERS_ROOT), number);
        if slot == 0 {
            return Err(8);
        }
        let first = self.find(OFFERS, RATE, self.root(OFFERS_ROOT), self.get(DATA, slot, RATE));
        let by = self.follower(slot);
        self.strike(NUMBERS, NUMBER, NUMBERS_ROOT, number);
        self.strike(ORDER, RANK, ORDER_ROOT, self.get(DATA, slot, RANK));
        let mut counts = Counts::default();
        let held = match self.held() {
            held if first == slot => self.remove(held, slot, by, &mut counts),
            held => held,
        };
        self.set_roots(held, self.words[LIVE_COUNT] - 1);
        self.give(slot);
        Ok((slot, (self.words[LIVE_COUNT], counts)))
    }
}
