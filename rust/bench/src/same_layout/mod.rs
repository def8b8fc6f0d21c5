//! The book once more in plain Rust, with the same words in the same places and the same searches, but nothing proved and no word
//! mistrusted: what the proved archive's times are held to.

mod filing;
mod memory;
mod search;
mod trees;

use trees::slot_of;

/// Node numbers up to this are leaves, by their slot; an inner node is this much more than the slot that keeps it.
const INNER: usize = 4096;

/// Planes of four words a slot.
const DATA: usize = 0;
const PIECE: usize = 1;
const THREAD: usize = 4;
const STORED: usize = 5;
const HEIGHTS: usize = 6;

/// The trees; the children of tree `t` are in plane 1 + t.
const PIECES: usize = 0;
const OFFERS: usize = 1;
const NUMBERS: usize = 2;
const ORDER: usize = 3;

/// Words of the data plane. A free slot has the next free one in the place of a rank.
const NUMBER: usize = 0;
const RATE: usize = 1;
const BASE: usize = 2;
const RANK: usize = 3;
const NEXT_FREE: usize = 3;

/// Words of the header.
const CAPACITY: usize = 0;
const OFFERS_ROOT: usize = 1;
const ENVELOPE_ROOT: usize = 2;
const LIVE_COUNT: usize = 3;
const NUMBERS_ROOT: usize = 4;
const FIRST_FREE: usize = 5;
const ORDER_ROOT: usize = 6;
const LAST_ENTRY: usize = 7;
const REMEMBERED: usize = 8;

pub struct Book {
    pub words: Vec<i64>,
    slots: usize,
}

/// A subtree of offers, with the root of its whole envelope.
#[derive(Clone, Copy)]
struct Held {
    x: usize,
    e: usize,
}

impl Held {
    /// the leaf in a slot, or at 0 nothing
    fn alone(slot: usize) -> Held {
        Held { x: slot, e: slot }
    }
}

/// Searches, their steps, and the heights of the trees searched.
#[derive(Clone, Copy, Default, Debug, PartialEq)]
pub struct Counts {
    pub searches: i64,
    pub steps: i64,
    pub heights: i64,
}

impl Book {
    pub fn open(capacity: usize) -> Book {
        let slots = capacity + 1;
        let mut book = Book { words: vec![0; 64 * slots + memory::MEMORY], slots };
        book.words[CAPACITY] = capacity as i64;
        book.words[FIRST_FREE] = 1;
        book.words[LAST_ENTRY] = 255;
        for slot in 1..capacity {
            book.put(DATA, slot, NEXT_FREE, slot as i64 + 1);
        }
        book
    }

    /// where the pieces that stay with node `x` are kept
    fn stored(&self, x: usize) -> usize {
        self.at(STORED, slot_of(x), (x <= INNER) as usize)
    }

    /// the envelope is cut at the node's bridge, so that one end of each seam is known
    fn lower(&mut self, v: Held) -> [Held; 2] {
        let (l, r) = (self.child(OFFERS, v.x, 0), self.child(OFFERS, v.x, 1));
        let m = v.x - INNER;
        let (front, back) = self.cut(v.e, self.get(DATA, m, RATE));
        let (left, right) = (self.words[self.stored(l)] as usize, self.words[self.stored(r)] as usize);
        let le = match left {
            0 => front,
            _ => self.cat_at(front, left, self.link(1 + OFFERS, m, 2), self.end(PIECES, 0, left)),
        };
        let re = match right {
            0 => back,
            _ => self.cat_at(right, back, self.end(PIECES, 1, right), self.link(1 + OFFERS, m, 3)),
        };
        [Held { x: l, e: le }, Held { x: r, e: re }]
    }

    fn raise(&mut self, gap: usize, l: Held, r: Held, counts: &mut Counts) -> Held {
        let (u, v, steps) = self.meet(l.e, r.e);
        counts.searches += 1;
        counts.steps += steps;
        counts.heights += self.height(PIECES, l.e) + self.height(PIECES, r.e);
        let (front, left) = self.cut_behind(l.e, u, gap);
        let (right, back) = self.cut_before(r.e, v);
        let (at_left, at_right) = (self.stored(l.x), self.stored(r.x));
        self.words[at_left] = left as i64;
        self.words[at_right] = right as i64;
        let x = self.node(OFFERS, gap, l.x, r.x);
        self.put(1 + OFFERS, gap, 2, u as i64);
        self.put(1 + OFFERS, gap, 3, v as i64);
        Held { x, e: self.cat_at(front, back, u, v) }
    }

    fn raise_on(&mut self, side: usize, gap: usize, p: Held, q: Held, counts: &mut Counts) -> Held {
        if side == 0 {
            self.raise(gap, p, q, counts)
        } else {
            self.raise(gap, q, p, counts)
        }
    }

    fn lower_on(&mut self, side: usize, v: Held) -> (Held, Held) {
        let children = self.lower(v);
        (children[side], children[1 - side])
    }

    fn rebalance(&mut self, side: usize, gap: usize, p: Held, q: Held, counts: &mut Counts) -> Held {
        let (hp, hq) = (self.height(OFFERS, p.x), self.height(OFFERS, q.x));
        if hq > hp + 1 {
            return self.rebalance(1 - side, gap, q, p, counts);
        }
        if hp <= hq + 1 {
            return self.raise_on(side, gap, p, q, counts);
        }
        let near = p.x - INNER;
        let (outer, middle) = self.lower_on(side, p);
        if self.height(OFFERS, middle.x) <= self.height(OFFERS, outer.x) {
            let y = self.raise_on(side, gap, middle, q, counts);
            return self.raise_on(side, near, outer, y, counts);
        }
        let (a, b) = self.lower_on(side, middle);
        let x = self.raise_on(side, near, outer, a, counts);
        let y = self.raise_on(side, gap, b, q, counts);
        self.raise_on(side, middle.x - INNER, x, y, counts)
    }

    fn insert(&mut self, v: Held, slot: usize, counts: &mut Counts) -> Held {
        let rate = self.get(DATA, slot, RATE);
        let side = (rate <= self.get(DATA, slot_of(v.x), RATE)) as usize;
        if v.x <= INNER {
            let gap = if side == 0 { slot } else { v.x };
            return self.raise_on(side, gap, Held::alone(slot), v, counts);
        }
        let (near, far) = self.lower_on(side, v);
        let grown = self.insert(near, slot, counts);
        self.rebalance(side, v.x - INNER, grown, far, counts)
    }

    /// takes the leaf in `slot` out, and puts the one in slot `by`, if that is not 0, in its place
    fn remove(&mut self, v: Held, slot: usize, by: usize, counts: &mut Counts) -> Held {
        if v.x <= INNER {
            return Held::alone(by);
        }
        let side = (self.get(DATA, slot, RATE) < self.get(DATA, v.x - INNER, RATE)) as usize;
        let (near, far) = self.lower_on(side, v);
        let left = self.remove(near, slot, by, counts);
        if left.x == 0 {
            return far;
        }
        let gap = if side == 0 { self.end(OFFERS, 1, left.x) } else { v.x - INNER };
        self.rebalance(side, gap, left, far, counts)
    }
}
