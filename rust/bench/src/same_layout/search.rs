//! The meeting of two envelopes, step for step as the requirements tell it.
use super::trees::slot_of;
use super::{Book, BASE, DATA, INNER, PIECE, PIECES, RATE, THREAD};

/// One side of a search, and the nodes from which it turned inward.
struct Walk {
    at: usize,
    stack: [u32; 24],
    depth: usize,
}

impl Walk {
    fn from(at: usize) -> Walk {
        Walk { at, stack: [0; 24], depth: 0 }
    }

    fn top(&self) -> usize {
        self.stack[self.depth - 1] as usize
    }

    /// the slot that keeps this side's point, 0 for a missing end
    fn point(&self) -> usize {
        if self.at > INNER {
            self.at - INNER
        } else if self.depth > 0 {
            self.top() - INNER
        } else {
            0
        }
    }
}

impl Book {
    fn price(&self, slot: usize, n: i64, d: i64) -> i64 {
        self.get(DATA, slot, BASE) * d + self.get(DATA, slot, RATE) * n
    }

    /// whether the point that slot `p` keeps is on or above the local envelope of node `x`
    fn above(&self, p: usize, x: usize) -> bool {
        if p == 0 {
            return false;
        }
        let (n, d) = (self.get(PIECE, p, 2), self.get(PIECE, p, 3));
        let point = self.price(p, n, d);
        let slot = slot_of(x);
        self.price(slot, n, d) <= point || x > INNER && self.price(self.link(THREAD, slot, 3), n, d) <= point
    }

    /// a leaf stays
    fn retreat(&self, side: usize, w: &mut Walk) {
        if w.at > INNER {
            w.at = self.child(PIECES, w.at, side);
        }
    }

    fn advance(&self, side: usize, w: &mut Walk) {
        if w.at > INNER {
            w.stack[w.depth] = w.at as u32;
            w.depth += 1;
            w.at = self.child(PIECES, w.at, 1 - side);
        }
    }

    fn pop(&self, side: usize, w: &mut Walk) {
        w.at = self.child(PIECES, w.top(), side);
        w.depth -= 1;
    }

    /// case 1 for side 0, case 2 for side 1
    fn recede(&self, side: usize, ours: &mut Walk, other: &mut Walk) {
        if ours.depth == 0 {
            return self.retreat(side, ours);
        }
        let top = ours.top();
        if ours.at <= INNER || self.above(top - INNER, other.at) {
            return self.pop(side, ours);
        }
        if self.above(other.point(), top) {
            self.retreat(1 - side, other);
        } else {
            self.advance(1 - side, other);
        }
        self.retreat(side, ours);
    }

    pub(super) fn meet(&self, l: usize, r: usize) -> (usize, usize, i64) {
        let (mut u, mut v) = (Walk::from(l), Walk::from(r));
        let mut steps = 1;
        loop {
            if self.above(u.point(), v.at) {
                self.recede(0, &mut u, &mut v);
            } else if self.above(v.point(), u.at) {
                self.recede(1, &mut v, &mut u);
            } else if u.at <= INNER && v.at <= INNER {
                return (u.at, v.at, steps);
            } else {
                self.advance(0, &mut u);
                self.advance(1, &mut v);
            }
            steps += 1;
        }
    }
}
