//! Balanced trees in the words: one set of functions for the four trees, and for both sides.
use super::{Book, BASE, DATA, HEIGHTS, INNER, PIECE, PIECES, RATE, THREAD};

pub(super) fn slot_of(x: usize) -> usize {
    if x > INNER {
        x - INNER
    } else {
        x
    }
}

impl Book {
    pub(super) fn at(&self, plane: usize, slot: usize, word: usize) -> usize {
        64 + 4 * (plane * self.slots + slot) + word
    }

    pub(super) fn get(&self, plane: usize, slot: usize, word: usize) -> i64 {
        self.words[self.at(plane, slot, word)]
    }

    pub(super) fn link(&self, plane: usize, slot: usize, word: usize) -> usize {
        self.get(plane, slot, word) as usize
    }

    pub(super) fn put(&mut self, plane: usize, slot: usize, word: usize, value: i64) {
        let at = self.at(plane, slot, word);
        self.words[at] = value;
    }

    pub(super) fn child(&self, tree: usize, x: usize, side: usize) -> usize {
        self.link(1 + tree, x - INNER, side)
    }

    pub(super) fn height(&self, tree: usize, x: usize) -> i64 {
        if x > INNER {
            self.get(HEIGHTS, x - INNER, tree)
        } else {
            0
        }
    }

    pub(super) fn node(&mut self, tree: usize, gap: usize, l: usize, r: usize) -> usize {
        let height = 1 + self.height(tree, l).max(self.height(tree, r));
        let at = self.at(1 + tree, gap, 0);
        self.words[at] = l as i64;
        self.words[at + 1] = r as i64;
        self.put(HEIGHTS, gap, tree, height);
        INNER + gap
    }

    /// `p` stands on `side`, `q` on the other
    pub(super) fn node_on(&mut self, tree: usize, side: usize, gap: usize, p: usize, q: usize) -> usize {
        if side == 0 {
            self.node(tree, gap, p, q)
        } else {
            self.node(tree, gap, q, p)
        }
    }

    pub(super) fn rotate(&mut self, tree: usize, side: usize, gap: usize, p: usize, q: usize) -> usize {
        let (outer, middle) = (self.child(tree, p, side), self.child(tree, p, 1 - side));
        let near = p - INNER;
        if self.height(tree, middle) <= self.height(tree, outer) {
            let y = self.node_on(tree, side, gap, middle, q);
            return self.node_on(tree, side, near, outer, y);
        }
        let (a, b) = (self.child(tree, middle, side), self.child(tree, middle, 1 - side));
        let x = self.node_on(tree, side, near, outer, a);
        let y = self.node_on(tree, side, gap, b, q);
        self.node_on(tree, side, middle - INNER, x, y)
    }

    pub(super) fn balance(&mut self, tree: usize, side: usize, gap: usize, p: usize, q: usize) -> usize {
        let (hp, hq) = (self.height(tree, p), self.height(tree, q));
        if hp > hq + 1 {
            self.rotate(tree, side, gap, p, q)
        } else if hq > hp + 1 {
            self.rotate(tree, 1 - side, gap, q, p)
        } else {
            self.node_on(tree, side, gap, p, q)
        }
    }

    /// joins `q` to the inner spine of `p`
    pub(super) fn splice(&mut self, tree: usize, side: usize, gap: usize, p: usize, q: usize) -> usize {
        if self.height(tree, p) <= self.height(tree, q) + 1 {
            return self.node_on(tree, side, gap, p, q);
        }
        let (outer, inner) = (self.child(tree, p, side), self.child(tree, p, 1 - side));
        let y = self.splice(tree, side, gap, inner, q);
        self.balance(tree, side, p - INNER, outer, y)
    }

    pub(super) fn join(&mut self, tree: usize, gap: usize, l: usize, r: usize) -> usize {
        if l == 0 || r == 0 {
            return l + r;
        }
        if self.height(tree, l) >= self.height(tree, r) {
            self.splice(tree, 0, gap, l, r)
        } else {
            self.splice(tree, 1, gap, r, l)
        }
    }

    /// cuts a tree behind its last leaf whose key is at least `least`; where nothing is cut off, nothing is written
    pub(super) fn split(&mut self, tree: usize, key: usize, x: usize, least: i64) -> (usize, usize) {
        let slot = slot_of(x);
        let in_front = self.get(DATA, slot, key) >= least;
        if x <= INNER {
            return if in_front { (x, 0) } else { (0, x) };
        }
        let (l, r) = (self.child(tree, x, 0), self.child(tree, x, 1));
        if in_front {
            let (front, back) = self.split(tree, key, r, least);
            if back == 0 {
                return (x, 0);
            }
            (self.join(tree, slot, l, front), back)
        } else {
            let (front, back) = self.split(tree, key, l, least);
            if front == 0 {
                return (0, x);
            }
            (front, self.join(tree, slot, back, r))
        }
    }

    /// adds leaf `slot`, whose key is `value`, to a tree that is not empty; each seam stays
    pub(super) fn add(&mut self, tree: usize, key: usize, x: usize, slot: usize, value: i64) -> usize {
        let gap = slot_of(x);
        let in_front = self.get(DATA, gap, key) >= value;
        if x <= INNER {
            return if in_front { self.node(tree, x, x, slot) } else { self.node(tree, slot, slot, x) };
        }
        let (l, r) = (self.child(tree, x, 0), self.child(tree, x, 1));
        if in_front {
            let y = self.add(tree, key, r, slot, value);
            self.join(tree, gap, l, y)
        } else {
            let y = self.add(tree, key, l, slot, value);
            self.join(tree, gap, y, r)
        }
    }

    /// drops the leaf with that key; 0 where none is left
    pub(super) fn drop(&mut self, tree: usize, key: usize, x: usize, value: i64) -> usize {
        if x <= INNER {
            return 0;
        }
        let (l, r) = (self.child(tree, x, 0), self.child(tree, x, 1));
        if value < self.get(DATA, x - INNER, key) {
            let y = self.drop(tree, key, r, value);
            return self.join(tree, x - INNER, l, y);
        }
        let y = self.drop(tree, key, l, value);
        let gap = self.end(tree, 1, y);
        self.join(tree, gap, y, r)
    }

    pub(super) fn cut(&mut self, e: usize, least: i64) -> (usize, usize) {
        if e == 0 {
            return (0, 0);
        }
        self.split(PIECES, RATE, e, least)
    }

    /// cuts behind the rate in slot `u`; nothing lies behind that in slot `s`
    pub(super) fn cut_behind(&mut self, e: usize, u: usize, s: usize) -> (usize, usize) {
        if u == s {
            return (e, 0);
        }
        self.cut(e, self.get(DATA, u, RATE))
    }

    /// cuts before the rate in slot `v`; before the first piece there is nothing
    pub(super) fn cut_before(&mut self, e: usize, v: usize) -> (usize, usize) {
        if v == self.end(PIECES, 0, e) {
            return (0, e);
        }
        self.cut(e, self.get(DATA, v, RATE) + 1)
    }

    /// the first leaf, or on side 1 the last
    pub(super) fn end(&self, tree: usize, side: usize, x: usize) -> usize {
        let mut x = x;
        while x > INNER {
            x = self.child(tree, x, side);
        }
        x
    }

    pub(super) fn find(&self, tree: usize, key: usize, root: usize, value: i64) -> usize {
        let mut x = root;
        while x > INNER {
            x = self.child(tree, x, (self.get(DATA, x - INNER, key) > value) as usize);
        }
        if x > 0 && self.get(DATA, x, key) == value {
            x
        } else {
            0
        }
    }

    /// the first leaf whose key is below that, where keys fall; 0 where there is none
    pub(super) fn after(&self, tree: usize, key: usize, root: usize, value: i64) -> usize {
        let mut x = root;
        while x > INNER {
            x = self.child(tree, x, (self.get(DATA, x - INNER, key) >= value) as usize);
        }
        if x > 0 && self.get(DATA, x, key) < value {
            x
        } else {
            0
        }
    }

    /// puts two piece trees together; `s` is the last piece of `l`, `n` the first of `r`
    pub(super) fn cat_at(&mut self, l: usize, r: usize, s: usize, n: usize) -> usize {
        if l == 0 || r == 0 {
            return l + r;
        }
        let numerator = self.get(DATA, n, BASE) - self.get(DATA, s, BASE);
        let denominator = self.get(DATA, s, RATE) - self.get(DATA, n, RATE);
        self.put(PIECE, s, 2, numerator);
        self.put(PIECE, s, 3, denominator);
        self.put(THREAD, s, 3, n as i64);
        self.join(PIECES, s, l, r)
    }
}
