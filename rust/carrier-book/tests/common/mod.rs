//! A scan of all offers, written from the requirements alone, and numbers that are the same in every run.
#![allow(dead_code)]
pub mod exact;
pub mod memory;
pub mod reports;

use std::collections::VecDeque;

/// xorshift64*
pub struct Random(u64);

impl Random {
    pub fn new(seed: u64) -> Random {
        Random(seed.wrapping_mul(0x9e37_79b9_7f4a_7c15) | 1)
    }

    pub fn word(&mut self) -> i64 {
        self.0 ^= self.0 >> 12;
        self.0 ^= self.0 << 25;
        self.0 ^= self.0 >> 27;
        self.0.wrapping_mul(0x2545_f491_4f6c_dd1d) as i64
    }

    /// from `low` to `high`, both included
    pub fn within(&mut self, low: i64, high: i64) -> i64 {
        low + ((self.word() as u64 >> 1) % (high - low + 1) as u64) as i64
    }

    pub fn one_in(&mut self, n: i64) -> bool {
        self.within(1, n) == 1
    }

    pub fn pick<T: Copy>(&mut self, from: &[T]) -> T {
        from[self.within(0, from.len() as i64 - 1) as usize]
    }
}

#[derive(Clone, Copy, Debug, PartialEq)]
pub struct Offer {
    pub number: i64,
    pub rate: i64,
    pub base: i64,
}

impl Offer {
    pub fn price(&self, load: i64) -> i64 {
        self.base + self.rate * load
    }

    /// Where it stands among the offers: by falling rate, then rising base, then rising number.
    pub fn place(&self) -> (i64, i64, i64) {
        (-self.rate, self.base, self.number)
    }
}

/// An update that was accepted: a post or a withdrawal of the offer.
#[derive(Clone, Copy, Debug, PartialEq)]
pub struct Done {
    pub posted: bool,
    pub offer: Offer,
}

/// The live offers in no order, and the last 256 updates that can be taken back, the last one behind; every answer is found by going
/// through all offers.
#[derive(Clone)]
pub struct Scan {
    pub capacity: usize,
    pub offers: Vec<Offer>,
    pub memory: VecDeque<Done>,
    /// how many updates fell out of memory
    pub forgotten: usize,
}

impl Scan {
    pub fn new(capacity: usize) -> Scan {
        Scan { capacity, offers: vec![], memory: VecDeque::new(), forgotten: 0 }
    }

    fn remember(&mut self, done: Done) {
        if self.memory.len() == 256 {
            self.memory.pop_front();
            self.forgotten += 1;
        }
        self.memory.push_back(done);
    }

    pub fn post(&mut self, o: Offer) -> Result<i64, i64> {
        if !(1..=9_999).contains(&o.number) {
            return Err(4);
        }
        if o.rate.unsigned_abs() > 100_000 {
            return Err(14);
        }
        if o.base.unsigned_abs() > 1_000_000_000 {
            return Err(15);
        }
        if self.offers.iter().any(|p| p.number == o.number) {
            return Err(5);
        }
        if self.offers.len() == self.capacity {
            return Err(7);
        }
        self.offers.push(o);
        self.remember(Done { posted: true, offer: o });
        Ok(self.offers.len() as i64)
    }

    pub fn withdraw(&mut self, number: i64) -> Result<i64, i64> {
        if !(1..=9_999).contains(&number) {
            return Err(4);
        }
        let at = self.offers.iter().position(|p| p.number == number).ok_or(8i64)?;
        let offer = self.offers.swap_remove(at);
        self.remember(Done { posted: false, offer });
        Ok(self.offers.len() as i64)
    }

    pub fn take_back(&mut self) -> Result<i64, i64> {
        let done = self.memory.pop_back().ok_or(17i64)?;
        if done.posted {
            self.offers.retain(|o| *o != done.offer);
        } else {
            self.offers.push(done.offer);
        }
        Ok(self.offers.len() as i64)
    }

    /// the first offer of a rate, in order
    pub fn first_of(&self, rate: i64) -> Option<Offer> {
        self.offers.iter().filter(|o| o.rate == rate).min_by_key(|o| o.place()).copied()
    }

    /// the first offer of each rate, in order
    pub fn firsts(&self) -> Vec<Offer> {
        let mut firsts = self.offers.clone();
        firsts.sort_by_key(Offer::place);
        firsts.dedup_by_key(|o| o.rate);
        firsts
    }

    /// the least price, and of the offers that have it the numbers of the one with the lowest rate and of the one with the highest; within
    /// a rate of the first in order
    pub fn query(&self, load: i64) -> Result<(i64, i64, i64), i64> {
        if load.unsigned_abs() > 1_000_000 {
            return Err(16);
        }
        let least = self.offers.iter().map(|o| o.price(load)).min().ok_or(9i64)?;
        let tied = || self.offers.iter().filter(|o| o.price(load) == least);
        let lowest = tied().min_by_key(|o| (o.rate, o.base, o.number)).ok_or(9i64)?;
        let highest = tied().min_by_key(|o| o.place()).ok_or(9i64)?;
        Ok((lowest.number, least, highest.number))
    }

    /// number, rate, base of each offer whose price at the load is strictly below `price`, in order
    pub fn report(&self, load: i64, price: i64) -> Result<Vec<i64>, i64> {
        if price.unsigned_abs() > 101_000_000_000 {
            return Err(4);
        }
        if load.unsigned_abs() > 1_000_000 {
            return Err(16);
        }
        let mut under: Vec<Offer> = self.offers.iter().copied().filter(|o| o.price(load) < price).collect();
        under.sort_by_key(Offer::place);
        Ok(under.iter().flat_map(|o| [o.number, o.rate, o.base]).collect())
    }

    /// Whether an offer is strictly cheaper than every one of another rate at some rational load: it is so right of its greatest crossing
    /// with an offer of a higher rate and left of its least with one of a lower rate. No product reaches 2^49.
    fn is_listed(&self, e: &Offer) -> bool {
        let mut after: Option<(i64, i64)> = None;
        let mut before: Option<(i64, i64)> = None;
        for o in &self.offers {
            let n = o.base - e.base;
            let d = e.rate - o.rate;
            if d < 0 && after.map_or(true, |(m, f)| -n * f > m * -d) {
                after = Some((-n, -d));
            } else if d > 0 && before.map_or(true, |(m, f)| n * f < m * d) {
                before = Some((n, d));
            } else {
                continue;
            }
            if let (Some((n, d)), Some((m, f))) = (after, before) {
                if n * f >= m * d {
                    return false;
                }
            }
        }
        true
    }

    /// number, numerator, denominator a piece; of each rate only the first offer can be one
    pub fn listing(&self) -> Vec<i64> {
        let listed: Vec<Offer> = self.firsts().into_iter().filter(|e| self.is_listed(e)).collect();
        let mut out = vec![];
        for (i, o) in listed.iter().enumerate() {
            let (n, d) = listed.get(i + 1).map_or((0, 0), |next| (next.base - o.base, o.rate - next.rate));
            out.extend([o.number, n, d]);
        }
        out
    }
}

/// the least j with 2^j ≥ n
pub fn log2_up(n: usize) -> i64 {
    let mut j = 0;
    while 1usize << j < n {
        j += 1;
    }
    j
}

/// How the offers of a history lie to each other.
#[derive(Clone, Copy, Debug)]
pub enum Lie {
    /// anywhere in the whole ranges
    Anywhere,
    /// in ranges so small that most crossings coincide
    Close,
    /// tangents of a parabola: each is listed
    Tangent,
    /// tangents from the other side: only the two outermost are listed
    Hidden,
    /// all through one point
    Pencil,
    /// parallel families through few points, with tangents among them
    Mixed,
    /// all at one rate
    OneRate,
    /// three rates, and bases so few that several offers have the same of both
    ThreeRates,
    /// eight rates, with as few bases
    EightRates,
    /// about a rate for four offers: tangents, and offers a little above them
    Shared,
}

pub const LIES: [Lie; 10] = [
    Lie::Anywhere,
    Lie::Close,
    Lie::Tangent,
    Lie::Hidden,
    Lie::Pencil,
    Lie::Mixed,
    Lie::OneRate,
    Lie::ThreeRates,
    Lie::EightRates,
    Lie::Shared,
];

/// Those with few rates.
pub const FEW_RATES: [Lie; 4] = [Lie::OneRate, Lie::ThreeRates, Lie::EightRates, Lie::Shared];

pub fn offer(r: &mut Random, lie: Lie, capacity: i64) -> Offer {
    let number = r.within(1, (3 * capacity).min(9_999));
    let span = (2 * capacity + 2).max(6);
    let (rate, base) = match lie {
        Lie::Anywhere => (r.within(-100_000, 100_000), r.within(-1_000_000_000, 1_000_000_000)),
        Lie::Close => (r.within(-span, span), r.within(-12, 12)),
        Lie::Tangent => {
            let rate = r.within(-30_000, 30_000);
            (rate, rate * rate)
        }
        Lie::Hidden => {
            let rate = r.within(-30_000, 30_000);
            (rate, -rate * rate)
        }
        Lie::Pencil => {
            let rate = r.within(-span, span);
            (rate, 1_000 - 13 * rate)
        }
        Lie::Mixed => {
            let rate = r.within(-span, span);
            let base = match r.within(0, 3) {
                0 => rate * rate,
                1 => 50 - 7 * rate,
                2 => 50 + 2 * rate,
                _ => r.within(-span, span),
            };
            (rate, base)
        }
        Lie::OneRate => (-5, r.within(-3, 3)),
        Lie::ThreeRates => (r.within(-1, 1), r.within(-4, 4)),
        Lie::EightRates => (r.within(-4, 3), r.within(-9, 9)),
        Lie::Shared => {
            let rate = r.within(-capacity / 8 - 1, capacity / 8 + 1);
            (rate, rate * rate + r.within(0, 2))
        }
    };
    Offer { number, rate, base }
}
