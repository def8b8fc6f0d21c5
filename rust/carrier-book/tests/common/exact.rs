//! An envelope by exact fractions, written from the requirements alone: from each piece on to the one that it meets first.
use super::Offer;

/// a fraction with a denominator above 0
#[derive(Clone, Copy, Debug)]
pub struct Fraction {
    pub n: i128,
    pub d: i128,
}

impl Fraction {
    fn below(self, other: Fraction) -> bool {
        self.n * other.d < other.n * self.d
    }

    /// Whether a double is this fraction, rounded once: it is m × 2^e with 2^52 ≤ |m| < 2^53, at most half of 2^e off; zero is +0.
    pub fn rounds_to(self, x: f64) -> bool {
        if self.n == 0 {
            return x.to_bits() == 0;
        }
        let bits = x.to_bits();
        let e = (bits >> 52 & 0x7ff) as i32 - 1_075;
        let m = i128::from(bits & ((1 << 52) - 1) | 1 << 52) * if x < 0.0 { -1 } else { 1 };
        // every quotient here is below 2^52 and above 2^-20 in size
        assert!((-75..0).contains(&e), "{:?} became {}", self, x);
        2 * (m * self.d - (self.n << -e)).abs() <= self.d
    }
}

/// the load at which a piece and one of a lower rate cross
pub fn crossing(own: &Offer, next: &Offer) -> Fraction {
    Fraction { n: i128::from(next.base) - i128::from(own.base), d: i128::from(own.rate) - i128::from(next.rate) }
}

/// the price there
pub fn crossing_price(own: &Offer, next: &Offer) -> Fraction {
    let load = crossing(own, next);
    Fraction { n: i128::from(own.base) * load.d + i128::from(own.rate) * load.n, d: load.d }
}

/// The pieces by falling rate. The first has the highest rate, and of that the lowest base. Each is followed by the offer that it crosses
/// first, of several by the one of the lowest rate: the others only touch that crossing. Of one rate and base the lowest number counts.
pub fn envelope(offers: &[Offer]) -> Vec<Offer> {
    let mut pieces: Vec<Offer> = offers.iter().copied().min_by_key(Offer::place).into_iter().collect();
    while let Some(own) = pieces.last().copied() {
        let mut next: Option<Offer> = None;
        for o in offers.iter().filter(|o| o.rate < own.rate) {
            let better = match next {
                None => true,
                Some(best) => {
                    let (a, b) = (crossing(&own, o), crossing(&own, &best));
                    a.below(b) || !b.below(a) && (o.rate, o.number) < (best.rate, best.number)
                }
            };
            if better {
                next = Some(*o);
            }
        }
        match next {
            Some(o) => pieces.push(o),
            None => break,
        }
    }
    pieces
}
