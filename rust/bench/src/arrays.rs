//! What the book is measured against: a scan of all offers, and a sorted array whose envelope is rebuilt at each update.

#[derive(Clone, Copy, Debug, PartialEq)]
pub struct Offer {
    pub number: i64,
    pub rate: i64,
    pub base: i64,
}

impl Offer {
    /// Where it stands among the offers: by falling rate, then rising base, then rising number.
    pub fn place(&self) -> (i64, i64, i64) {
        (-self.rate, self.base, self.number)
    }
}

/// A piece of a listing: the offer, and the load numerator / denominator at which the next begins.
#[derive(Clone, Copy)]
pub struct Piece {
    pub offer: Offer,
    pub numerator: i64,
    pub denominator: i64,
}

/// What a query tells: of the offers at the least price the number of the one with the lowest rate, the price, and the number of the
/// one with the highest.
pub type Answer = (i64, i64, i64);

/// By a scan of offers in order.
#[inline(never)]
pub fn scan(offers: &[Offer], load: i64) -> Answer {
    let mut best = (0, i64::MAX, 0);
    let mut rate = 0;
    for o in offers {
        let price = o.base + o.rate * load;
        if price < best.1 {
            best = (o.number, price, o.number);
            rate = o.rate;
        } else if price == best.1 && o.rate < rate {
            best.0 = o.number;
            rate = o.rate;
        }
    }
    best
}

/// Whether of three lines, by falling rate, the middle one is nowhere strictly the cheapest.
fn is_hidden(a: &Offer, b: &Offer, c: &Offer) -> bool {
    (b.base - a.base) * (b.rate - c.rate) >= (c.base - b.base) * (a.rate - b.rate)
}

/// The lower envelope of offers in order, in one pass with a stack. Of each rate only the first counts.
#[inline(never)]
pub fn rebuild(offers: &[Offer], stack: &mut Vec<Offer>) {
    stack.clear();
    for o in offers {
        if stack.last().map_or(false, |before| before.rate == o.rate) {
            continue;
        }
        while stack.len() >= 2 && is_hidden(&stack[stack.len() - 2], &stack[stack.len() - 1], o) {
            stack.pop();
        }
        stack.push(*o);
    }
}

/// Offers in a sorted array, whose envelope is rebuilt at each update.
pub struct Sorted {
    offers: Vec<Offer>,
    pub envelope: Vec<Offer>,
    by_number: Vec<Offer>,
}

impl Sorted {
    pub fn of(offers: &[Offer]) -> Sorted {
        let none = Offer { number: 0, rate: 0, base: 0 };
        let mut sorted = Sorted { offers: offers.to_vec(), envelope: vec![], by_number: vec![none; 10_000] };
        offers.iter().for_each(|o| sorted.by_number[o.number as usize] = *o);
        rebuild(&sorted.offers, &mut sorted.envelope);
        sorted
    }

    fn index(&self, o: &Offer) -> usize {
        self.offers.partition_point(|p| p.place() < o.place())
    }

    pub fn withdraw(&mut self, number: i64) {
        let at = self.index(&self.by_number[number as usize]);
        self.offers.remove(at);
        rebuild(&self.offers, &mut self.envelope);
    }

    pub fn post(&mut self, o: Offer) {
        let at = self.index(&o);
        self.offers.insert(at, o);
        self.by_number[o.number as usize] = o;
        rebuild(&self.offers, &mut self.envelope);
    }
}

pub fn pieces(envelope: &[Offer]) -> Vec<Piece> {
    let crossing = |i: usize| {
        let o = envelope[i];
        let (numerator, denominator) = envelope.get(i + 1).map_or((0, 0), |n| (n.base - o.base, o.rate - n.rate));
        Piece { offer: o, numerator, denominator }
    };
    (0..envelope.len()).map(crossing).collect()
}

/// By binary search in the sorted array of breakpoints.
#[inline(never)]
pub fn search(pieces: &[Piece], load: i64) -> Answer {
    let inner = &pieces[..pieces.len() - 1];
    let i = inner.partition_point(|p| load * p.denominator >= p.numerator);
    let o = pieces[i].offer;
    let tied = i > 0 && load * inner[i - 1].denominator == inner[i - 1].numerator;
    let second = if tied { pieces[i - 1].offer } else { o };
    (o.number, o.base + o.rate * load, second.number)
}
