//! What the calls answer.

/// What a post, a withdrawal or a take-back tells: the live count after it, and its searches as counted while it ran. Where the first
/// offer of its rate stays, nothing is searched.
///
/// ```
/// let mut book = carrier_book::Book::new(64)?;
/// book.post(1, 3, 0)?;
/// let update = book.post(2, 1, 10)?;
/// // two single lines meet in one step
/// assert_eq!((update.live, update.searches, update.steps, update.heights), (2, 1, 1, 0));
/// # Ok::<(), carrier_book::Declined>(())
/// ```
#[derive(Clone, Copy, Debug, PartialEq, Eq)]
pub struct Update {
    /// the live count after it
    pub live: i64,
    /// k: how many pairs of envelopes were searched for their meeting
    pub searches: i64,
    /// s: the searches' steps in all
    pub steps: i64,
    /// H: the sum of the heights of the trees searched
    pub heights: i64,
}

/// What a query names. Of several offers at the least price the one with the lowest rate is named first, and the one with the highest as
/// the second; where all have one rate, both are the first of them, by rising number.
///
/// ```
/// use carrier_book::Found;
/// let mut book = carrier_book::Book::new(64)?;
/// book.post(1, 3, 0)?;
/// assert_eq!(book.query(-2)?, Found { number: 1, price: -6, second: 1, probes: 0 });
/// // 3 × 5 + 0 = 1 × 5 + 10
/// book.post(2, 1, 10)?;
/// assert_eq!(book.query(5)?, Found { number: 2, price: 15, second: 1, probes: 1 });
/// # Ok::<(), carrier_book::Declined>(())
/// ```
#[derive(Clone, Copy, Debug, PartialEq, Eq)]
pub struct Found {
    /// the number of the offer named first
    pub number: i64,
    /// the least price
    pub price: i64,
    /// the number of the second offer
    pub second: i64,
    /// how deep the first-named offer's piece lies in the tree of pieces
    pub probes: i64,
}

/// An offer, as a report tells it.
///
/// ```
/// use carrier_book::Offer;
/// let mut book = carrier_book::Book::new(64)?;
/// book.post(1, 3, 0)?;
/// assert_eq!(book.report(5, 16)?, [Offer { number: 1, rate: 3, base: 0 }]);
/// # Ok::<(), carrier_book::Declined>(())
/// ```
#[derive(Clone, Copy, Debug, PartialEq, Eq)]
pub struct Offer {
    /// its number
    pub number: i64,
    /// its rate, in cents per kilogram
    pub rate: i64,
    /// its base, in cents
    pub base: i64,
}

/// A stretch of loads on which one offer, the first of its rate, is strictly cheaper than every offer of another rate. It ends at the
/// load `numerator / denominator`, where the next begins. The last one has no end: 0 and 0.
///
/// ```
/// use carrier_book::Piece;
/// let mut book = carrier_book::Book::new(64)?;
/// book.post(1, 3, 0)?;
/// book.post(2, 1, 10)?;
/// assert_eq!(book.pieces().next(), Some(Piece { number: 1, numerator: 10, denominator: 2 }));
/// # Ok::<(), carrier_book::Declined>(())
/// ```
#[derive(Clone, Copy, Debug, PartialEq, Eq)]
pub struct Piece {
    /// the offer's number
    pub number: i64,
    /// the next offer's base less its own
    pub numerator: i64,
    /// its own rate less the next offer's
    pub denominator: i64,
}

/// Where the envelope of two books goes over from the first book's offers to the second's.
///
/// ```
/// use carrier_book::{Book, Meeting};
/// let (mut dear, mut cheap) = (Book::new(4)?, Book::new(4)?);
/// dear.post(1, 3, 0)?;
/// cheap.post(2, 1, 10)?;
/// assert_eq!(dear.meet(&cheap)?, Meeting { u: 1, v: 2, steps: 1, hl: 0, hr: 0 });
/// # Ok::<(), carrier_book::Declined>(())
/// ```
#[derive(Clone, Copy, Debug, PartialEq, Eq)]
pub struct Meeting {
    /// the number of the first book's last offer on it
    pub u: i64,
    /// the number of the second book's first offer on it
    pub v: i64,
    /// the steps of the search, at most 3 × (hl + hr) + 1
    pub steps: i64,
    /// the height of the first book's tree of pieces
    pub hl: i64,
    /// the height of the second book's
    pub hr: i64,
}

/// Where two pieces cross: each value is a quotient of two integers that are exact as doubles, rounded once.
///
/// ```
/// use carrier_book::{Mark, Point};
/// let mut book = carrier_book::Book::new(4)?;
/// book.post(1, 0, 0)?;
/// book.post(2, -3, 7)?;
/// assert_eq!(book.mark(1)?, Mark::Crossing(Point { load: 7.0 / 3.0, price: 0.0 }));
/// # Ok::<(), carrier_book::Declined>(())
/// ```
#[derive(Clone, Copy, Debug, PartialEq)]
pub struct Point {
    /// the load, in kilograms
    pub load: f64,
    /// the price there, in cents
    pub price: f64,
}

/// A chart mark. A listing of m pieces has m + 1: the open ends 0 and m, and between them the crossings of neighbouring pieces.
///
/// ```
/// use carrier_book::Mark;
/// let mut book = carrier_book::Book::new(4)?;
/// book.post(1, 3, 0)?;
/// assert_eq!(book.marks().collect::<Vec<_>>(), [Mark::OpenEnd(3.0), Mark::OpenEnd(3.0)]);
/// # Ok::<(), carrier_book::Declined>(())
/// ```
#[derive(Clone, Copy, Debug, PartialEq)]
pub enum Mark {
    /// An end of the chart, with its piece's rate.
    OpenEnd(f64),
    /// Where a piece and the next cross.
    Crossing(Point),
}
