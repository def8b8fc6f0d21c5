//! Why a call was declined.
use std::fmt;

/// Why a call was declined. A declined call changes nothing. Where several causes apply, the first in the order below is told. Number 6,
/// once of a post at a live rate, is no longer given.
///
/// ```
/// use carrier_book::{Book, Declined};
/// let mut book = Book::new(64)?;
/// let declined = book.post(1, 100_001, 1_000_000_001).unwrap_err();
/// assert_eq!(declined, Declined::RateOutOfRange);
/// assert_eq!(declined.number(), 14);
/// assert_eq!(declined.to_string(), "the rate is out of range");
/// # Ok::<(), Declined>(())
/// ```
#[derive(Clone, Copy, Debug, PartialEq, Eq, Hash)]
#[non_exhaustive]
pub enum Declined {
    /// 1, open: the capacity is not in 1 to 4,096.
    Capacity,
    /// 2, open: fewer words than the book takes from `start` on.
    NoRoom,
    /// 3, each call on a table but open and check: there is no book at `start`, or its part is cut short.
    NoBook,
    /// 4, post, withdraw: the number is not in 1 to 9,999; report, voucher: the price is not in −101,000,000,000 to 101,000,000,000. A
    /// rate, a base and a load have causes of their own.
    OutOfRange,
    /// 14, post: the rate is not in −100,000 to 100,000.
    RateOutOfRange,
    /// 15, post: the base is not in −1,000,000,000 to 1,000,000,000.
    BaseOutOfRange,
    /// 16, query, report: the load is not in −1,000,000 to 1,000,000.
    LoadOutOfRange,
    /// 5, post: a live offer has that number.
    NumberLive,
    /// 7, post: as many offers are live as the capacity tells.
    Full,
    /// 8, withdraw: no live offer has that number.
    NotLive,
    /// 17, take_back: no update is remembered.
    NothingToTakeBack,
    /// 9, query, mark and meet: no offer is live.
    Empty,
    /// 10, listing, report: the output is shorter than three words a piece or an offer reported.
    OutputTooShort,
    /// 12, meet: some rate of the first book is not above some rate of the second.
    RatesNotApart,
    /// 13, mark: the index is not in 0 to m, for m pieces.
    NoSuchMark,
    /// Any other number. On a book no call returns one.
    Other(i64),
}

use Declined::*;

/// Each cause with its number and what it says, in the order in which they are tried.
const CAUSES: [(Declined, i64, &str); 15] = [
    (Capacity, 1, "the capacity is not in 1 to 4,096"),
    (NoRoom, 2, "the table has too few words"),
    (NoBook, 3, "there is no book there"),
    (OutOfRange, 4, "the offer's number or the price is out of range"),
    (RateOutOfRange, 14, "the rate is out of range"),
    (BaseOutOfRange, 15, "the base is out of range"),
    (LoadOutOfRange, 16, "the load is out of range"),
    (NumberLive, 5, "a live offer has that number"),
    (Full, 7, "the book is full"),
    (NotLive, 8, "no live offer has that number"),
    (NothingToTakeBack, 17, "there is nothing to take back"),
    (Empty, 9, "the book is empty"),
    (OutputTooShort, 10, "the output is too short"),
    (RatesNotApart, 12, "the first book's rates are not all above the second's"),
    (NoSuchMark, 13, "there is no mark of that index"),
];

impl Declined {
    /// The cause with that number, which the archive's functions return negated.
    ///
    /// ```
    /// use carrier_book::Declined;
    /// assert_eq!(Declined::from_number(9), Declined::Empty);
    /// ```
    pub fn from_number(number: i64) -> Declined {
        CAUSES.iter().find(|c| c.1 == number).map_or(Other(number), |c| c.0)
    }

    /// The cause's number.
    ///
    /// ```
    /// use carrier_book::Declined;
    /// assert_eq!(Declined::NoSuchMark.number(), 13);
    /// ```
    pub fn number(self) -> i64 {
        match self {
            Other(number) => number,
            cause => CAUSES.iter().find(|c| c.0 == cause).map_or(0, |c| c.1),
        }
    }
}

/// What the cause says.
impl fmt::Display for Declined {
    fn fmt(&self, f: &mut fmt::Formatter) -> fmt::Result {
        match CAUSES.iter().find(|c| c.0 == *self) {
            Some(c) => f.write_str(c.2),
            None => write!(f, "declined for cause {}", self.number()),
        }
    }
}

impl std::error::Error for Declined {}
