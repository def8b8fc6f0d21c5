//! A book of carriers' offers: post and withdraw offers, take the last of these calls back, ask which offer is the cheapest for a load,
//! list the stretches of loads on which each is the cheapest, or report every offer under a price.
//!
//! An offer has a number (1 to 9,999), a rate in cents per kilogram (−100,000 to 100,000) and a base in cents
//! (−1,000,000,000 to 1,000,000,000). Its price at a load of `q` kilograms (−1,000,000 to 1,000,000) is `base + rate × q`. No two
//! live offers have equal numbers. Several may have one rate: offers are ordered by falling rate, then rising base, then rising number,
//! and of one rate only the first in that order is listed or named; a report has every one under its price.
//!
//! Inside is a dynamic lower envelope of lines. With n live offers a post, a withdrawal or a take-back takes O(log² n), a query
//! O(log n), a report of m offers O(log n + m log² n). That every call answers right, after every history of calls, is proved in Rattle of the very code in the archive; this
//! crate only hands slices over, and reads no word of a book itself.
//!
//! ```
//! use carrier_book::{Book, Declined};
//! let mut book = Book::new(64)?;
//! book.post(1, 3, 0)?;
//! book.post(2, 1, 10)?;
//! // 3 × 5 + 0 = 1 × 5 + 10: the one with the lower rate is named first, and the other as the second
//! let found = book.query(5)?;
//! assert_eq!((found.number, found.price, found.second), (2, 15, 1));
//! // offer 1 is the cheapest up to the load 10 / 2
//! let pieces = book.listing();
//! assert_eq!((pieces[0].number, pieces[0].numerator, pieces[0].denominator), (1, 10, 2));
//! // below 18 cents at load 6 is offer 2 alone
//! assert_eq!(book.report(6, 18)?.len(), 1);
//! book.withdraw(1)?;
//! assert_eq!(book.query(6)?.number, 2);
//! assert_eq!(book.withdraw(1), Err(Declined::NotLive));
//! // the wrong carrier was withdrawn
//! book.take_back()?;
//! assert_eq!(book.query(4)?.number, 1);
//! # Ok::<(), Declined>(())
//! ```
#![deny(missing_docs)]

mod answers;
mod book;
mod declined;
pub mod lent;
pub mod raw;
mod readings;

pub use answers::{Found, Mark, Meeting, Offer, Piece, Point, Update};
pub use book::Book;
pub use declined::Declined;
pub use readings::{Marks, Pieces};

/// The largest capacity of a book.
///
/// ```
/// assert!(carrier_book::Book::new(carrier_book::MOST_OFFERS).is_ok());
/// assert!(carrier_book::Book::new(carrier_book::MOST_OFFERS + 1).is_err());
/// ```
pub const MOST_OFFERS: usize = 4096;

/// How many words a book of that capacity takes: 64 for each offer and as many for itself, and 1,024 for what can be taken back.
///
/// ```
/// assert_eq!(carrier_book::words(64), 5_184);
/// ```
pub const fn words(capacity: usize) -> usize {
    64 * (capacity + 1) + 1_024
}

/// A price (−101,000,000,000 to 101,000,000,000 cents) in whole units of 100 cents: the nearest, and an exact half to the even
/// unit.
///
/// ```
/// use carrier_book::{voucher_price, Declined};
/// assert_eq!([50, 150, 250, -50, -150, -250].map(|cents| voucher_price(cents).unwrap()), [0, 2, 2, 0, -2, -2]);
/// assert_eq!([49, 51, 149].map(|cents| voucher_price(cents).unwrap()), [0, 1, 1]);
/// assert_eq!(voucher_price(101_000_000_001), Err(Declined::OutOfRange));
/// ```
pub fn voucher_price(price: i64) -> Result<i64, Declined> {
    let mut units = [0i64; 1];
    // SAFETY: the pointer and the length are those of one array.
    lent::told(unsafe { raw::carrier_voucher(price, units.as_mut_ptr(), units.len()) })?;
    Ok(units[0])
}
