//! The archive's functions as they are: each slice is a pointer and a length in words. include/carrier_book.h describes them.
//!
//! A pointer has to be valid for its length, also for writes where it is `*mut`, and what is written may not overlap another slice of
//! the call.
//!
//! Each of them, on one book:
//!
//! ```
//! use carrier_book::raw::*;
//! let mut table = [0i64; carrier_book::words(2)];
//! let (mut counts, mut found, mut met, mut mark, mut units) = ([0; 3], [0; 3], [0; 4], [0.0; 2], [0]);
//! let (mut out, mut piece) = ([0; 6], [0; 3]);
//! let (words, start) = (table.len(), 0);
//! // SAFETY: each pointer and its length are those of one array, and no two arrays of a call overlap but two that are only read.
//! unsafe {
//!     assert_eq!(carrier_open(table.as_mut_ptr(), words, start, 2), 0);
//!     assert_eq!(carrier_post(table.as_mut_ptr(), words, start, 1, 3, 0, counts.as_mut_ptr(), 3), 1);
//!     assert_eq!(carrier_post(table.as_mut_ptr(), words, start, 2, 1, 10, counts.as_mut_ptr(), 3), 2);
//!     assert_eq!(counts, [1, 1, 0]);
//!     assert_eq!(carrier_query(table.as_ptr(), words, start, 6, found.as_mut_ptr(), 3), 2);
//!     assert_eq!(found, [16, 2, 1]);
//!     assert_eq!(carrier_listing(table.as_ptr(), words, start, out.as_mut_ptr(), 6), 2);
//!     assert_eq!(out, [1, 10, 2, 2, 0, 0]);
//!     // at load 6 they cost 18 and 16
//!     assert_eq!(carrier_report(table.as_ptr(), words, start, 6, 18, out.as_mut_ptr(), 6), 1);
//!     assert_eq!(out[..3], [2, 1, 10]);
//!     assert_eq!(carrier_mark(table.as_ptr(), words, start, 1, mark.as_mut_ptr(), 2), 1);
//!     assert_eq!(mark, [5.0, 15.0]);
//!     let first = carrier_begin(table.as_ptr(), words, start);
//!     assert!(carrier_piece(table.as_ptr(), words, start, first, piece.as_mut_ptr(), 3) > 0);
//!     assert_eq!(piece, [1, 10, 2]);
//!     // rates 3 and 1 of the one book do not stand apart from those of the other
//!     assert_eq!(carrier_meet(table.as_ptr(), words, start, table.as_ptr(), words, start, met.as_mut_ptr(), 4), -12);
//!     assert_eq!(carrier_withdraw(table.as_mut_ptr(), words, start, 1, counts.as_mut_ptr(), 3), 1);
//!     assert_eq!(carrier_take_back(table.as_mut_ptr(), words, start, counts.as_mut_ptr(), 3), 2);
//!     assert_eq!(carrier_check(table.as_ptr(), words, start), 1);
//!     assert_eq!(carrier_voucher(150, units.as_mut_ptr(), 1), 0);
//!     assert_eq!(units, [2]);
//! }
//! ```

extern "C" {
    /// Opens an empty book: see [`lent::open`](crate::lent::open).
    pub fn carrier_open(table: *mut i64, words: usize, start: usize, capacity: i64) -> i64;
    /// Posts an offer: see [`lent::post`](crate::lent::post).
    pub fn carrier_post(
        table: *mut i64,
        words: usize,
        start: usize,
        number: i64,
        rate: i64,
        base: i64,
        counts: *mut i64,
        counts_words: usize,
    ) -> i64;
    /// Withdraws an offer: see [`lent::withdraw`](crate::lent::withdraw).
    pub fn carrier_withdraw(
        table: *mut i64,
        words: usize,
        start: usize,
        number: i64,
        counts: *mut i64,
        counts_words: usize,
    ) -> i64;
    /// Takes an update back: see [`lent::take_back`](crate::lent::take_back).
    pub fn carrier_take_back(table: *mut i64, words: usize, start: usize, counts: *mut i64, counts_words: usize) -> i64;
    /// The cheapest offer at a load, and the second one: see [`lent::query`](crate::lent::query).
    pub fn carrier_query(table: *const i64, words: usize, start: usize, load: i64, found: *mut i64, found_words: usize) -> i64;
    /// Writes the pieces: see [`lent::listing`](crate::lent::listing).
    pub fn carrier_listing(table: *const i64, words: usize, start: usize, out: *mut i64, out_words: usize) -> i64;
    /// Writes the offers under a price: see [`lent::report`](crate::lent::report).
    pub fn carrier_report(
        table: *const i64,
        words: usize,
        start: usize,
        load: i64,
        price: i64,
        out: *mut i64,
        out_words: usize,
    ) -> i64;
    /// Whether the words are a book: see [`lent::check`](crate::lent::check).
    pub fn carrier_check(table: *const i64, words: usize, start: usize) -> i64;
    /// The meeting of two books: see [`lent::meet`](crate::lent::meet).
    pub fn carrier_meet(
        first: *const i64,
        first_words: usize,
        first_start: usize,
        second: *const i64,
        second_words: usize,
        second_start: usize,
        met: *mut i64,
        met_words: usize,
    ) -> i64;
    /// A chart mark: see [`lent::mark`](crate::lent::mark).
    pub fn carrier_mark(table: *const i64, words: usize, start: usize, index: i64, mark: *mut f64, mark_words: usize) -> i64;
    /// A voucher price: see [`voucher_price`](crate::voucher_price).
    pub fn carrier_voucher(price: i64, units: *mut i64, units_words: usize) -> i64;
    /// The place of the first piece: see [`lent::pieces`](crate::lent::pieces).
    pub fn carrier_begin(table: *const i64, words: usize, start: usize) -> i64;
    /// Hands out the piece at a place: see [`lent::pieces`](crate::lent::pieces).
    pub fn carrier_piece(table: *const i64, words: usize, start: usize, place: i64, piece: *mut i64, piece_words: usize) -> i64;
}
