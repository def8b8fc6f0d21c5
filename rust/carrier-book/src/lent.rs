//! The calls on a table that the caller lends: a book takes [`words`](crate::words) of it, from `start` on.
//!
//! Words outside that part are never changed, and a declined call changes nothing. The table may hold anything: on words that
//! are no book [`NoBook`](Declined::NoBook) and an entry out of range are told as on a book, and past them a call returns, with an
//! answer that means nothing.
//!
//! ```
//! use carrier_book::{lent, words};
//! let mut table = vec![-1; 10 + words(2) + words(64)];
//! lent::open(&mut table, 10, 2)?;
//! lent::open(&mut table, 10 + words(2), 64)?;
//! lent::post(&mut table, 10, 1, 3, 0)?;
//! assert_eq!(lent::query(&table, 10, 5)?.price, 15);
//! assert!(lent::query(&table, 10 + words(2), 5).is_err());
//! assert_eq!(table[..10], [-1; 10]);
//! # Ok::<(), carrier_book::Declined>(())
//! ```
use crate::{raw, Declined, Found, Mark, Marks, Meeting, Pieces, Point, Update};

pub(crate) fn told(answer: i64) -> Result<i64, Declined> {
    if answer < 0 {
        return Err(Declined::from_number(answer.wrapping_neg()));
    }
    Ok(answer)
}

fn update(call: impl FnOnce(*mut i64, usize) -> i64) -> Result<Update, Declined> {
    let mut counts = [0i64; 3];
    let live = told(call(counts.as_mut_ptr(), counts.len()))?;
    let [searches, steps, heights] = counts;
    Ok(Update { live, searches, steps, heights })
}

/// Opens an empty book at `start`, with nothing to take back, whatever the words there were.
///
/// ```
/// use carrier_book::{lent, words, Declined};
/// let mut table = vec![7; words(2)];
/// lent::open(&mut table, 0, 2)?;
/// assert_eq!(lent::open(&mut table, 1, 2), Err(Declined::NoRoom));
/// # Ok::<(), Declined>(())
/// ```
pub fn open(table: &mut [i64], start: usize, capacity: i64) -> Result<(), Declined> {
    // SAFETY: the pointer and the length are those of one slice.
    told(unsafe { raw::carrier_open(table.as_mut_ptr(), table.len(), start, capacity) }).map(|_| ())
}

/// Posts an offer.
///
/// ```
/// use carrier_book::{lent, words};
/// let mut table = vec![0; words(2)];
/// lent::open(&mut table, 0, 2)?;
/// assert_eq!(lent::post(&mut table, 0, 1, 3, 0)?.live, 1);
/// # Ok::<(), carrier_book::Declined>(())
/// ```
pub fn post(table: &mut [i64], start: usize, number: i64, rate: i64, base: i64) -> Result<Update, Declined> {
    let (words, length) = (table.as_mut_ptr(), table.len());
    // SAFETY: each pointer and length are those of one slice, and `counts` is a local of its own.
    update(|counts, n| unsafe { raw::carrier_post(words, length, start, number, rate, base, counts, n) })
}

/// Withdraws the live offer with that number.
///
/// ```
/// use carrier_book::{lent, words};
/// let mut table = vec![0; words(2)];
/// lent::open(&mut table, 0, 2)?;
/// lent::post(&mut table, 0, 1, 3, 0)?;
/// assert_eq!(lent::withdraw(&mut table, 0, 1)?.live, 0);
/// # Ok::<(), carrier_book::Declined>(())
/// ```
pub fn withdraw(table: &mut [i64], start: usize, number: i64) -> Result<Update, Declined> {
    let (words, length) = (table.as_mut_ptr(), table.len());
    // SAFETY: as in `post`.
    update(|counts, n| unsafe { raw::carrier_withdraw(words, length, start, number, counts, n) })
}

/// Takes back the last accepted post or withdrawal that has not been taken back. Up to 256 are remembered, and with
/// one more the oldest is forgotten for good.
///
/// ```
/// use carrier_book::{lent, words, Declined};
/// let mut table = vec![0; words(2)];
/// lent::open(&mut table, 0, 2)?;
/// lent::post(&mut table, 0, 1, 3, 0)?;
/// assert_eq!(lent::take_back(&mut table, 0)?.live, 0);
/// assert_eq!(lent::take_back(&mut table, 0), Err(Declined::NothingToTakeBack));
/// # Ok::<(), Declined>(())
/// ```
pub fn take_back(table: &mut [i64], start: usize) -> Result<Update, Declined> {
    let (words, length) = (table.as_mut_ptr(), table.len());
    // SAFETY: as in `post`.
    update(|counts, n| unsafe { raw::carrier_take_back(words, length, start, counts, n) })
}

/// The cheapest live offer at a load; of several, the one with the lowest rate, and as the second the one with the highest. Of several
/// with one rate and one base the lowest number is named.
///
/// ```
/// use carrier_book::{lent, words};
/// let mut table = vec![0; words(2)];
/// lent::open(&mut table, 0, 2)?;
/// lent::post(&mut table, 0, 1, 3, 0)?;
/// assert_eq!(lent::query(&table, 0, 5)?.price, 15);
/// # Ok::<(), carrier_book::Declined>(())
/// ```
#[inline]
pub fn query(table: &[i64], start: usize, load: i64) -> Result<Found, Declined> {
    let mut found = [0i64; 3];
    // SAFETY: each pointer and length are those of one slice; only `found` is written.
    let answer = unsafe { raw::carrier_query(table.as_ptr(), table.len(), start, load, found.as_mut_ptr(), found.len()) };
    let number = told(answer)?;
    let [price, second, probes] = found;
    Ok(Found { number, price, second, probes })
}

/// Writes the pieces into `out`, three words each as in [`Piece`](crate::Piece), and returns their count. Later words stay.
///
/// ```
/// use carrier_book::{lent, words};
/// let mut table = vec![0; words(2)];
/// lent::open(&mut table, 0, 2)?;
/// lent::post(&mut table, 0, 1, 3, 0)?;
/// let mut out = [-7; 4];
/// assert_eq!(lent::listing(&table, 0, &mut out)?, 1);
/// assert_eq!(out, [1, 0, 0, -7]);
/// # Ok::<(), carrier_book::Declined>(())
/// ```
pub fn listing(table: &[i64], start: usize, out: &mut [i64]) -> Result<usize, Declined> {
    // SAFETY: each pointer and length are those of one slice, and a `&mut` slice overlaps no other; only `out` is written.
    let answer = unsafe { raw::carrier_listing(table.as_ptr(), table.len(), start, out.as_mut_ptr(), out.len()) };
    told(answer).map(|pieces| pieces as usize)
}

/// Writes the live offers whose price at the load is strictly below `price` into `out`, three words each as in
/// [`Offer`](crate::Offer) and in the order of the book, and returns their count. Later words stay.
///
/// ```
/// use carrier_book::{lent, words, Declined};
/// let mut table = vec![0; words(2)];
/// lent::open(&mut table, 0, 2)?;
/// lent::post(&mut table, 0, 1, 3, 0)?;
/// lent::post(&mut table, 0, 2, 1, 10)?;
/// let mut out = [-7; 4];
/// // at load 4 they cost 12 and 14
/// assert_eq!(lent::report(&table, 0, 4, 14, &mut out)?, 1);
/// assert_eq!(out, [1, 3, 0, -7]);
/// assert_eq!(lent::report(&table, 0, 4, 15, &mut out), Err(Declined::OutputTooShort));
/// # Ok::<(), Declined>(())
/// ```
#[inline]
pub fn report(table: &[i64], start: usize, load: i64, price: i64, out: &mut [i64]) -> Result<usize, Declined> {
    let (words, length) = (table.as_ptr(), table.len());
    // SAFETY: as in `listing`.
    let answer = unsafe { raw::carrier_report(words, length, start, load, price, out.as_mut_ptr(), out.len()) };
    told(answer).map(|offers| offers as usize)
}

/// A book's report in a vector of its own, with room for `most` offers that is not cleared before: the words of a short report cost no
/// more in a large book.
pub(crate) fn reported(book: &[i64], load: i64, price: i64, most: usize) -> Result<Vec<i64>, Declined> {
    let mut out = Vec::with_capacity(3 * most);
    // SAFETY: there is room for so many words behind the pointer, and the call only writes them.
    let answer = unsafe { raw::carrier_report(book.as_ptr(), book.len(), 0, load, price, out.as_mut_ptr(), 3 * most) };
    let offers = told(answer)? as usize;
    // SAFETY: of a book a report writes three words for each offer that it counts.
    unsafe { out.set_len(3 * offers) };
    Ok(out)
}

/// A reading of the pieces: the same ones, one at a time. On words that are no book it ends after at most 4,096 of them.
///
/// ```
/// use carrier_book::{lent, words, Declined};
/// let mut table = vec![0; words(2)];
/// assert_eq!(lent::pieces(&table, 0).unwrap_err(), Declined::NoBook);
/// lent::open(&mut table, 0, 2)?;
/// lent::post(&mut table, 0, 1, 3, 0)?;
/// assert_eq!(lent::pieces(&table, 0)?.map(|piece| piece.number).collect::<Vec<_>>(), [1]);
/// # Ok::<(), Declined>(())
/// ```
pub fn pieces(table: &[i64], start: usize) -> Result<Pieces<'_>, Declined> {
    Pieces::begin(table, start)
}

/// The meeting of the book at `first_start` with the book at `second_start`, whose rates are all below the first's. The two tables
/// may be one.
///
/// ```
/// use carrier_book::{lent, words};
/// let second = words(2);
/// let mut table = vec![0; 2 * words(2)];
/// lent::open(&mut table, 0, 2)?;
/// lent::open(&mut table, second, 2)?;
/// lent::post(&mut table, 0, 1, 3, 0)?;
/// lent::post(&mut table, second, 1, 1, 10)?;
/// let meeting = lent::meet(&table, 0, &table, second)?;
/// assert_eq!((meeting.u, meeting.v, meeting.steps), (1, 1, 1));
/// # Ok::<(), carrier_book::Declined>(())
/// ```
pub fn meet(first: &[i64], first_start: usize, second: &[i64], second_start: usize) -> Result<Meeting, Declined> {
    let mut met = [0i64; 4];
    let (one, two) = (first.as_ptr(), second.as_ptr());
    // SAFETY: each pointer and length are those of one slice; only `met` is written.
    let answer =
        unsafe { raw::carrier_meet(one, first.len(), first_start, two, second.len(), second_start, met.as_mut_ptr(), met.len()) };
    let u = told(answer)?;
    let [v, steps, hl, hr] = met;
    Ok(Meeting { u, v, steps, hl, hr })
}

/// Chart mark `index`, from 0 to the number of pieces.
///
/// ```
/// use carrier_book::{lent, words, Declined, Mark};
/// let mut table = vec![0; words(2)];
/// lent::open(&mut table, 0, 2)?;
/// assert_eq!(lent::mark(&table, 0, 0), Err(Declined::Empty));
/// lent::post(&mut table, 0, 1, 3, 0)?;
/// assert_eq!(lent::mark(&table, 0, 1)?, Mark::OpenEnd(3.0));
/// # Ok::<(), Declined>(())
/// ```
pub fn mark(table: &[i64], start: usize, index: i64) -> Result<Mark, Declined> {
    let mut mark = [0f64; 2];
    // SAFETY: each pointer and length are those of one slice; only `mark` is written.
    let answer = unsafe { raw::carrier_mark(table.as_ptr(), table.len(), start, index, mark.as_mut_ptr(), mark.len()) };
    let [load, price] = mark;
    Ok(match told(answer)? {
        0 => Mark::OpenEnd(load),
        _ => Mark::Crossing(Point { load, price }),
    })
}

/// All chart marks in order; none where a mark is declined.
///
/// ```
/// use carrier_book::{lent, words, Mark};
/// let mut table = vec![0; words(2)];
/// lent::open(&mut table, 0, 2)?;
/// lent::post(&mut table, 0, 1, 3, 0)?;
/// assert_eq!(lent::marks(&table, 0).collect::<Vec<_>>(), [Mark::OpenEnd(3.0); 2]);
/// # Ok::<(), carrier_book::Declined>(())
/// ```
pub fn marks(table: &[i64], start: usize) -> Marks<'_> {
    Marks::begin(table, start)
}

/// Whether the words from `start` on are a book in every particular, with every envelope right.
///
/// ```
/// use carrier_book::{lent, words};
/// let mut table = vec![0; words(2)];
/// assert!(!lent::check(&table, 0));
/// lent::open(&mut table, 0, 2)?;
/// assert!(lent::check(&table, 0));
/// # Ok::<(), carrier_book::Declined>(())
/// ```
pub fn check(table: &[i64], start: usize) -> bool {
    // SAFETY: the pointer and the length are those of one slice; nothing is written.
    unsafe { raw::carrier_check(table.as_ptr(), table.len(), start) == 1 }
}
