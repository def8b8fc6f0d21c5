//! Readings: they carry the lent table along and hand out one piece or mark at a time, without a word of memory of their own.
use crate::{lent, raw, Declined, Mark, Piece, MOST_OFFERS};
use std::iter::FusedIterator;

/// A reading of a book's pieces, as [`listing`](crate::Book::listing) has them: one piece at a time in O(log n), and no allocation.
///
/// ```
/// let mut book = carrier_book::Book::new(64)?;
/// book.post(1, 3, 0)?;
/// book.post(2, 1, 10)?;
/// assert_eq!(book.pieces().map(|piece| piece.number).collect::<Vec<_>>(), [1, 2]);
/// # Ok::<(), carrier_book::Declined>(())
/// ```
#[derive(Clone, Debug)]
pub struct Pieces<'a> {
    table: &'a [i64],
    start: usize,
    /// where the next piece is, as the archive tells it; 0 at the end
    place: i64,
    /// no book has more pieces, so that a reading of other words ends as well
    left: usize,
}

impl<'a> Pieces<'a> {
    pub(crate) fn begin(table: &'a [i64], start: usize) -> Result<Pieces<'a>, Declined> {
        // SAFETY: the pointer and the length are those of one slice; nothing is written.
        let place = lent::told(unsafe { raw::carrier_begin(table.as_ptr(), table.len(), start) })?;
        Ok(Pieces { table, start, place, left: MOST_OFFERS })
    }
}

impl Iterator for Pieces<'_> {
    type Item = Piece;

    fn next(&mut self) -> Option<Piece> {
        if self.place <= 0 || self.left == 0 {
            return None;
        }
        let mut piece = [0i64; 3];
        let (table, words) = (self.table.as_ptr(), self.table.len());
        // SAFETY: each pointer and length are those of one slice; only `piece` is written.
        self.place = unsafe { raw::carrier_piece(table, words, self.start, self.place, piece.as_mut_ptr(), piece.len()) };
        self.left -= 1;
        let [number, numerator, denominator] = piece;
        Some(Piece { number, numerator, denominator })
    }

    fn size_hint(&self) -> (usize, Option<usize>) {
        (0, Some(self.left))
    }
}

impl FusedIterator for Pieces<'_> {}

/// A book's chart marks, from the first open end to the last; none of an empty book. A mark is found from the first piece on, so that
/// mark i takes O(m) for m pieces.
///
/// ```
/// use carrier_book::{Mark, Point};
/// let mut book = carrier_book::Book::new(64)?;
/// assert_eq!(book.marks().next(), None);
/// book.post(1, 3, 0)?;
/// book.post(2, 1, 10)?;
/// let marks: Vec<Mark> = book.marks().collect();
/// assert_eq!(marks, [Mark::OpenEnd(3.0), Mark::Crossing(Point { load: 5.0, price: 15.0 }), Mark::OpenEnd(1.0)]);
/// # Ok::<(), carrier_book::Declined>(())
/// ```
#[derive(Clone, Debug)]
pub struct Marks<'a> {
    table: &'a [i64],
    start: usize,
    index: usize,
}

impl<'a> Marks<'a> {
    pub(crate) fn begin(table: &'a [i64], start: usize) -> Marks<'a> {
        Marks { table, start, index: 0 }
    }
}

impl Iterator for Marks<'_> {
    type Item = Mark;

    fn next(&mut self) -> Option<Mark> {
        if self.index > MOST_OFFERS {
            return None;
        }
        let mark = lent::mark(self.table, self.start, self.index as i64).ok();
        self.index = if mark.is_some() { self.index + 1 } else { MOST_OFFERS + 1 };
        mark
    }
}

impl FusedIterator for Marks<'_> {}
