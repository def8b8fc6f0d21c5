//! A book that owns its words.
use crate::{lent, words, Declined, Found, Mark, Marks, Meeting, Offer, Piece, Pieces, Update, MOST_OFFERS};
use std::convert::TryFrom;
use std::fmt;

/// A book that owns its words. For a book in a table of the caller's see [`lent`].
///
/// ```
/// use carrier_book::Book;
/// let mut book = Book::new(64)?;
/// book.post(1, 3, 0)?;
/// let before = book.clone();
/// book.withdraw(1)?;
/// assert_eq!(before.query(5)?.price, 15);
/// assert!(book.query(5).is_err());
/// assert_eq!(format!("{:?}", book), "Book { capacity: 64, pieces: [] }");
/// # Ok::<(), carrier_book::Declined>(())
/// ```
#[derive(Clone)]
pub struct Book {
    table: Vec<i64>,
}

impl Book {
    /// An empty book for up to `capacity` offers, 1 to 4,096.
    ///
    /// ```
    /// use carrier_book::{Book, Declined};
    /// assert_eq!(Book::new(64)?.capacity(), 64);
    /// assert_eq!(Book::new(0).unwrap_err(), Declined::Capacity);
    /// # Ok::<(), Declined>(())
    /// ```
    pub fn new(capacity: usize) -> Result<Book, Declined> {
        if !(1..=MOST_OFFERS).contains(&capacity) {
            return Err(Declined::Capacity);
        }
        let mut table = vec![0; words(capacity)];
        lent::open(&mut table, 0, capacity as i64)?;
        Ok(Book { table })
    }

    /// A book from words that [`Book::as_words`] gave, or nothing where they are none. `Book::try_from` does the same.
    ///
    /// ```
    /// use carrier_book::{words, Book};
    /// let book = Book::new(64)?;
    /// assert!(Book::from_words(book.as_words().to_vec()).is_some());
    /// assert!(Book::from_words(vec![0; words(64)]).is_none());
    /// # Ok::<(), carrier_book::Declined>(())
    /// ```
    pub fn from_words(table: Vec<i64>) -> Option<Book> {
        // a book, and none any more without the last word: so it takes them all
        let whole = lent::check(&table, 0) && !lent::check(&table[..table.len() - 1], 0);
        whole.then_some(Book { table })
    }

    /// The book's words, to store or send. They depend on nothing else, and what can be taken back is among them.
    ///
    /// ```
    /// let book = carrier_book::Book::new(64)?;
    /// assert_eq!(book.as_words().len(), carrier_book::words(64));
    /// # Ok::<(), carrier_book::Declined>(())
    /// ```
    pub fn as_words(&self) -> &[i64] {
        &self.table
    }

    /// How many offers can be live.
    ///
    /// ```
    /// assert_eq!(carrier_book::Book::new(64)?.capacity(), 64);
    /// # Ok::<(), carrier_book::Declined>(())
    /// ```
    pub fn capacity(&self) -> usize {
        (self.table.len() - words(0)) / 64
    }

    /// Posts an offer. Its rate may be that of live offers.
    ///
    /// ```
    /// use carrier_book::{Book, Declined};
    /// let mut book = Book::new(64)?;
    /// assert_eq!(book.post(1, 3, 0)?.live, 1);
    /// assert_eq!(book.post(2, 3, -1)?.live, 2);
    /// assert_eq!(book.query(5)?.number, 2);
    /// assert_eq!(book.post(1, 4, 0), Err(Declined::NumberLive));
    /// # Ok::<(), Declined>(())
    /// ```
    pub fn post(&mut self, number: i64, rate: i64, base: i64) -> Result<Update, Declined> {
        lent::post(&mut self.table, 0, number, rate, base)
    }

    /// Withdraws the live offer with that number.
    ///
    /// ```
    /// use carrier_book::{Book, Declined};
    /// let mut book = Book::new(64)?;
    /// book.post(1, 3, 0)?;
    /// assert_eq!(book.withdraw(1)?.live, 0);
    /// assert_eq!(book.withdraw(1), Err(Declined::NotLive));
    /// # Ok::<(), Declined>(())
    /// ```
    pub fn withdraw(&mut self, number: i64) -> Result<Update, Declined> {
        lent::withdraw(&mut self.table, 0, number)
    }

    /// Takes back the last accepted post or withdrawal that has not been taken back. Up to 256 are remembered, and with
    /// one more the oldest is forgotten for good; queries, listings, reports and declined calls are not among them, nor is a take-back itself.
    ///
    /// ```
    /// use carrier_book::{Book, Declined};
    /// let mut book = Book::new(64)?;
    /// book.post(1, 3, 0)?;
    /// book.withdraw(1)?;
    /// assert_eq!(book.take_back()?.live, 1);
    /// assert_eq!(book.query(5)?.price, 15);
    /// // now the post
    /// assert_eq!(book.take_back()?.live, 0);
    /// assert_eq!(book.take_back(), Err(Declined::NothingToTakeBack));
    /// # Ok::<(), Declined>(())
    /// ```
    pub fn take_back(&mut self) -> Result<Update, Declined> {
        lent::take_back(&mut self.table, 0)
    }

    /// The cheapest live offer at a load; of several, the one with the lowest rate, and as the second the one with the highest. Of several
    /// with one rate and one base the lowest number is named.
    ///
    /// ```
    /// use carrier_book::{Book, Declined};
    /// let mut book = Book::new(64)?;
    /// assert_eq!(book.query(5), Err(Declined::Empty));
    /// book.post(1, 3, 0)?;
    /// assert_eq!(book.query(5)?.price, 15);
    /// # Ok::<(), Declined>(())
    /// ```
    #[inline]
    pub fn query(&self, load: i64) -> Result<Found, Declined> {
        lent::query(&self.table, 0, load)
    }

    /// The live offers whose price at the load is strictly below `price`, all of a rate among them: by falling rate, then rising base, then
    /// rising number. The price is in −101,000,000,000 to 101,000,000,000, and an empty book reports none.
    ///
    /// ```
    /// use carrier_book::{Book, Declined, Offer};
    /// let mut book = Book::new(64)?;
    /// book.post(1, 3, 0)?;
    /// book.post(2, 1, 10)?;
    /// book.post(3, 1, 11)?;
    /// // at load 5 they cost 15, 15 and 16
    /// assert_eq!(book.report(5, 15)?, []);
    /// assert_eq!(book.report(5, 16)?, [Offer { number: 1, rate: 3, base: 0 }, Offer { number: 2, rate: 1, base: 10 }]);
    /// assert_eq!(book.report(5, 101_000_000_001), Err(Declined::OutOfRange));
    /// # Ok::<(), Declined>(())
    /// ```
    pub fn report(&self, load: i64, price: i64) -> Result<Vec<Offer>, Declined> {
        let words = lent::reported(&self.table, load, price, self.capacity())?;
        Ok(words.chunks(3).map(|w| Offer { number: w[0], rate: w[1], base: w[2] }).collect())
    }

    /// The pieces of the lower envelope, by falling rate: of each rate at most the first offer in order, where at some load it is strictly
    /// cheaper than every offer of another rate.
    ///
    /// ```
    /// let mut book = carrier_book::Book::new(64)?;
    /// book.post(1, 3, 0)?;
    /// assert_eq!(book.listing().len(), 1);
    /// # Ok::<(), carrier_book::Declined>(())
    /// ```
    pub fn listing(&self) -> Vec<Piece> {
        let mut out = vec![0; 3 * self.capacity()];
        let pieces = lent::listing(&self.table, 0, &mut out).expect("no more pieces than offers");
        let piece = |w: &[i64]| Piece { number: w[0], numerator: w[1], denominator: w[2] };
        out.chunks(3).take(pieces).map(piece).collect()
    }

    /// The same pieces, one at a time and without allocation.
    ///
    /// ```
    /// let mut book = carrier_book::Book::new(64)?;
    /// book.post(1, 3, 0)?;
    /// book.post(2, 1, 10)?;
    /// assert!(book.pieces().eq(book.listing()));
    /// # Ok::<(), carrier_book::Declined>(())
    /// ```
    pub fn pieces(&self) -> Pieces<'_> {
        Pieces::begin(&self.table, 0).expect("a book")
    }

    /// The meeting of this book with one whose rates are all below its own.
    ///
    /// ```
    /// use carrier_book::{Book, Declined};
    /// let (mut dear, mut cheap) = (Book::new(4)?, Book::new(4)?);
    /// assert_eq!(dear.meet(&cheap), Err(Declined::Empty));
    /// dear.post(1, 3, 0)?;
    /// cheap.post(2, 1, 10)?;
    /// let meeting = dear.meet(&cheap)?;
    /// assert_eq!((meeting.u, meeting.v), (1, 2));
    /// assert_eq!(cheap.meet(&dear), Err(Declined::RatesNotApart));
    /// # Ok::<(), Declined>(())
    /// ```
    pub fn meet(&self, other: &Book) -> Result<Meeting, Declined> {
        lent::meet(&self.table, 0, &other.table, 0)
    }

    /// Chart mark `index`, from 0 to the number of pieces.
    ///
    /// ```
    /// use carrier_book::{Book, Declined, Mark};
    /// let mut book = Book::new(64)?;
    /// book.post(1, 3, 0)?;
    /// assert_eq!(book.mark(0)?, Mark::OpenEnd(3.0));
    /// assert_eq!(book.mark(2), Err(Declined::NoSuchMark));
    /// # Ok::<(), Declined>(())
    /// ```
    pub fn mark(&self, index: i64) -> Result<Mark, Declined> {
        lent::mark(&self.table, 0, index)
    }

    /// All chart marks in order.
    ///
    /// ```
    /// let mut book = carrier_book::Book::new(64)?;
    /// book.post(1, 3, 0)?;
    /// book.post(2, 1, 10)?;
    /// assert_eq!(book.marks().count(), 3);
    /// # Ok::<(), carrier_book::Declined>(())
    /// ```
    pub fn marks(&self) -> Marks<'_> {
        Marks::begin(&self.table, 0)
    }

    /// Whether the book's words are a book in every particular.
    ///
    /// ```
    /// assert!(carrier_book::Book::new(64)?.check());
    /// # Ok::<(), carrier_book::Declined>(())
    /// ```
    pub fn check(&self) -> bool {
        lent::check(&self.table, 0)
    }
}

/// The capacity and the pieces.
impl fmt::Debug for Book {
    fn fmt(&self, f: &mut fmt::Formatter) -> fmt::Result {
        f.debug_struct("Book").field("capacity", &self.capacity()).field("pieces", &self.listing()).finish()
    }
}

/// By the check of every particular: words that are no book are declined with [`Declined::NoBook`].
///
/// ```
/// use carrier_book::{words, Book, Declined};
/// use std::convert::TryFrom;
/// let book = Book::try_from(Book::new(64)?.as_words().to_vec())?;
/// assert_eq!(book.capacity(), 64);
/// assert_eq!(Book::try_from(vec![0; words(64)]).unwrap_err(), Declined::NoBook);
/// # Ok::<(), Declined>(())
/// ```
impl TryFrom<Vec<i64>> for Book {
    type Error = Declined;

    fn try_from(table: Vec<i64>) -> Result<Book, Declined> {
        Book::from_words(table).ok_or(Declined::NoBook)
    }
}
