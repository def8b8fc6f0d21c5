//! The requirements' worked cases, the order of causes, and the archive's own numbers.
use carrier_book::{lent, raw, words, Book, Declined, Offer, Piece, Update};

fn book(offers: &[(i64, i64)]) -> Book {
    let mut book = Book::new(64).unwrap();
    for (i, (rate, base)) in offers.iter().enumerate() {
        book.post(i as i64 + 1, *rate, *base).unwrap();
    }
    book
}

fn pieces(book: &Book) -> Vec<(i64, i64, i64)> {
    book.listing().iter().map(|p: &Piece| (p.number, p.numerator, p.denominator)).collect()
}

fn asked(book: &Book, load: i64) -> (i64, i64, i64) {
    let found = book.query(load).unwrap();
    (found.number, found.price, found.second)
}

#[test]
fn prices_to_prove() {
    let b = book(&[(3, 0), (1, 10), (0, 40)]);
    assert_eq!(pieces(&b), [(1, 10, 2), (2, 30, 1), (3, 0, 0)]);
    assert_eq!([5, 6, 30, 31].map(|q| asked(&b, q)), [(2, 15, 1), (2, 16, 2), (3, 40, 2), (3, 40, 3)]);
    let mut b = book(&[(2, 0), (1, 5), (0, 10)]);
    assert_eq!(pieces(&b), [(1, 10, 2), (3, 0, 0)]);
    // all three cost 10 there: the one between is no piece
    assert_eq!(asked(&b, 5), (3, 10, 1));
    b.withdraw(3).unwrap();
    assert_eq!(pieces(&b), [(1, 5, 1), (2, 0, 0)]);
    let mut b = book(&[(2, 0), (1, 11), (0, 10)]);
    b.withdraw(1).unwrap();
    assert_eq!(pieces(&b), [(2, -1, 1), (3, 0, 0)]);
    let b = book(&[(0, 0), (-3, 7)]);
    assert_eq!([2, 3].map(|q| asked(&b, q)), [(1, 0, 1), (2, -2, 2)]);
}

#[test]
fn causes_in_order() {
    let mut b = Book::new(2).unwrap();
    assert_eq!(b.query(0), Err(Declined::Empty));
    assert_eq!(b.query(-1_000_001), Err(Declined::LoadOutOfRange));
    b.post(1, 5, 0).unwrap();
    b.post(2, 6, 0).unwrap();
    assert_eq!(b.post(10_000, -100_001, 1_000_000_001), Err(Declined::OutOfRange));
    assert_eq!(b.post(1, 100_001, -1_000_000_001), Err(Declined::RateOutOfRange));
    assert_eq!(b.post(1, 6, -1_000_000_001), Err(Declined::BaseOutOfRange));
    assert_eq!(b.post(1, 6, 0), Err(Declined::NumberLive));
    assert_eq!(b.post(3, 6, 0), Err(Declined::Full));
    assert_eq!(b.post(3, 7, 0), Err(Declined::Full));
    assert_eq!(b.withdraw(3), Err(Declined::NotLive));
    assert_eq!(b.query(1_000_001), Err(Declined::LoadOutOfRange));
    assert_eq!(lent::listing(b.as_words(), 0, &mut [0; 5]), Err(Declined::OutputTooShort));
    assert_eq!(Book::new(0).unwrap_err(), Declined::Capacity);
    assert_eq!(Book::new(4_097).unwrap_err(), Declined::Capacity);
    for number in 1..=18 {
        assert_eq!(Declined::from_number(number).number(), number);
        assert_eq!(Declined::from_number(number) == Declined::Other(number), [6, 11, 18].contains(&number));
    }
}

/// the numbers that a report has
fn reported(book: &Book, load: i64, price: i64) -> Vec<i64> {
    book.report(load, price).unwrap().iter().map(|o| o.number).collect()
}

#[test]
fn reports() {
    let b = book(&[(3, 0), (1, 10), (0, 40), (1, 10), (1, 9), (3, 0)]);
    // at load 5: 15, 15, 40, 15, 14, 15; an offer at the price itself is not below it
    assert_eq!(reported(&b, 5, 14), []);
    assert_eq!(reported(&b, 5, 15), [5]);
    assert_eq!(reported(&b, 5, 16), [1, 6, 5, 2, 4]);
    assert_eq!(reported(&b, 5, 40), [1, 6, 5, 2, 4]);
    assert_eq!(reported(&b, 5, 41), [1, 6, 5, 2, 4, 3]);
    let all = [(1, 3, 0), (6, 3, 0), (5, 1, 9), (2, 1, 10), (4, 1, 10), (3, 0, 40)];
    let all = all.map(|(number, rate, base)| Offer { number, rate, base });
    assert_eq!(b.report(5, 101_000_000_000).unwrap(), all);
    assert_eq!(b.report(-1_000_000, -3_000_000), Ok(vec![]));
    assert_eq!(reported(&b, -1_000_000, -2_999_999), [1, 6]);
    // a hidden one: at no load the cheapest, and yet below the price
    let b = book(&[(2, 0), (1, 11), (0, 10)]);
    assert_eq!(pieces(&b), [(1, 10, 2), (3, 0, 0)]);
    assert_eq!(reported(&b, 5, 17), [1, 2, 3]);
    assert_eq!(reported(&b, 5, 16), [1, 3]);
}

#[test]
fn reports_declined_in_order() {
    let (least, most) = (-101_000_000_000, 101_000_000_000);
    let mut table = vec![0; words(2)];
    let mut out = [-7; 6];
    assert_eq!(lent::report(&table, 0, 1_000_001, most + 1, &mut out), Err(Declined::NoBook));
    lent::open(&mut table, 0, 2).unwrap();
    // an empty book has none to report, and needs no output
    assert_eq!([least, 0, most].map(|price| lent::report(&table, 0, 0, price, &mut [])), [Ok(0); 3]);
    assert_eq!(lent::report(&table, 0, 1_000_001, most, &mut []), Err(Declined::LoadOutOfRange));
    lent::post(&mut table, 0, 1, 3, 0).unwrap();
    lent::post(&mut table, 0, 2, 3, 1).unwrap();
    for price in [least - 1, most + 1, i64::MIN, i64::MAX] {
        assert_eq!(lent::report(&table, 0, 1_000_001, price, &mut []), Err(Declined::OutOfRange));
    }
    for load in [-1_000_001, 1_000_001, i64::MIN, i64::MAX] {
        assert_eq!(lent::report(&table, 0, load, least, &mut out), Err(Declined::LoadOutOfRange));
        assert_eq!(lent::report(&table, 0, load, most, &mut []), Err(Declined::LoadOutOfRange));
    }
    for short in 0..6 {
        assert_eq!(lent::report(&table, 0, 0, most, &mut out[..short]), Err(Declined::OutputTooShort));
    }
    // one of the two costs nothing, and three words are enough for it
    assert_eq!(lent::report(&table, 0, 0, 1, &mut out[..2]), Err(Declined::OutputTooShort));
    assert_eq!(out, [-7; 6]);
    assert_eq!(lent::report(&table, 0, 0, 1, &mut out), Ok(1));
    assert_eq!(out, [1, 3, 0, -7, -7, -7]);
    assert_eq!(lent::report(&table, 0, 0, most, &mut out), Ok(2));
    assert_eq!(out, [1, 3, 0, 2, 3, 1]);
}

#[test]
fn a_report_of_many() {
    // past the room of a short report, at its edge, and all of a full book
    for count in [1, 31, 32, 33, 4_096] {
        let mut b = Book::new(count as usize).unwrap();
        for number in 1..=count {
            b.post(number, number % 7, number).unwrap();
        }
        let mut all: Vec<i64> = (1..=count).collect();
        all.sort_by_key(|number| (-(number % 7), *number));
        assert_eq!(reported(&b, 0, count + 1), all);
        all.retain(|number| *number < count);
        assert_eq!(reported(&b, 0, count), all);
    }
}

fn told(update: Result<Update, Declined>) -> [i64; 4] {
    let u = update.unwrap();
    [u.live, u.searches, u.steps, u.heights]
}

#[test]
fn several_offers_at_one_rate() {
    let mut b = book(&[(3, 0), (1, 10), (0, 40)]);
    // behind the first of its rate: by its base, and by its number
    assert_eq!(told(b.post(4, 1, 11)), [4, 0, 0, 0]);
    assert_eq!(told(b.post(5, 1, 10)), [5, 0, 0, 0]);
    assert_eq!(pieces(&b), [(1, 10, 2), (2, 30, 1), (3, 0, 0)]);
    assert_eq!(asked(&b, 6), (2, 16, 2));
    // ahead of it
    assert_eq!(b.post(6, 1, 8).unwrap().live, 6);
    assert_eq!(pieces(&b), [(1, 8, 2), (6, 32, 1), (3, 0, 0)]);
    assert_eq!([4, 5].map(|q| asked(&b, q)), [(6, 12, 1), (6, 13, 6)]);
    // one that is not the first goes, then the first, whose place the next takes, of equal bases the lower number
    assert_eq!(told(b.withdraw(4)), [5, 0, 0, 0]);
    b.withdraw(6).unwrap();
    assert_eq!(pieces(&b), [(1, 10, 2), (2, 30, 1), (3, 0, 0)]);
    b.withdraw(2).unwrap();
    assert_eq!(pieces(&b), [(1, 10, 2), (5, 30, 1), (3, 0, 0)]);
    // the last of its rate
    b.withdraw(5).unwrap();
    assert_eq!(pieces(&b), [(1, 40, 3), (3, 0, 0)]);
    assert!(b.check());
}

#[test]
fn take_backs() {
    let mut b = book(&[(3, 0), (1, 10), (0, 40)]);
    // the wrong carrier
    b.withdraw(1).unwrap();
    let update = b.take_back().unwrap();
    assert_eq!(update.live, 3);
    assert!(update.searches >= 1 && update.steps <= 3 * update.heights + update.searches);
    assert_eq!(pieces(&b), [(1, 10, 2), (2, 30, 1), (3, 0, 0)]);
    // neither what was taken back nor the take-back is remembered: the post of offer 3 is the last update
    assert_eq!(b.take_back().unwrap().live, 2);
    assert_eq!(pieces(&b), [(1, 10, 2), (2, 0, 0)]);
    // nor is what is asked or declined
    asked(&b, 5);
    b.check();
    assert_eq!(b.post(1, 0, 0), Err(Declined::NumberLive));
    assert_eq!(b.withdraw(3), Err(Declined::NotLive));
    assert_eq!(told(b.take_back()), [1, 0, 0, 0]);
    assert_eq!(asked(&b, 5), (1, 15, 1));
    assert_eq!(told(b.take_back()), [0, 0, 0, 0]);
    assert_eq!(b.take_back(), Err(Declined::NothingToTakeBack));
    assert_eq!(b.query(5), Err(Declined::Empty));
    assert!(b.check());
    // in a full book
    let mut b = Book::new(1).unwrap();
    b.post(1, 3, 0).unwrap();
    b.withdraw(1).unwrap();
    b.post(2, 1, 10).unwrap();
    assert_eq!([b.take_back(), b.take_back()].map(|update| update.unwrap().live), [0, 1]);
    assert_eq!(asked(&b, 5), (1, 15, 1));
}

#[test]
fn opening_empties_the_memory() {
    let mut table = vec![0; words(2)];
    lent::open(&mut table, 0, 2).unwrap();
    lent::post(&mut table, 0, 1, 3, 0).unwrap();
    lent::open(&mut table, 0, 2).unwrap();
    assert_eq!(lent::take_back(&mut table, 0), Err(Declined::NothingToTakeBack));
}

#[test]
fn the_memory_goes_with_the_words() {
    let mut b = book(&[(3, 0), (1, 10)]);
    b.withdraw(1).unwrap();
    let mut again = Book::try_from(b.as_words().to_vec()).unwrap();
    assert_eq!(b.take_back(), again.take_back());
    assert!(b.as_words() == again.as_words());
    assert_eq!(pieces(&again), [(1, 10, 2), (2, 0, 0)]);
}

#[test]
fn the_least_and_the_largest_part() {
    assert_eq!([1, 4_096].map(words), [1_152, 263_232]);
    let mut table = vec![0; 1_152];
    assert_eq!(lent::open(&mut table[..1_151], 0, 1), Err(Declined::NoRoom));
    assert_eq!(lent::open(&mut table, 1, 1), Err(Declined::NoRoom));
    lent::open(&mut table, 0, 1).unwrap();
    assert_eq!(lent::query(&table[..1_151], 0, 0), Err(Declined::NoBook));
    assert_eq!(lent::query(&table, 0, 0), Err(Declined::Empty));
}

#[test]
fn ties_within_a_rate() {
    let mut b = book(&[(1, 10), (3, 0), (3, 0), (1, 10), (1, 11)]);
    assert_eq!(asked(&b, 5), (1, 15, 2));
    b.withdraw(1).unwrap();
    b.withdraw(2).unwrap();
    assert_eq!(asked(&b, 5), (4, 15, 3));
    b.withdraw(3).unwrap();
    assert_eq!(asked(&b, 5), (4, 15, 4));
    b.withdraw(4).unwrap();
    assert_eq!(asked(&b, 5), (5, 16, 5));
}

#[test]
fn causes_in_words() {
    let said = |declined: Declined| declined.to_string();
    assert_eq!(said(Declined::Capacity), "the capacity is not in 1 to 4,096");
    assert_eq!(said(Declined::OutOfRange), "the offer's number or the price is out of range");
    assert_eq!(said(Declined::RateOutOfRange), "the rate is out of range");
    assert_eq!(said(Declined::BaseOutOfRange), "the base is out of range");
    assert_eq!(said(Declined::LoadOutOfRange), "the load is out of range");
    assert_eq!(said(Declined::NothingToTakeBack), "there is nothing to take back");
    assert_eq!(said(Declined::from_number(18)), "declined for cause 18");
}

#[test]
fn the_ends_of_the_ranges() {
    let mut b = Book::new(4).unwrap();
    let ends = [
        (1, 100_000, -1_000_000_000),
        (9_999, -100_000, 1_000_000_000),
        (2, 99_999, 1_000_000_000),
        (3, -99_999, -1_000_000_000),
    ];
    for (number, rate, base) in ends {
        b.post(number, rate, base).unwrap();
    }
    assert_eq!(asked(&b, -1_000_000), (1, -101_000_000_000, 1));
    assert_eq!(asked(&b, 1_000_000), (3, -100_999_000_000, 3));
    assert_eq!(asked(&b, 0), (3, -1_000_000_000, 1));
    assert_eq!(pieces(&b), [(1, 0, 199_999), (3, 2_000_000_000, 1), (9_999, 0, 0)]);
}

#[test]
fn arrays_too_short() {
    let mut table = vec![0i64; words(2)];
    lent::open(&mut table, 0, 2).unwrap();
    lent::post(&mut table, 0, 1, 1, 1).unwrap();
    let before = table.clone();
    let mut few = [7i64; 3];
    for length in 0..3 {
        // SAFETY: the lengths are at most those of the arrays.
        unsafe {
            let (t, n, f) = (table.as_mut_ptr(), table.len(), few.as_mut_ptr());
            assert_eq!(raw::carrier_post(t, n, 0, 2, 2, 2, f, length), -100);
            assert_eq!(raw::carrier_post(t, n, n + 1, 0, 0, 0, f, length), -100);
            assert_eq!(raw::carrier_withdraw(t, n, 0, 1, f, length), -100);
            assert_eq!(raw::carrier_take_back(t, n, 0, f, length), -100);
            assert_eq!(raw::carrier_take_back(t, n, n + 1, f, length), -100);
            assert_eq!(raw::carrier_query(t, n, 0, 0, f, length), -100);
            assert_eq!(raw::carrier_query(t, n, n + 1, i64::MAX, f, length), -100);
        }
    }
    assert!(table == before && few == [7; 3]);
}

#[test]
fn refusals_leave_counts_and_later_words_stay() {
    let mut table = vec![0i64; words(2)];
    lent::open(&mut table, 0, 2).unwrap();
    let mut room = [7i64; 5];
    // SAFETY: the lengths are those of the arrays.
    unsafe {
        let (t, n, f) = (table.as_mut_ptr(), table.len(), room.as_mut_ptr());
        assert_eq!(raw::carrier_withdraw(t, n, 0, 1, f, 5), -8);
        assert_eq!(raw::carrier_query(t, n, 0, 1, f, 5), -9);
        assert_eq!(raw::carrier_take_back(t, n, 0, f, 5), -17);
        assert_eq!(room, [7; 5]);
        assert_eq!(raw::carrier_post(t, n, 0, 1, 3, 0, f, 5), 1);
        assert_eq!(room, [0, 0, 0, 7, 7]);
        assert_eq!(raw::carrier_post(t, n, 0, 2, 1, 10, f, 5), 2);
        // two single lines meet in one step
        assert_eq!(room, [1, 1, 0, 7, 7]);
        assert_eq!(raw::carrier_query(t, n, 0, 6, f, 5), 2);
        assert_eq!(room, [16, 2, 1, 7, 7]);
        assert_eq!(raw::carrier_take_back(t, n, 0, f, 5), 1);
        assert_eq!(room, [0, 0, 0, 7, 7]);
    }
}

#[test]
fn a_book_is_its_words() {
    let mut b = book(&[(3, 0), (1, 10), (0, 40)]);
    let copy = b.clone();
    b.withdraw(2).unwrap();
    assert_eq!(asked(&copy, 6), (2, 16, 2));
    assert_eq!(asked(&b, 6), (1, 18, 1));
    let again = Book::from_words(b.as_words().to_vec()).unwrap();
    assert_eq!(pieces(&again), pieces(&b));
    assert_eq!(pieces(&Book::try_from(b.as_words().to_vec()).unwrap()), pieces(&b));
    assert_eq!(Book::try_from(b.as_words()[1..].to_vec()).unwrap_err(), Declined::NoBook);
    assert!(Book::from_words(vec![]).is_none());
    assert!(Book::from_words([b.as_words(), &[0]].concat()).is_none());
}
