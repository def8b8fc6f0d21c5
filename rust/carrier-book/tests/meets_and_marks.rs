//! Meetings, chart marks, readings and vouchers: against a scan with exact fractions, and on words of any content.
mod common;

use carrier_book::{lent, raw, voucher_price, words, Book, Declined, Mark, Meeting, Piece};
use common::exact::{crossing, crossing_price, envelope};
use common::{log2_up, offer, Lie, Offer, Random, LIES};

/// A book of random offers, some of them withdrawn again, and those that are live.
fn book(r: &mut Random, lie: Lie, capacity: usize, posts: usize, shift: i64) -> (Book, Vec<Offer>) {
    let mut book = Book::new(capacity).unwrap();
    let mut live: Vec<Offer> = vec![];
    for _ in 0..posts {
        let mut o = offer(r, lie, capacity as i64);
        o.rate = (o.rate / 2 + shift).clamp(-100_000, 100_000);
        if book.post(o.number, o.rate, o.base).is_ok() {
            live.push(o);
        }
        if r.one_in(5) && !live.is_empty() {
            let at = r.within(0, live.len() as i64 - 1) as usize;
            book.withdraw(live.swap_remove(at).number).unwrap();
        }
    }
    (book, live)
}

/// the last piece of the first set and the first of the second on the envelope of both
fn meeting(first: &[Offer], second: &[Offer]) -> (i64, i64) {
    let lowest = first.iter().map(|o| o.rate).min().unwrap();
    let pieces = envelope(&[first, second].concat());
    let at = pieces.iter().position(|o| o.rate < lowest).unwrap();
    (pieces[at - 1].number, pieces[at].number)
}

fn held(first: &(Book, Vec<Offer>), second: &(Book, Vec<Offer>), met: Result<Meeting, Declined>) {
    if first.1.is_empty() || second.1.is_empty() {
        assert_eq!(met, Err(Declined::Empty));
    } else if first.1.iter().any(|a| second.1.iter().any(|b| a.rate <= b.rate)) {
        assert_eq!(met, Err(Declined::RatesNotApart));
    } else {
        let met = met.unwrap();
        assert_eq!((met.u, met.v), meeting(&first.1, &second.1));
        assert!(met.steps >= 1 && met.steps <= 3 * (met.hl + met.hr) + 1);
        let pieces = |b: &(Book, Vec<Offer>)| b.0.pieces().count();
        assert!((0..=2 * log2_up(pieces(first))).contains(&met.hl) && (0..=2 * log2_up(pieces(second))).contains(&met.hr));
    }
}

#[test]
fn meetings() {
    let mut met = 0;
    for seed in 0..1_200 {
        let r = &mut Random::new(80_000 + seed);
        let lie = LIES[seed as usize % LIES.len()];
        let capacity = r.pick(&[1, 2, 5, 16, 64]);
        // apart, as the ranges of the rates are, or not
        let shift = r.pick(&[50_000, 50_000, 50_000, 15_000, 0]);
        let posts = r.within(0, 3 * capacity as i64) as usize;
        let first = book(r, lie, capacity, posts + 1, shift);
        let second = book(r, lie, capacity, posts, -shift);
        held(&first, &second, first.0.meet(&second.0));
        held(&second, &first, second.0.meet(&first.0));
        met += first.0.meet(&second.0).is_ok() as usize;
    }
    assert!(met > 400, "{}", met);
}

#[test]
fn a_large_meeting() {
    let r = &mut Random::new(81_000);
    for lie in LIES {
        let first = book(r, lie, 4_096, 2_500, 50_000);
        let second = book(r, lie, 4_096, 2_500, -50_000);
        held(&first, &second, first.0.meet(&second.0));
    }
}

/// holds marks, reading and listing to the envelope of the live offers
fn charted(book: &Book, live: &[Offer]) {
    let pieces = envelope(live);
    let m = pieces.len() as i64;
    let none = if live.is_empty() { Declined::Empty } else { Declined::NoSuchMark };
    for index in [-1, m + 1, 4_096, 4_097, i64::MIN, i64::MAX] {
        if !(0..=m).contains(&index) {
            assert_eq!(book.mark(index), Err(none));
        }
    }
    let marks: Vec<Mark> = book.marks().collect();
    assert_eq!(marks.len(), if live.is_empty() { 0 } else { pieces.len() + 1 });
    for (i, mark) in marks.iter().enumerate() {
        assert_eq!(book.mark(i as i64), Ok(*mark));
        match *mark {
            Mark::OpenEnd(rate) if i == 0 => assert_eq!(rate, pieces[0].rate as f64),
            Mark::OpenEnd(rate) => assert_eq!((i, rate), (pieces.len(), pieces[i - 1].rate as f64)),
            Mark::Crossing(point) => {
                let (own, next) = (&pieces[i - 1], &pieces[i]);
                assert!(crossing(own, next).rounds_to(point.load), "{:?} {:?}: {}", own, next, point.load);
                assert!(crossing_price(own, next).rounds_to(point.price), "{:?} {:?}: {}", own, next, point.price);
            }
        }
    }
    let read: Vec<Piece> = book.pieces().collect();
    assert_eq!(read, book.listing());
    assert!(read.iter().map(|p| p.number).eq(pieces.iter().map(|p| p.number)));
    let mut reading = book.pieces();
    assert_eq!(reading.by_ref().count(), pieces.len());
    assert_eq!((reading.next(), reading.next()), (None, None));
}

#[test]
fn marks_and_readings() {
    for seed in 0..600 {
        let r = &mut Random::new(82_000 + seed);
        let lie = LIES[seed as usize % LIES.len()];
        let capacity = r.pick(&[1, 2, 5, 16, 64]);
        let posts = r.within(0, 4 * capacity as i64) as usize;
        let (book, live) = book(r, lie, capacity, posts, 0);
        charted(&book, &live);
    }
}

#[test]
fn a_large_chart() {
    let r = &mut Random::new(83_000);
    let (book, live) = book(r, Lie::Tangent, 4_096, 900, 0);
    assert!(envelope(&live).len() > 300);
    charted(&book, &live);
}

#[test]
fn the_largest_quotients() {
    let ends = [(100_000, -1_000_000_000), (99_999, 1_000_000_000), (-99_999, -1_000_000_000), (-100_000, 1_000_000_000)];
    for (i, a) in ends.iter().enumerate() {
        for b in &ends[i + 1..] {
            let mut book = Book::new(2).unwrap();
            let offers = [Offer { number: 1, rate: a.0, base: a.1 }, Offer { number: 2, rate: b.0, base: b.1 }];
            for o in &offers {
                book.post(o.number, o.rate, o.base).unwrap();
            }
            charted(&book, &offers);
        }
    }
}

#[test]
fn vouchers_of_every_residue() {
    let near = [0, 1, 2, 77, 12_345, 1_000_000, 1_009_999_999];
    for units in near {
        for residue in 0..100 {
            for price in [100 * units + residue, -(100 * units + residue)] {
                let u = voucher_price(price).unwrap();
                let off = (i128::from(u) * 100 - i128::from(price)).abs();
                assert!(off <= 50, "{}: {}", price, u);
                // at a half, the even unit
                assert!(off < 50 || u % 2 == 0, "{}: {}", price, u);
            }
        }
    }
    for end in [101_000_000_000i64, -101_000_000_000] {
        assert_eq!(voucher_price(end), Ok(end / 100));
        assert_eq!(voucher_price(end + end.signum()), Err(Declined::OutOfRange));
    }
    assert_eq!((voucher_price(i64::MIN), voucher_price(i64::MAX)), (Err(Declined::OutOfRange), Err(Declined::OutOfRange)));
}

#[test]
fn arrays_too_short_and_later_words() {
    let mut book = Book::new(2).unwrap();
    book.post(1, 3, 0).unwrap();
    book.post(2, 1, 10).unwrap();
    let mut low = Book::new(1).unwrap();
    low.post(7, -1, 100).unwrap();
    let (t, n) = (book.as_words().as_ptr(), book.as_words().len());
    let (s, m) = (low.as_words().as_ptr(), low.as_words().len());
    let (mut out, mut mark) = ([7i64; 6], [7f64; 4]);
    let (o, p) = (out.as_mut_ptr(), mark.as_mut_ptr());
    // SAFETY: the lengths are at most those of the arrays, and the books are only read.
    unsafe {
        for short in 0..4 {
            assert_eq!(raw::carrier_meet(t, n, 0, s, m, 0, o, short), -100);
            assert_eq!(raw::carrier_meet(t, n, n + 1, s, m, m + 1, o, short), -100);
            if short < 3 {
                assert_eq!(raw::carrier_piece(t, n, 0, 1, o, short), -100);
                assert_eq!(raw::carrier_piece(t, n, n + 1, 1, o, short), -100);
            }
            if short < 2 {
                assert_eq!(raw::carrier_mark(t, n, 0, 1, p, short), -100);
                assert_eq!(raw::carrier_mark(t, n, n + 1, 1, p, short), -100);
            }
        }
        assert_eq!(raw::carrier_voucher(150, o, 0), -100);
        // declined: nothing is written
        assert_eq!(raw::carrier_meet(s, m, 0, t, n, 0, o, 6), -12);
        assert_eq!(raw::carrier_mark(t, n, 0, 3, p, 4), -13);
        assert_eq!(raw::carrier_voucher(i64::MIN, o, 6), -4);
        assert_eq!(raw::carrier_piece(t, n, n, 1, o, 6), -3);
        for no_place in [0, -3, i64::MIN, 1 << 32, i64::MAX] {
            assert_eq!(raw::carrier_piece(t, n, 0, no_place, o, 6), 0);
        }
        assert!(out == [7; 6] && mark == [7.0; 4]);
        assert_eq!(raw::carrier_meet(t, n, 0, s, m, 0, o, 6), 2);
        assert_eq!(out, [7, 2, 1, 0, 7, 7]);
        assert_eq!(raw::carrier_mark(t, n, 0, 2, p, 4), 0);
        assert_eq!(mark, [1.0, 7.0, 7.0, 7.0]);
        assert_eq!(raw::carrier_mark(t, n, 0, 1, p, 4), 1);
        assert_eq!(mark, [5.0, 15.0, 7.0, 7.0]);
        assert_eq!(raw::carrier_voucher(-150, o, 6), 0);
        assert_eq!(out, [-2, 2, 1, 0, 7, 7]);
        let place = raw::carrier_begin(t, n, 0);
        let place = raw::carrier_piece(t, n, 0, place, o, 6);
        assert_eq!(out, [1, 10, 2, 0, 7, 7]);
        assert_eq!(raw::carrier_piece(t, n, 0, place, o, 6), 0);
        assert_eq!(out, [2, 0, 0, 0, 7, 7]);
    }
}

#[test]
fn two_books_in_one_table() {
    let second = words(3) + 5;
    let mut table = vec![-1; second + words(2)];
    lent::open(&mut table, 0, 3).unwrap();
    lent::open(&mut table, second, 2).unwrap();
    for (number, rate, base) in [(1, 3, 0), (2, 1, 10)] {
        lent::post(&mut table, 0, number, rate, base).unwrap();
    }
    lent::post(&mut table, second, 1, 0, 40).unwrap();
    let met = lent::meet(&table, 0, &table, second).unwrap();
    assert_eq!((met.u, met.v, met.hl, met.hr), (2, 1, 1, 0));
    assert_eq!(lent::meet(&table, 0, &table, 0), Err(Declined::RatesNotApart));
}
