//! A take-back, against the update that it performs: a withdrawal for a post, and a post for a withdrawal.
use crate::arrays::Offer;
use crate::{books, chosen, medians, offers, same_layout, timed, Case, Listed, IN_TABLES, UPDATES};
use carrier_book::Book;
use std::fmt::Write;

/// So many offers, each withdrawn and posted back, fill the memory.
const FILLING: usize = 128;

fn update(book: &mut Book, chosen: &[Offer]) {
    for o in chosen {
        book.withdraw(o.number).unwrap();
        book.post(o.number, o.rate, o.base).unwrap();
    }
}

#[inline(never)]
fn by_take_backs(book: &mut Book, chosen: &[Offer]) {
    for _ in chosen {
        book.take_back().unwrap();
        book.take_back().unwrap();
    }
}

#[inline(never)]
fn by_updates(book: &mut Book, chosen: &[Offer]) {
    for o in chosen.iter().rev() {
        book.withdraw(o.number).unwrap();
        book.post(o.number, o.rate, o.base).unwrap();
    }
}

fn update_plain(plain: &mut same_layout::Book, chosen: &[Offer]) {
    for o in chosen {
        plain.withdraw(o.number).unwrap();
        plain.post(o.number, o.rate, o.base).unwrap();
    }
}

fn plain_by_take_backs(plain: &mut same_layout::Book, chosen: &[Offer]) {
    for _ in chosen {
        plain.take_back().unwrap();
        plain.take_back().unwrap();
    }
}

/// the words but for the memory's
fn without_memory(book: &Book) -> (&[i64], &[i64]) {
    let words = book.as_words();
    (&words[..7], &words[9..64 * (book.capacity() + 1)])
}

/// Updates three books of the same words as often as a memory holds and undoes it, the last update first, again and again: by
/// take-backs, by updates, and by take-backs in plain Rust. Each one's nanoseconds for one update undone.
pub fn undone(book: &mut Book, updated: &mut Book, plain: &mut same_layout::Book, chosen: &[Offer]) -> [f64; 3] {
    let mut times = [0.0; 3];
    for some in chosen.chunks(FILLING) {
        update(book, some);
        times[0] += timed(UPDATES, || by_take_backs(book, some));
        update(updated, some);
        times[1] += timed(UPDATES, || by_updates(updated, some));
        update_plain(plain, some);
        times[2] += timed(UPDATES, || plain_by_take_backs(plain, some));
    }
    assert!(book.as_words() == plain.words, "the layouts differ");
    assert!(without_memory(book) == without_memory(updated), "the trees differ");
    times
}

fn take_backs(n: usize, listed: Listed) -> Case {
    let offers = offers(n, listed);
    let (mut book, mut plain) = books(&offers);
    let mut updated = book.clone();
    let pieces = book.listing().len();
    let chosen = chosen(&offers);
    Case { offers: n, pieces, run: Box::new(move || undone(&mut book, &mut updated, &mut plain, &chosen)) }
}

pub fn table() -> String {
    let kinds: Vec<(Listed, usize)> = Listed::KINDS.iter().flat_map(|k| IN_TABLES.map(|n| (*k, n))).collect();
    let rows = medians(kinds.iter().map(|(k, n)| take_backs(*n, *k)).collect());
    let mut t = String::from("| listed | offers | pieces | take-back, µs | its update, µs | take-back ÷ its update | Rust, µs | take-back ÷ Rust |\n|---|---|---|---|---|---|---|---|\n");
    for ((listed, _), r) in kinds.iter().zip(rows) {
        let [back, update, plain] = r.times;
        let name = listed.name();
        write!(t, "| {name} | {} | {} | {:.2} | {:.2} ", r.offers, r.pieces, back / 1e3, update / 1e3).unwrap();
        writeln!(t, "| **{:.2}** | {:.2} | **{:.2}** |", back / update, plain / 1e3, back / plain).unwrap();
    }
    t
}
