//! How long a query takes by the archive's code at two commits: before it told a second offer, and after.
use crate::library::function_of;
use crate::{arrays, books, medians, offers, timed, Case, Listed, Random, IN_TABLES, QUERIES};
use std::ffi::c_void;
use std::fmt::Write;

type Query = unsafe extern "C" fn(*const i64, usize, usize, i64, *mut i64, usize) -> i64;

fn query_of(library: &str) -> Query {
    let function = function_of(library, "carrier_query");
    // SAFETY: it has had this type since its first commit; the words that it writes became three from two.
    unsafe { std::mem::transmute::<*mut c_void, Query>(function) }
}

/// the prices of all loads, added up: the offer named differs where two are the cheapest
fn prices(words: &[i64], loads: &[i64], query: Query) -> i64 {
    let mut found = [0i64; 3];
    loads.iter().fold(0, |sum, load| {
        // SAFETY: each pointer and length are those of one slice.
        let number = unsafe { query(words.as_ptr(), words.len(), 0, *load, found.as_mut_ptr(), found.len()) };
        assert!(number > 0);
        sum + found[0]
    })
}

/// before, after, binary search
fn asking(n: usize, before: Query, after: Query) -> Case {
    let offers = offers(n, Listed::Half);
    let (book, _) = books(&offers);
    let mut envelope = vec![];
    arrays::rebuild(&offers, &mut envelope);
    let pieces = arrays::pieces(&envelope);
    let mut r = Random(7);
    let loads: Vec<i64> = (0..QUERIES).map(|_| r.within(-60_000, 60_000)).collect();
    // each run begins with another of the three, so that none always comes first
    let mut first = 0;
    let run = move || {
        let mut sums = [0; 3];
        let mut times = [0.0; 3];
        for at in (0..3).map(|i| (first + i) % 3) {
            times[at] = timed(QUERIES, || {
                sums[at] = match at {
                    0 => prices(book.as_words(), &loads, before),
                    1 => prices(book.as_words(), &loads, after),
                    _ => loads.iter().map(|q| arrays::search(&pieces, *q).1).sum(),
                }
            });
        }
        assert!(sums[0] == sums[1] && sums[0] == sums[2], "the prices differ");
        first += 1;
        times
    };
    Case { offers: n, pieces: envelope.len(), run: Box::new(run) }
}

pub fn table(before: &str, after: &str) -> String {
    let (before, after) = (query_of(before), query_of(after));
    let rows = medians(IN_TABLES.iter().map(|n| asking(*n, before, after)).collect());
    let mut t = String::from("\n| offers | pieces | before, ns | after, ns | after ÷ before |\n|---|---|---|---|---|\n");
    for r in rows {
        let [before, after, _] = r.times;
        writeln!(t, "| {} | {} | {before:.1} | {after:.1} | **{:.2}** |", r.offers, r.pieces, after / before).unwrap();
    }
    t + "\n"
}
