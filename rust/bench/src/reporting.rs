//! A report of every offer under a price, against a scan of all offers, by how many are reported.
use crate::arrays::Offer;
use crate::plot::{Axis, Line, Panel};
use crate::{books, medians, offers, plot, timed, Case, Listed, Random, Row};
use carrier_book::lent;
use std::fmt::Write;

const OFFERS: usize = 4_096;
const REPORTED: [usize; 5] = [0, 1, 10, 100, 1_000];
const LOADS: usize = 10_000;

/// A load, and a price at which exactly so many offers cost less.
type Asked = (i64, i64);

/// Those that share a rate get bases of their own: offers of one rate and base come under a price together, and no price would have
/// just one of them under it.
fn apart(listed: Listed) -> Vec<Offer> {
    let mut offers = offers(OFFERS, listed);
    if listed.rates(OFFERS) < OFFERS {
        offers.iter_mut().enumerate().for_each(|(i, o)| o.base = o.rate * o.rate + i as i64);
    }
    offers
}

/// random loads where the envelope's breakpoints lie; one at which no price has exactly so many offers under it is left out
fn asked(offers: &[Offer], reported: usize) -> Vec<Asked> {
    let mut r = Random(23);
    let mut asked = vec![];
    while asked.len() < LOADS {
        let load = r.within(-60_000, 60_000);
        let mut prices: Vec<i64> = offers.iter().map(|o| o.base + o.rate * load).collect();
        let (under, price, _) = prices.select_nth_unstable(reported);
        if under.iter().all(|p| *p < *price) {
            asked.push((load, *price));
        }
    }
    asked
}

/// By a scan of offers in order.
#[inline(never)]
fn scan(offers: &[Offer], (load, price): Asked, out: &mut [i64]) -> usize {
    let mut words = 0;
    for o in offers.iter().filter(|o| o.base + o.rate * load < price) {
        out[words..words + 3].copy_from_slice(&[o.number, o.rate, o.base]);
        words += 3;
    }
    words / 3
}

/// each one asked, and one word of all counts and last words
fn sum(asked: &[Asked], out: &mut [i64], answer: impl Fn(Asked, &mut [i64]) -> usize) -> i64 {
    asked.iter().fold(0, |sum, one| {
        let count = answer(*one, out);
        let last = out[..3 * count].last().copied().unwrap_or(0);
        sum.wrapping_mul(31) ^ count as i64 ^ (last << 20)
    })
}

/// book, scan, a query at the same load
fn report(listed: Listed, reported: usize) -> Case {
    let offers = apart(listed);
    let (book, _) = books(&offers);
    let pieces = book.listing().len();
    let asked = asked(&offers, reported);
    let by_book = |words: &[i64], (load, price): Asked, out: &mut [i64]| lent::report(words, 0, load, price, out).unwrap();
    let (mut told, mut expected) = (vec![0; 3 * OFFERS], vec![0; 3 * OFFERS]);
    for one in &asked {
        let count = by_book(book.as_words(), *one, &mut told);
        assert!(count == reported && count == scan(&offers, *one, &mut expected), "the counts differ");
        assert!(told[..3 * count] == expected[..3 * count], "the offers differ");
    }
    let run = move || {
        let (mut sums, mut found) = ([0; 2], 0);
        let times = [
            timed(LOADS, || sums[0] = sum(&asked, &mut told, |one, out| by_book(book.as_words(), one, out))),
            timed(LOADS, || sums[1] = sum(&asked, &mut expected, |one, out| scan(&offers, one, out))),
            timed(LOADS, || found = asked.iter().fold(0, |sum, one| sum ^ book.query(one.0).unwrap().number)),
        ];
        assert!(sums[0] == sums[1], "the answers differ");
        assert!(found >= 0, "an offer's number is below 0");
        times
    };
    Case { offers: reported, pieces, run: Box::new(run) }
}

/// the rows of each kind, in the order of `REPORTED`
pub fn rows() -> Vec<Row> {
    let kinds = Listed::KINDS.iter().flat_map(|k| REPORTED.map(|m| report(*k, m)));
    medians(kinds.collect())
}

pub fn table(rows: &[Row]) -> String {
    let mut t = String::from(
        "| listed | pieces | reported | report, ns | scan, ns | scan ÷ report | query, ns | report ÷ query |\n|---|---|---|---|---|---|---|---|\n",
    );
    for (rows, listed) in rows.chunks(REPORTED.len()).zip(Listed::KINDS) {
        for r in rows {
            let [report, scan, query] = r.times;
            write!(t, "| {} | {} | {} | {report:.0} | {scan:.0} ", listed.name(), r.pieces, r.offers).unwrap();
            writeln!(t, "| **{:.2}** | {query:.0} | {:.1} |", scan / report, report / query).unwrap();
        }
    }
    t
}

/// time over the number reported, for each kind of books, with the scan of the kind `half`
pub fn drawing(rows: &[Row]) -> String {
    let colours = ["#1b6ca8", "#2e8b57", "#8e44ad", "#d68910", "#16a085"];
    let points = |rows: &[Row], at: usize| rows.iter().filter(|r| r.offers > 0).map(|r| (r.offers as f64, r.times[at])).collect();
    let kinds = || rows.chunks(REPORTED.len()).zip(Listed::KINDS);
    let mut lines: Vec<Line> = kinds()
        .zip(colours)
        .map(|((rows, listed), colour)| Line { name: listed.name(), colour, points: points(rows, 0) })
        .collect();
    for (rows, _) in kinds().filter(|(_, listed)| *listed == Listed::Half) {
        lines.push(Line { name: "scan of all offers (half)", colour: "#c0392b", points: points(rows, 1) });
    }
    let axis = Axis { name: "offers reported, of 4,096", ticks: &[1.0, 10.0, 100.0, 1_000.0] };
    plot::draw(&[Panel { title: "one report", axis, lines }])
}
