//! Times of the proved book against a scan, sorted arrays and plain Rust in the same layout; medians of five runs. It prints
//! the tables; with the word `record` it also puts them into docs/BENCHMARKS.md, between its two marks, and draws docs/benchmarks.svg.
//! With the word `instructions` it counts an update's and a take-back's instructions instead, with the word `check` it times the check of
//! a full book, with the word `reports` reports, for which it draws docs/reports.svg; with two libraries and the word `asking` a query, with
//! the word `printing` a number's printing (rust/bench/asking.sh and printing.sh make them). Their tables go between marks of their own.
//! Run it in release.
mod arrays;
mod asking;
mod checks;
mod counted;
mod library;
mod plot;
mod printing;
mod reporting;
mod same_layout;
mod taking_back;

use arrays::Offer;
use carrier_book::Book;
use plot::{Axis, Line, Panel};
use std::fmt::Write;

const RUNS: usize = 5;
const SIZES: [usize; 7] = [64, 128, 256, 512, 1_024, 2_048, 4_096];
const IN_TABLES: [usize; 3] = [64, 512, 4_096];
const QUERIES: usize = 1_000_000;
const UPDATES: usize = 4_000;

/// How many of the offers are listed: of those with a rate each all, half or few, and of those that share rates the first of each.
#[derive(Clone, Copy, PartialEq)]
enum Listed {
    All,
    Half,
    Few,
    OneRate,
    SharedRates,
}

/// So many rates the last kind has.
const SHARED_RATES: usize = 64;

impl Listed {
    const KINDS: [Listed; 5] = [Listed::All, Listed::Half, Listed::Few, Listed::OneRate, Listed::SharedRates];

    fn name(self) -> &'static str {
        ["all", "half", "few", "one rate", "64 rates"][self as usize]
    }

    /// so many rates `n` offers have
    fn rates(self, n: usize) -> usize {
        match self {
            Listed::OneRate => 1,
            Listed::SharedRates => SHARED_RATES,
            _ => n,
        }
    }
}

struct Random(u64);

impl Random {
    fn within(&mut self, low: i64, high: i64) -> i64 {
        self.0 ^= self.0 >> 12;
        self.0 ^= self.0 << 25;
        self.0 ^= self.0 >> 27;
        let word = self.0.wrapping_mul(0x2545_f491_4f6c_dd1d);
        low + ((word >> 1) % (high - low + 1) as u64) as i64
    }
}

/// `n` offers in order, with numbers in none. Tangents of a parabola are all listed; half of them moved up are not. Those that share a
/// rate are a tangent and others above it.
fn offers(n: usize, listed: Listed) -> Vec<Offer> {
    let mut r = Random(20_261_115);
    let mut numbers: Vec<i64> = (1..=9_999).collect();
    for i in (1..numbers.len()).rev() {
        numbers.swap(i, r.within(0, i as i64) as usize);
    }
    let mut rates = std::collections::BTreeSet::new();
    while rates.len() < listed.rates(n) {
        rates.insert(-r.within(-30_000, 30_000));
    }
    let offer = |(i, rate): (usize, &i64)| {
        let base = match listed {
            Listed::All => rate * rate,
            Listed::Half => rate * rate + r.within(0, 1) * r.within(1, 90_000_000),
            Listed::Few => r.within(-1_000_000_000, 1_000_000_000),
            Listed::OneRate | Listed::SharedRates => rate * rate + r.within(0, 999),
        };
        Offer { number: numbers[i], rate: *rate, base }
    };
    let mut all: Vec<Offer> = rates.iter().rev().cycle().take(n).enumerate().map(offer).collect();
    all.sort_by_key(Offer::place);
    all
}

/// Both books with the same offers, posted in the same mixed order.
fn books(offers: &[Offer]) -> (Book, same_layout::Book) {
    let mut book = Book::new(offers.len()).unwrap();
    let mut plain = same_layout::Book::open(offers.len());
    let mut order: Vec<&Offer> = offers.iter().collect();
    order.sort_by_key(|o| o.number);
    for o in order {
        let told = book.post(o.number, o.rate, o.base).unwrap();
        let counts = same_layout::Counts { searches: told.searches, steps: told.steps, heights: told.heights };
        assert_eq!(plain.post(o.number, o.rate, o.base), Ok((told.live, counts)));
    }
    assert!(book.as_words() == plain.words, "the layouts differ");
    (book, plain)
}

/// This thread's processor time in nanoseconds: what other programs take of the machine does not count.
fn processor_time() -> f64 {
    #[repr(C)]
    struct Time {
        seconds: i64,
        nanoseconds: i64,
    }
    extern "C" {
        fn clock_gettime(clock: i32, time: *mut Time) -> i32;
    }
    const THREAD: i32 = 3;
    let mut time = Time { seconds: 0, nanoseconds: 0 };
    // SAFETY: `time` has the form that x86-64 Linux asks for.
    assert_eq!(unsafe { clock_gettime(THREAD, &mut time) }, 0);
    time.seconds as f64 * 1e9 + time.nanoseconds as f64
}

/// nanoseconds a turn
fn timed(turns: usize, work: impl FnOnce()) -> f64 {
    let start = processor_time();
    work();
    (processor_time() - start) / turns as f64
}

/// Offers, or how many of them are reported, and a run that times its three contenders one after the other.
struct Case {
    offers: usize,
    pieces: usize,
    run: Box<dyn FnMut() -> [f64; 3]>,
}

struct Row {
    offers: usize,
    pieces: usize,
    times: [f64; 3],
}

/// The medians of five runs. All cases take turns, so that a slow while of the machine falls on all of them.
fn medians(mut cases: Vec<Case>) -> Vec<Row> {
    let runs: Vec<Vec<[f64; 3]>> = (0..RUNS).map(|_| cases.iter_mut().map(|c| (c.run)()).collect()).collect();
    let median = |case: usize, at: usize| {
        let mut times: Vec<f64> = runs.iter().map(|run| run[case][at]).collect();
        times.sort_by(f64::total_cmp);
        times[RUNS / 2]
    };
    let row = |(i, c): (usize, &Case)| Row { offers: c.offers, pieces: c.pieces, times: std::array::from_fn(|at| median(i, at)) };
    cases.iter().enumerate().map(row).collect()
}

/// book, scan, binary search
fn queries(n: usize) -> Case {
    let offers = offers(n, Listed::Half);
    let (book, _) = books(&offers);
    let mut envelope = vec![];
    arrays::rebuild(&offers, &mut envelope);
    let pieces = arrays::pieces(&envelope);
    assert_eq!(book.listing().len(), pieces.len());
    let mut r = Random(7);
    let loads: Vec<i64> = (0..QUERIES).map(|_| r.within(-60_000, 60_000)).collect();
    let run = move || {
        let mut sums = [0i64; 3];
        let times = [
            timed(QUERIES, || sums[0] = sum(&loads, |q| book.query(q).map(|f| (f.number, f.price, f.second)).unwrap())),
            timed(QUERIES, || sums[1] = sum(&loads, |q| arrays::scan(&offers, q))),
            timed(QUERIES, || sums[2] = sum(&loads, |q| arrays::search(&pieces, q))),
        ];
        assert!(sums[0] == sums[1] && sums[0] == sums[2], "the answers differ");
        times
    };
    Case { offers: n, pieces: envelope.len(), run: Box::new(run) }
}

/// one word of all answers, which differs where they do
fn sum(loads: &[i64], answer: impl Fn(i64) -> arrays::Answer) -> i64 {
    loads.iter().fold(0, |sum, load| {
        let (number, price, second) = answer(*load);
        sum.wrapping_mul(31) ^ number ^ price ^ (second << 32)
    })
}

/// random offers, each to be withdrawn and posted back
fn chosen(offers: &[Offer]) -> Vec<Offer> {
    let mut r = Random(9);
    (0..UPDATES / 2).map(|_| offers[r.within(0, offers.len() as i64 - 1) as usize]).collect()
}

/// book, plain Rust in the same layout, sorted array with its envelope rebuilt; a turn is one withdrawal or one post
fn updates(n: usize, listed: Listed) -> Case {
    let offers = offers(n, listed);
    let (mut book, mut plain) = books(&offers);
    let mut sorted = arrays::Sorted::of(&offers);
    let pieces = sorted.envelope.len();
    let chosen = chosen(&offers);
    let run = move || {
        let of_book = timed(UPDATES, || {
            for o in &chosen {
                book.withdraw(o.number).unwrap();
                book.post(o.number, o.rate, o.base).unwrap();
            }
        });
        let of_plain = timed(UPDATES, || {
            for o in &chosen {
                plain.withdraw(o.number).unwrap();
                plain.post(o.number, o.rate, o.base).unwrap();
            }
        });
        let of_sorted = timed(UPDATES, || {
            for o in &chosen {
                sorted.withdraw(o.number);
                sorted.post(*o);
            }
        });
        assert!(book.as_words() == plain.words, "the layouts differ");
        let numbers = book.listing().into_iter().map(|p| p.number);
        assert!(sorted.envelope.iter().map(|o| o.number).eq(numbers), "the envelopes differ");
        [of_book, of_plain, of_sorted]
    };
    Case { offers: n, pieces, run: Box::new(run) }
}

fn query_table(rows: &[Row]) -> String {
    let mut t = String::from("| offers | pieces | book, ns | scan, ns | scan ÷ book | binary search, ns | book ÷ binary search |\n|---|---|---|---|---|---|---|\n");
    for r in rows.iter().filter(|r| IN_TABLES.contains(&r.offers)) {
        let [book, scan, search] = r.times;
        writeln!(
            t,
            "| {} | {} | {book:.0} | {scan:.0} | **{:.1}** | {search:.0} | {:.1} |",
            r.offers,
            r.pieces,
            scan / book,
            book / search
        )
        .unwrap();
    }
    t
}

fn update_table(rows: &[(Listed, Row)]) -> String {
    let mut t = String::from("| listed | offers | pieces | book, µs | Rust, µs | book ÷ Rust | rebuild, µs | rebuild ÷ book | book, as a multiple of its time at 64 |\n|---|---|---|---|---|---|---|---|---|\n");
    for (listed, r) in rows.iter().filter(|r| IN_TABLES.contains(&r.1.offers)) {
        let [book, plain, rebuild] = r.times;
        let least = rows.iter().find(|other| other.0 == *listed).map_or(book, |other| other.1.times[0]);
        let name = listed.name();
        write!(t, "| {name} | {} | {} | {:.2} | {:.2} ", r.offers, r.pieces, book / 1e3, plain / 1e3).unwrap();
        writeln!(t, "| **{:.2}** | {:.2} | **{:.2}** | {:.1} |", book / plain, rebuild / 1e3, rebuild / book, book / least)
            .unwrap();
    }
    t
}

/// what was aimed at, with the least and the greatest that was measured
fn aims(queries: &[Row], updates: &[(Listed, Row)]) -> String {
    let span = |values: Vec<f64>| {
        let least = values.iter().copied().fold(f64::MAX, f64::min);
        let greatest = values.iter().copied().fold(0.0, f64::max);
        format!("{least:.1} to {greatest:.1}")
    };
    let large = queries.last().map_or(0.0, |r| r.times[1] / r.times[0]);
    let of_rust = updates.iter().map(|r| r.1.times[0] / r.1.times[1]).collect();
    let growth = updates.chunks(SIZES.len()).map(|rows| rows[SIZES.len() - 1].1.times[0] / rows[0].1.times[0]).collect();
    let mut t = String::from("| aim | measured |\n|---|---|\n");
    writeln!(t, "| a query at 4,096 offers is at least 20 times as quick as the scan | {large:.1} |").unwrap();
    writeln!(t, "| an update at 4,096 offers takes at most 5 times its time at 64 | {} |", span(growth)).unwrap();
    writeln!(t, "| an update takes at most twice the time of plain Rust, all sizes | {} |", span(of_rust)).unwrap();
    t
}

/// a line for each contender, in the order of a row's times
fn panel<'a>(title: &'a str, rows: &[&Row], contenders: [(&'a str, &'a str); 3]) -> Panel<'a> {
    let line =
        |(at, (name, colour))| Line { name, colour, points: rows.iter().map(|r| (r.offers as f64, r.times[at])).collect() };
    let axis = Axis { name: "offers", ticks: &[64.0, 128.0, 256.0, 512.0, 1_024.0, 2_048.0, 4_096.0] };
    Panel { title, axis, lines: contenders.into_iter().enumerate().map(line).collect() }
}

fn panels(queries: &[Row], updates: &[(Listed, Row)]) -> String {
    let (blue, green, red, grey) = ("#1b6ca8", "#2e8b57", "#c0392b", "#7f8c8d");
    let queries: Vec<&Row> = queries.iter().collect();
    let updates: Vec<&Row> = updates.iter().filter(|r| r.0 == Listed::Half).map(|r| &r.1).collect();
    let left =
        panel("one query", &queries, [("book", blue), ("scan of all offers", red), ("binary search in a sorted array", grey)]);
    let right = panel(
        "one post or withdrawal",
        &updates,
        [("book", blue), ("Rust in the same layout", green), ("sorted array, rebuilt", red)],
    );
    plot::draw(&[left, right])
}

const DOCS: &str = concat!(env!("CARGO_MANIFEST_DIR"), "/../../docs/");

/// puts tables between their two marks in docs/BENCHMARKS.md
fn record(name: &str, tables: &str) {
    let file = format!("{DOCS}BENCHMARKS.md");
    let page = std::fs::read_to_string(&file).unwrap();
    let marks = [format!("<!-- {name} -->\n"), format!("<!-- end of {name} -->")];
    let begin = page.find(&marks[0]).expect("the first mark") + marks[0].len();
    let end = page.find(&marks[1]).expect("the second mark");
    std::fs::write(file, format!("{}{tables}{}", &page[..begin], &page[end..])).unwrap();
}

fn times(recorded: bool) {
    let asked = medians(SIZES.iter().map(|n| queries(*n)).collect());
    let kinds: Vec<(Listed, usize)> = Listed::KINDS.iter().flat_map(|k| SIZES.map(|n| (*k, n))).collect();
    let rows = medians(kinds.iter().map(|(k, n)| updates(*n, *k)).collect());
    let updated: Vec<(Listed, Row)> = kinds.iter().map(|k| k.0).zip(rows).collect();
    let (queries, updates, aims) = (query_table(&asked), update_table(&updated), aims(&asked, &updated));
    let tables = format!("\n{queries}\n{updates}\n{}\n{aims}\n", taking_back::table());
    print!("{tables}");
    if recorded {
        record("tables", &tables);
        std::fs::write(format!("{DOCS}benchmarks.svg"), panels(&asked, &updated)).unwrap();
    }
}

fn main() {
    let words: Vec<String> = std::env::args().skip(1).collect();
    let words: Vec<&str> = words.iter().map(String::as_str).collect();
    match words[..] {
        [] => times(false),
        ["record"] => times(true),
        ["instructions"] => {
            let tables = counted::tables();
            print!("{tables}");
            record("instructions", &tables);
        }
        ["check"] => {
            let table = checks::table();
            print!("{table}");
            record("check", &table);
        }
        ["reports"] => {
            let rows = reporting::rows();
            let table = format!("\n{}\n", reporting::table(&rows));
            print!("{table}");
            record("reports", &table);
            std::fs::write(format!("{DOCS}reports.svg"), reporting::drawing(&rows)).unwrap();
        }
        ["asking", before, after] => {
            let table = asking::table(before, after);
            print!("{table}");
            record("asking", &table);
        }
        ["printing", before, after] => {
            let table = printing::table(before, after);
            print!("{table}");
            record("printing", &table);
        }
        ["count", n, kind] => {
            let listed = Listed::KINDS.into_iter().find(|k| k.name() == kind).expect("a kind of books");
            counted::run(n.parse().expect("a number of offers"), listed);
        }
        _ => panic!("no word, `record`, `instructions`, `check`, `reports`, or `asking` or `printing` with two libraries"),
    }
}
