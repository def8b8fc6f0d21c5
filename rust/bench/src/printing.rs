//! How long a number takes to print in a column: the counter's `justify` from two libraries, and Rust's own formatting.
use crate::library::function_of;
use crate::{medians, timed, Case, Random};
use std::ffi::c_void;
use std::fmt::Write as _;
use std::io::Write;

const VALUES: usize = 1_000_000;
const WIDTH: usize = 20;

type Justify = unsafe extern "C" fn(*mut u8, usize, i64);

/// the function `justify` of a shared library
fn justify_of(library: &str) -> Justify {
    let function = function_of(library, "justify");
    // SAFETY: rust/bench/printing.sh puts a `justify` of this type into the library.
    unsafe { std::mem::transmute::<*mut c_void, Justify>(function) }
}

fn by(justify: Justify) -> impl Fn(&mut [u8; WIDTH], i64) {
    // SAFETY: a slice is a pointer and a length there, and the column is lent for the call.
    move |column, value| unsafe { justify(column.as_mut_ptr(), WIDTH, value) }
}

fn by_rust(column: &mut [u8; WIDTH], value: i64) {
    write!(&mut column[..], "{value:>WIDTH$}").unwrap();
}

/// each value printed, the last one's text returned
fn print_all(values: &[i64], print: impl Fn(&mut [u8; WIDTH], i64)) -> [u8; WIDTH] {
    let mut column = [0; WIDTH];
    for value in values {
        print(&mut column, *value);
    }
    column
}

/// the three give the same text
fn compare(value: i64, before: Justify, after: Justify) {
    let text = |print: &dyn Fn(&mut [u8; WIDTH], i64)| {
        let mut column = [0; WIDTH];
        print(&mut column, value);
        column
    };
    let texts = [text(&by(before)), text(&by(after)), text(&by_rust)];
    assert!(texts[0] == texts[1] && texts[0] == texts[2], "the texts of {value} differ");
}

/// a number of a random length up to `digits`, each length as likely, of either sign
fn of_length(r: &mut Random, digits: i64) -> i64 {
    let length = r.within(1, digits) as u32;
    let least = if length == 1 { 0 } else { 10i64.pow(length - 1) };
    let greatest = 10i64.checked_pow(length).map_or(i64::MAX, |p| p - 1);
    let value = r.within(least, greatest);
    if r.within(0, 1) == 0 {
        value
    } else {
        -value
    }
}

/// number `i` of the lines of a listing's pieces: 0, the offer, its crossing's numerator and denominator
fn of_a_piece(r: &mut Random, i: usize) -> i64 {
    match i % 4 {
        0 => 0,
        1 => r.within(1, 9_999),
        2 => r.within(-2_000_000_000, 2_000_000_000),
        _ => r.within(1, 200_000),
    }
}

type Kind = (&'static str, fn(&mut Random, usize) -> i64);

const KINDS: [Kind; 4] = [
    ("of a listing's pieces", of_a_piece),
    ("of 1 to 4 digits", |r, _| of_length(r, 4)),
    ("of 1 to 11 digits", |r, _| of_length(r, 11)),
    ("of 1 to 19 digits", |r, _| of_length(r, 19)),
];

/// before, after, Rust
fn printing(kind: Kind, before: Justify, after: Justify) -> Case {
    let mut r = Random(63);
    let mut values: Vec<i64> = (0..VALUES).map(|i| kind.1(&mut r, i)).collect();
    values[..4].copy_from_slice(&[i64::MIN, i64::MAX, 0, -1]);
    for value in &values {
        compare(*value, before, after);
    }
    // each run begins with another of the three, so that none always comes first
    let mut first = 0;
    let run = move || {
        let mut texts = [[0; WIDTH]; 3];
        let mut times = [0.0; 3];
        for at in (0..3).map(|i| (first + i) % 3) {
            times[at] = timed(VALUES, || {
                texts[at] = match at {
                    0 => print_all(&values, by(before)),
                    1 => print_all(&values, by(after)),
                    _ => print_all(&values, by_rust),
                }
            });
        }
        assert!(texts[0] == texts[1] && texts[0] == texts[2], "the last texts differ");
        first += 1;
        times
    };
    Case { offers: 0, pieces: 0, run: Box::new(run) }
}

pub fn table(before: &str, after: &str) -> String {
    let (before, after) = (justify_of(before), justify_of(after));
    let rows = medians(KINDS.iter().map(|k| printing(*k, before, after)).collect());
    let mut t = String::from(
        "\n| numbers | before, ns | after, ns | after ÷ before | Rust, ns | after ÷ Rust |\n|---|---|---|---|---|---|\n",
    );
    for ((name, _), r) in KINDS.iter().zip(rows) {
        let [before, after, rust] = r.times;
        let ratios = (after / before, after / rust);
        writeln!(t, "| {name} | {before:.1} | {after:.1} | **{:.2}** | {rust:.1} | {:.2} |", ratios.0, ratios.1).unwrap();
    }
    t + "\n"
}
