//! Instructions of an update and of a take-back, counted by valgrind's callgrind, which do not swing from run to run as times do. `run`
//! is what valgrind is given: one kind and size; `tables` starts it for each of them and reads what each contender took.
use super::{books, chosen, offers, Listed, IN_TABLES, SIZES};
use crate::arrays::{Offer, Sorted};
use crate::{same_layout, taking_back};
use carrier_book::Book;
use std::fmt::Write;
use std::process::{Command, Stdio};

/// The contenders' functions, by the names that valgrind tells.
const CONTENDERS: [&str; 5] =
    ["counted::of_book", "counted::of_plain", "counted::of_sorted", "taking_back::by_take_backs", "taking_back::by_updates"];
type Counts = [f64; CONTENDERS.len()];

#[inline(never)]
fn of_book(book: &mut Book, chosen: &[Offer]) {
    for o in chosen {
        book.withdraw(o.number).unwrap();
        book.post(o.number, o.rate, o.base).unwrap();
    }
}

#[inline(never)]
fn of_plain(plain: &mut same_layout::Book, chosen: &[Offer]) {
    for o in chosen {
        plain.withdraw(o.number).unwrap();
        plain.post(o.number, o.rate, o.base).unwrap();
    }
}

#[inline(never)]
fn of_sorted(sorted: &mut Sorted, chosen: &[Offer]) {
    for o in chosen {
        sorted.withdraw(o.number);
        sorted.post(*o);
    }
}

/// the contenders' updates, one after the other
pub(crate) fn run(n: usize, listed: Listed) {
    let offers = offers(n, listed);
    let (mut book, mut plain) = books(&offers);
    let mut sorted = Sorted::of(&offers);
    let chosen = chosen(&offers);
    of_book(&mut book, &chosen);
    of_plain(&mut plain, &chosen);
    of_sorted(&mut sorted, &chosen);
    assert!(book.as_words() == plain.words, "the layouts differ");
    let numbers = book.listing().into_iter().map(|p| p.number);
    assert!(sorted.envelope.iter().map(|o| o.number).eq(numbers), "the envelopes differ");
    let mut updated = book.clone();
    taking_back::undone(&mut book, &mut updated, &mut plain, &chosen);
}

fn text_of(command: &mut Command) -> String {
    let told = command.stderr(Stdio::null()).output().unwrap_or_else(|e| panic!("{command:?}: {e}; is valgrind installed?"));
    assert!(told.status.success(), "{command:?}: {}", told.status);
    String::from_utf8_lossy(&told.stdout).into_owned()
}

/// instructions of one update by each contender
fn counted(n: usize, listed: Listed) -> Counts {
    let file = std::env::temp_dir().join(format!("bench-{}-{n}-{}", std::process::id(), listed as usize));
    let mut valgrind = Command::new("valgrind");
    valgrind.args(["--tool=callgrind", "--collect-atstart=no"]);
    valgrind.args(CONTENDERS.map(|name| format!("--toggle-collect=*{name}*")));
    valgrind.arg(format!("--callgrind-out-file={}", file.display())).arg(std::env::current_exe().unwrap());
    text_of(valgrind.args(["count", &n.to_string(), listed.name()]));
    let told = text_of(Command::new("callgrind_annotate").args(["--inclusive=yes", "--threshold=100"]).arg(&file));
    std::fs::remove_file(&file).unwrap();
    CONTENDERS.map(|name| {
        let line = told.lines().find(|line| line.contains(name)).unwrap_or_else(|| panic!("{name} was not counted"));
        let count: String = line.trim_start().chars().take_while(|c| !c.is_whitespace()).filter(char::is_ascii_digit).collect();
        count.parse::<f64>().unwrap() / super::UPDATES as f64
    })
}

/// The number of offers from which an update of the book takes less than a rebuild, by a straight line between two sizes.
fn break_even(counts: &[(usize, Counts)]) -> String {
    let ahead = |c: &(usize, Counts)| c.1[2] - c.1[0];
    match counts.iter().position(|c| ahead(c) >= 0.0) {
        None => format!("above {}", SIZES[SIZES.len() - 1]),
        Some(0) => format!("at most {}", SIZES[0]),
        Some(i) => {
            let (before, after) = (&counts[i - 1], &counts[i]);
            let part = -ahead(before) / (ahead(after) - ahead(before));
            format!("{:.0}", before.0 as f64 + part * (after.0 - before.0) as f64)
        }
    }
}

/// the tables of all kinds, of updates, of where each breaks even, and of take-backs
pub fn tables() -> String {
    let mut t = String::from(
        "| listed | offers | book | Rust | book ÷ Rust | rebuild | rebuild ÷ book |\n|---|---|---|---|---|---|---|\n",
    );
    let mut even = String::from("| listed | an update takes fewer instructions than a rebuild from |\n|---|---|\n");
    let mut back = String::from("| listed | offers | take-back | its update | take-back ÷ its update |\n|---|---|---|---|---|\n");
    for listed in Listed::KINDS {
        let counts: Vec<(usize, Counts)> = SIZES.iter().map(|n| (*n, counted(*n, listed))).collect();
        let name = listed.name();
        for (n, counts) in counts.iter().filter(|c| IN_TABLES.contains(&c.0)) {
            let [book, plain, rebuild, taken, undone] = counts;
            let [b, p, r, k, u] = counts.map(|c| format!("{:.1} k", c / 1e3));
            writeln!(t, "| {name} | {n} | {b} | {p} | **{:.2}** | {r} | **{:.2}** |", book / plain, rebuild / book).unwrap();
            writeln!(back, "| {name} | {n} | {k} | {u} | **{:.2}** |", taken / undone).unwrap();
        }
        writeln!(even, "| {name} | {} offers |", break_even(&counts)).unwrap();
    }
    format!("\n{t}\n{even}\n{back}\n")
}
