//! The check of a full book, against one pass over its words and against an update.
use crate::{books, chosen, medians, offers, timed, Case, Listed, UPDATES};
use std::fmt::Write;

const OFFERS: usize = 4_096;
const CHECKS: usize = 50;

/// check, one pass over all words, one withdrawal or one post
fn check(listed: Listed) -> Case {
    let offers = offers(OFFERS, listed);
    let (mut book, _) = books(&offers);
    let pieces = book.listing().len();
    let chosen = chosen(&offers);
    let run = move || {
        let of_check = timed(CHECKS, || {
            for _ in 0..CHECKS {
                assert!(book.check());
            }
        });
        // each pass begins with what the one before found, so that none can be left out
        let mut sum = 1i64;
        let of_pass = timed(CHECKS, || {
            for _ in 0..CHECKS {
                sum = book.as_words().iter().fold(sum, |sum, word| sum.wrapping_add(*word)).rotate_left(1);
            }
        });
        assert_ne!(sum, 0);
        let of_update = timed(UPDATES, || {
            for o in &chosen {
                book.withdraw(o.number).unwrap();
                book.post(o.number, o.rate, o.base).unwrap();
            }
        });
        [of_check, of_pass, of_update]
    };
    Case { offers: OFFERS, pieces, run: Box::new(run) }
}

pub fn table() -> String {
    let rows = medians(Listed::KINDS.iter().map(|k| check(*k)).collect());
    let mut t =
        String::from("\n| listed | offers | pieces | check, µs | check ÷ pass | check ÷ update |\n|---|---|---|---|---|---|\n");
    for (listed, r) in Listed::KINDS.iter().zip(rows) {
        let [check, pass, update] = r.times;
        let name = listed.name();
        writeln!(
            t,
            "| {name} | {} | {} | {:.0} | **{:.1}** | {:.0} |",
            r.offers,
            r.pieces,
            check / 1e3,
            check / pass,
            check / update
        )
        .unwrap();
    }
    t + "\n"
}
