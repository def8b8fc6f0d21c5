//! Reports of a book, held to those of a scan.
use super::{Random, Scan};
use carrier_book::{lent, Declined};

/// the ends of a report's prices
const MOST: i64 = 101_000_000_000;

/// A report with room for four words more than it needs, with exactly as many, and with one word less. How many offers it has.
pub fn hold_report(table: &[i64], start: usize, scan: &Scan, load: i64, price: i64) -> Result<usize, i64> {
    let expected = scan.report(load, price);
    let words = expected.clone().unwrap_or_default();
    let told = |out: &mut [i64]| lent::report(table, start, load, price, out);
    let mut out = vec![-7; words.len() + 4];
    let count = told(&mut out).map_err(Declined::number);
    assert_eq!(count, expected.map(|words| words.len() / 3), "load {load}, price {price}");
    assert_eq!(out[..words.len()], words[..], "load {load}, price {price}");
    assert_eq!(out[words.len()..], [-7; 4]);
    if count.is_ok() {
        let mut exact = vec![-7; words.len()];
        assert_eq!(told(&mut exact), Ok(words.len() / 3));
        assert_eq!(exact, words);
        if let Some(short) = words.len().checked_sub(1) {
            let mut out = vec![-7; short];
            assert_eq!(told(&mut out), Err(Declined::OutputTooShort));
            assert!(out.iter().all(|word| *word == -7));
        }
    }
    count
}

/// Reports at a load: at an offer's price there and next to it, and so at the least price; at the ends of the range and past them. No
/// word of the table changes.
pub fn hold_reports(r: &mut Random, table: &[i64], start: usize, scan: &Scan, load: i64) {
    let before = table.to_vec();
    let mut prices = vec![MOST, -MOST, r.within(-MOST, MOST)];
    prices.push(r.pick(&[MOST + 1, -MOST - 1, i64::MAX, i64::MIN]));
    if !scan.offers.is_empty() && load.unsigned_abs() <= 1_000_000 {
        let one = r.pick(&scan.offers).price(load);
        let least = scan.offers.iter().map(|o| o.price(load)).min().unwrap_or(one);
        prices.extend([one - 1, one, one + 1, least, least + 1]);
    }
    for price in prices {
        hold_report(table, start, scan, load, price).ok();
    }
    assert!(table == before);
}
