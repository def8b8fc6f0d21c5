//! What the check asks of a part's memory, decided by a scan. Word 7 of the header is the place of the last entry in a ring of 256 and
//! word 8 the number of entries; an entry is four words behind the slots: 1 for a post or 2 for a withdrawal, number, rate, base.
use super::{Offer, Scan};

/// the words of the ring
pub const RING: usize = 1_024;

/// the word at which the entry at a place begins
pub fn entry(capacity: usize, place: usize) -> usize {
    64 * (capacity + 1) + 4 * place
}

/// Whether the entries can be undone, the last one first; if not, the number of the cause, or 0 where a word is none that is written there.
pub fn undoable(part: &[i64], mut live: Scan) -> Result<(), i64> {
    let (last, count) = (part[7], part[8]);
    if !(0..=255).contains(&last) || !(0..=256).contains(&count) {
        return Err(0);
    }
    for back in 0..count {
        let at = entry(live.capacity, (last - back).rem_euclid(256) as usize);
        match part[at..at + 4] {
            [1, number, ..] => live.withdraw(number)?,
            [2, number, rate, base] => live.post(Offer { number, rate, base })?,
            _ => return Err(0),
        };
    }
    Ok(())
}
