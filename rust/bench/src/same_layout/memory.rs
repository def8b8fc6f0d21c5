//! Posts, withdrawals and take-backs. The memory is a ring of entries behind the slots, four words each, by which the last updates are
//! undone.
use super::{Book, Counts, BASE, DATA, LAST_ENTRY, RATE, REMEMBERED};

/// The entries of a full memory, and its words.
const MOST: i64 = 256;
pub(super) const MEMORY: usize = 4 * MOST as usize;

/// What was done.
const POSTED: i64 = 1;
const WITHDRAWN: i64 = 2;

/// The live count after an update and its counts, or the cause's number.
type Told = Result<(i64, Counts), i64>;

impl Book {
    fn entry(&mut self, place: i64) -> &mut [i64] {
        let at = 64 * self.slots + 4 * place as usize;
        &mut self.words[at..at + 4]
    }

    /// behind the last entry, and in a full memory in the place of the first
    fn remember(&mut self, done: i64, number: i64, rate: i64, base: i64) {
        let place = (self.words[LAST_ENTRY] + 1) % MOST;
        self.entry(place).copy_from_slice(&[done, number, rate, base]);
        self.words[LAST_ENTRY] = place;
        self.words[REMEMBERED] = MOST.min(self.words[REMEMBERED] + 1);
    }

    /// posts an offer in range
    pub fn post(&mut self, number: i64, rate: i64, base: i64) -> Told {
        let told = self.put_in(number, rate, base)?;
        self.remember(POSTED, number, rate, base);
        Ok(told)
    }

    /// withdraws an offer
    pub fn withdraw(&mut self, number: i64) -> Told {
        let (slot, told) = self.take_out(number)?;
        // the slot, free now, still has its rate and base
        self.remember(WITHDRAWN, number, self.get(DATA, slot, RATE), self.get(DATA, slot, BASE));
        Ok(told)
    }

    /// undoes the last update that is remembered
    pub fn take_back(&mut self) -> Told {
        if self.words[REMEMBERED] == 0 {
            return Err(17);
        }
        let place = self.words[LAST_ENTRY];
        let told = match *self.entry(place) {
            [POSTED, number, ..] => self.take_out(number)?.1,
            [_, number, rate, base] => self.put_in(number, rate, base)?,
            _ => unreachable!(),
        };
        self.words[LAST_ENTRY] = (place + MOST - 1) % MOST;
        self.words[REMEMBERED] -= 1;
        Ok(told)
    }
}
