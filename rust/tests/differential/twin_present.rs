//! The twin's word on which items are there: W-201 of document 02, by plain scans of the rows.

use crate::catalogue::knows;
use crate::twin::{refused, Altered, Refused, Row, Twin, CARRIED, WITHDRAWN};

impl Twin {
    /// Whether a scan of all rows finds one of this tag that is not carried. A withdrawn one is not (W-204).
    pub fn is_there(self, rows: &[Row], tag: u64) -> bool {
        let asked = self.asked(tag);
        let counts = |kind| match kind {
            CARRIED => self.is(Altered::CarriedSetsItsBit),
            WITHDRAWN => !self.is(Altered::WithdrawnSetsNoBit),
            _ => true,
        };
        let is_one = |row: &&Row| row.tag == asked && counts(row.kind);
        let found = rows.iter().filter(is_one).count();
        if self.is(Altered::SecondClearsTheBit) {
            found % 2 == 1
        } else {
            found > 0
        }
    }

    /// The two words of these rows, low and high as one number.
    pub fn words_of(self, rows: &[Row]) -> u128 {
        let there = (0..128).filter(|&tag| self.is_there(rows, tag));
        there.fold(0, |words, tag| words | 1 << tag)
    }

    /// What any two words answer for a tag: its bit, and nothing from 128 on.
    pub fn has(self, words: u128, tag: u64) -> bool {
        knows(words, self.asked(tag))
    }

    fn asked(self, tag: u64) -> u64 {
        if self.is(Altered::AskedModulo128) {
            tag % 128
        } else {
            tag
        }
    }

    /// Refusal 22 of the words that a writer is handed, if it is handed any.
    pub fn words_disagree(self, rows: &[Row], handed: Option<u128>) -> Option<Refused> {
        let handed = handed?;
        let right = self.words_of(rows);
        let too_many = handed & !right != 0 && !self.is(Altered::BitTooManyIsTaken);
        let too_few = right & !handed != 0;
        (too_many || too_few).then(|| refused(22, 0, 0))
    }
}
