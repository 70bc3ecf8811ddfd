//! The twin's word on withdrawn items: W-204 of document 02. A known item of length zero says that its earlier value no longer holds.

use crate::catalogue::{knows, SMALLEST};
use crate::twin::{Altered, Row, Twin, CARRIED, READING, WITHDRAWN};

impl Twin {
    /// Whether an item may be withdrawn, where it is known: any but 1, 2 and 65.
    pub fn may_be_withdrawn(self, tag: u64) -> bool {
        match tag {
            65 if self.is(Altered::Item65MayBeWithdrawn) => true,
            103..=105 if self.is(Altered::ExtendedIsNeverWithdrawn) => false,
            _ => !knows(SMALLEST, tag),
        }
    }

    /// Whether an empty item that this receiver does not know is taken for withdrawn. It is not, but carried.
    pub fn takes_for_withdrawn(self, tag: u64) -> bool {
        self.is(Altered::EmptyUnknownIsWithdrawn) && self.form(tag).is_some()
    }

    /// Whether an item, or a row, is one of those that a known tag has once: it is, withdrawn or not.
    pub fn stands_once(self, withdrawn: bool) -> bool {
        !(withdrawn && self.is(Altered::WithdrawnMayStandTwice))
    }

    /// A withdrawn row that is not bad: it has neither code nor length, and its place, inside the buffer or not, is ignored.
    pub fn is_good_withdrawal(self, row: &Row, inside: bool) -> bool {
        let no_code = row.code == 0 || self.is(Altered::CodeOfWithdrawnIgnored);
        let no_length = row.length == 0 || self.is(Altered::WithdrawnOfALengthGets12);
        let place_is_good = inside || !self.is(Altered::PlaceOfWithdrawnAsked);
        self.may_be_withdrawn(row.tag) && no_code && no_length && place_is_good
    }

    /// Whether a scan of all rows finds a withdrawn one of this tag.
    pub fn is_withdrawn(self, rows: &[Row], tag: u64) -> bool {
        let zero_too = self.is(Altered::CodeZeroIsWithdrawn);
        let is_zero = |row: &Row| zero_too && row.kind == READING && row.code == 0;
        let is_one = |row: &Row| row.kind == WITHDRAWN || is_zero(row);
        rows.iter().any(|row| row.tag == tag && is_one(row))
    }

    /// The two words of the withdrawn rows, low and high as one number.
    pub fn withdrawn_of(self, rows: &[Row]) -> u128 {
        let withdrawn = (0..128).filter(|&tag| self.is_withdrawn(rows, tag));
        withdrawn.fold(0, |words, tag| words | 1 << tag)
    }

    /// Whether a scan of all rows finds one of this tag that has a value: it is neither carried nor withdrawn.
    pub fn has_value(self, rows: &[Row], tag: u64) -> bool {
        let is_one = |row: &Row| row.kind != CARRIED && row.kind != WITHDRAWN;
        rows.iter().any(|row| row.tag == tag && is_one(row))
    }

    /// What heights and corners have of a withdrawn row: nothing, as if it were absent. Inside, nothing for a mark.
    pub fn house_of_withdrawn(self, tag: u64) -> Option<Option<i64>> {
        let counts = match tag {
            15 | 25 | 75 | 78 | 104 => self.is(Altered::WithdrawnHeightDecides),
            _ => self.is(Altered::WithdrawnCornerIsAMark),
        };
        counts.then_some(None)
    }
}
