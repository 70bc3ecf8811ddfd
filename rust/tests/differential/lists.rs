//! Seeded lists of records for the writer: read from packets, changed in a place or two, or odd from the start.

use crate::catalogue::{form, Form};
use crate::make::Maker;
use crate::twin::{Row, Twin, CARRIED, MARK, READING, TEXT, WITHDRAWN};
use crate::twin_records::Record;

/// A record whose value stands in memory of its own.
#[derive(Clone, Default, PartialEq)]
struct Made {
    tag: u64,
    kind: u64,
    code: u64,
    length: usize,
    value: Vec<u8>,
}

/// Records for a writer.
#[derive(Clone, Default, PartialEq)]
pub struct List {
    records: Vec<Made>,
    pub set: u128,
}

/// Lengths about the edges of a text, and about the edge of what a row can hold.
const LENGTHS: [usize; 8] = [0, 1, 126, 127, 128, 129, 200, 300];
const LONG: [usize; 4] = [65_535, 65_536, 65_537, 131_072];

/// Lengths of readings, some of them far too long and some that a cut takes for 2, 3 or 4.
const WIDTHS: [usize; 10] = [0, 1, 2, 3, 4, 5, 8, 65_536 + 2, 1 << 32 | 3, 1 << 48 | 4];

impl List {
    pub fn lent(&self) -> Vec<Record<'_>> {
        let records = self.records.iter().map(|made| Record {
            tag: made.tag,
            kind: made.kind,
            code: made.code,
            length: made.length,
            value: &made.value,
        });
        records.collect()
    }
}

impl Maker {
    /// Any list: right, changed in a place or two, or of odd records.
    pub fn list(&mut self, list: &mut List) {
        list.set = self.good_set();
        match self.random.below(32) {
            0 => self.heavy_list(list),
            1 => self.crowded_list(list),
            2 => self.odd_list(list),
            _ => self.list_of_a_packet(list),
        }
        // Two changes show which of two refusals comes first.
        for _ in 0..self.random.pick(&[0, 0, 1, 1, 1, 2]) {
            self.change_list(list);
        }
        if self.random.one_in(24) {
            list.set = self.bad_set();
        }
    }

    /// The rows of a packet; none where it is refused.
    fn list_of_a_packet(&mut self, list: &mut List) {
        let mut packet = Vec::new();
        self.good_packet(&mut packet);
        let rows = Twin::TRUE.read(&packet, list.set, None);
        let rows = rows.unwrap_or_default();
        list.records = rows.iter().map(|row| Made::of(row, &packet)).collect();
    }

    /// A record dropped, doubled, swapped or changed, or another set.
    fn change_list(&mut self, list: &mut List) {
        if list.records.is_empty() {
            return;
        }
        let n = self.record_to_change(list);
        let to = self.random.below(list.records.len());
        match self.random.below(16) {
            0 => list.set = self.good_set(),
            1 | 2 => {
                list.records.remove(n);
            }
            3 => list.records.swap(n, to),
            4 | 5 => {
                let mut doubled = list.records[n].clone();
                self.change_content(&mut doubled);
                // A tag stands once also where one of the two is withdrawn.
                if self.random.one_in(3) {
                    doubled.kind = WITHDRAWN;
                }
                list.records.insert(to, doubled);
            }
            6 => list.records.insert(to, list.records[n].clone()),
            7 => list.records[n].tag = self.odd_tag(list.records[n].tag),
            8..=10 => self.change_kind(&mut list.records[n]),
            _ => self.change_content(&mut list.records[n]),
        }
    }

    /// Half the time the next record that 12 or 14 may come of.
    fn record_to_change(&mut self, list: &List) -> usize {
        let n = self.random.below(list.records.len());
        let is_judged = |made: &Made| made.kind == TEXT || matches!(made.tag, 34 | 63 | 103..=105);
        match list.records[n..].iter().position(is_judged) {
            Some(further) if self.random.one_in(2) => n + further,
            _ => n,
        }
    }

    /// Another kind than the receiver gives the tag, with all that any kind has.
    fn change_kind(&mut self, record: &mut Made) {
        let kinds = [READING, MARK, TEXT, CARRIED, WITHDRAWN, WITHDRAWN];
        record.kind = self.random.pick(&kinds);
        record.code = self.random.below(4) as u64;
        record.length = self.random.below(9);
        let length = self.random.below(9);
        record.value.resize(length, self.random.next() as u8);
    }

    /// Another code or length, or a value of another length.
    fn change_content(&mut self, record: &mut Made) {
        if record.kind >= TEXT {
            let long = self.random.one_in(24);
            let length = self.random.pick(if long { &LONG[..] } else { &LENGTHS });
            record.value.resize(length, self.random.next() as u8);
            return;
        }
        match self.random.below(6) {
            0 => record.length = self.random.pick(&WIDTHS),
            1 => record.code = Form::Extended.last(record.length.min(4)) + 1,
            2 | 3 => record.code = self.random.below(12) as u64,
            _ => record.code = self.odd_code(record.code, record.length.min(8)),
        }
        // A mark as a reading, or a mark where the item may have none.
        if self.random.one_in(4) {
            record.kind = self.random.pick(&[READING, MARK]);
        }
    }

    /// Values with which the packet has about the greatest length allowed, or that alone have it, or far more.
    fn heavy_list(&mut self, list: &mut List) {
        let many = self.random.between(1, 4);
        let bytes = match self.random.below(4) {
            0 => 30_000,
            1 => 8_185,
            _ => 8_150 - 4 * many,
        };
        list.records = vec![number(2), number(65)];
        for _ in 0..many {
            let length = bytes / many + self.random.below(20);
            let tag = self.random.pick(&[40, 127, 128, 16_384]);
            list.records.push(carried(tag, length));
        }
        list.records.push(number(1));
    }

    /// A list filled up to about 128 records, or far more.
    fn crowded_list(&mut self, list: &mut List) {
        self.list_of_a_packet(list);
        let count = self.random.pick(&[127, 128, 129, 130, 300]);
        let more = count.max(list.records.len()) - list.records.len();
        let before_last = list.records.len().saturating_sub(1);
        let crowd = vec![carried(self.unknown_tag(), 0); more];
        list.records.splice(before_last..before_last, crowd);
    }

    /// Records that are not those of any packet.
    fn odd_list(&mut self, list: &mut List) {
        list.records.clear();
        for _ in 0..self.random.below(6) {
            let tag = self.odd_tag(64);
            let mut record = number(tag);
            if self.random.one_in(2) {
                self.change_kind(&mut record);
            }
            list.records.push(record);
        }
        if self.random.one_in(2) {
            list.records.insert(0, number(2));
            list.records.push(number(1));
        }
    }
}

impl Made {
    fn of(row: &Row, packet: &[u8]) -> Made {
        let is_part = row.kind >= TEXT;
        let length = if is_part { row.length } else { 0 };
        Made {
            tag: row.tag,
            kind: row.kind,
            code: row.code,
            length: row.length,
            value: packet[row.place..row.place + length].to_vec(),
        }
    }
}

fn number(tag: u64) -> Made {
    Made {
        tag,
        kind: READING,
        length: width(tag),
        ..Made::default()
    }
}

/// A carried value whose bytes tell where they stand.
fn carried(tag: u64, length: usize) -> Made {
    Made {
        tag,
        kind: CARRIED,
        code: 0,
        length: 0,
        value: (0..length).map(|n| (n % 251) as u8).collect(),
    }
}

/// The bytes of a number; an extended height is taken for three, and what is no number for eight.
fn width(tag: u64) -> usize {
    match form(tag) {
        Some(Form::Extended) => 3,
        form => form.and_then(Form::bytes).unwrap_or(8),
    }
}
