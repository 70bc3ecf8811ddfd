//! The twin's walker and its writer of records: the reader's and the writer's answers in another form.

use crate::catalogue::Form;
use crate::twin::{is_good, refused, Altered, Refused, Row, Twin};
use crate::twin::{CARRIED, MARK, READING, TEXT, WITHDRAWN};
use crate::wire::MOST_ITEMS;

/// A record: a row taken out singly. Only a reading has a code and its length, only text and carried have a value.
#[derive(Clone, Copy, Debug)]
pub struct Record<'a> {
    pub tag: u64,
    pub kind: u64,
    pub code: u64,
    pub length: usize,
    pub value: &'a [u8],
}

impl Twin {
    /// The rows that a walk hands out, one after the other.
    pub fn walked(self, packet: &[u8], set: u128) -> Result<Vec<Row>, Refused> {
        let mut rows = self.read(packet, set, None)?;
        if self.is(Altered::WalkStopsBeforeTheLast) {
            rows.pop();
        }
        let carried = rows.iter_mut().filter(|row| row.kind == CARRIED);
        if self.is(Altered::CarriedWalkedAsText) {
            carried.for_each(|row| row.kind = TEXT);
        }
        Ok(rows)
    }

    /// The packet of these records, in an output that is long enough.
    pub fn written_records(self, records: &[Record], set: u128) -> Result<Vec<u8>, Refused> {
        if !is_good(set) {
            return Err(refused(1, 0, 0));
        }
        if records.len() > MOST_ITEMS + usize::from(self.is(Altered::OneRecordMore)) {
            return Err(refused(16, 0, 0));
        }
        let mut buffer = Vec::new();
        let mut rows = Vec::new();
        for record in records {
            rows.push(self.row_of(record, &mut buffer));
        }
        self.written_rows(&rows, &buffer, set, None)
    }

    /// A record as a row, its value put at the buffer's end.
    fn row_of(self, record: &Record, buffer: &mut Vec<u8>) -> Row {
        let row = Row {
            tag: record.tag,
            kind: record.kind,
            code: 0,
            place: buffer.len(),
            length: self.form(record.tag).and_then(Form::bytes).unwrap_or(0),
        };
        match record.kind {
            READING => Row {
                code: record.code,
                length: record.length,
                ..row
            },
            MARK => self.marked(row),
            WITHDRAWN => Row { length: 0, ..row },
            _ => {
                buffer.extend_from_slice(record.value);
                let wrapped = self.is(Altered::LongRecordWrapped);
                let length = record.value.len();
                Row {
                    length: if wrapped { length % 65_536 } else { length },
                    ..row
                }
            }
        }
    }

    /// The lowest code, only the top bit set, which is a mark where the item has one.
    fn marked(self, row: Row) -> Row {
        let has_none = self.form(row.tag).and_then(Form::mark).is_none();
        let as_number = has_none && self.is(Altered::MarkForAnyNumber);
        Row {
            kind: if as_number { READING } else { MARK },
            code: match row.length {
                0 => 0,
                bytes => 1 << (8 * bytes - 1),
            },
            ..row
        }
    }
}
