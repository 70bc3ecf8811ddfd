//! The twin's writer, forwarder and taking out of a row.

use crate::catalogue::Form;
use crate::twin::{is_good, refused, Altered, Refused, Row, Twin};
use crate::twin::{CARRIED, MARK, READING, TEXT, WITHDRAWN};
use crate::wire::{
    checksum, length_size, put_length, put_number, put_tag, tag_size, KEY, LAST_TAG, MOST_BYTES,
    MOST_ITEMS,
};

/// What a writer is lent besides its output.
#[derive(Clone, Copy)]
pub struct Rows<'a> {
    pub words: &'a [u64],
    pub count: usize,
    pub buffer: &'a [u8],
    pub set: u128,
}

impl Rows<'_> {
    /// The rows that there are words for.
    pub fn rows(self) -> Vec<Row> {
        let rows = self.words.chunks_exact(4).take(self.count);
        rows.map(Row::from_words).collect()
    }
}

impl Twin {
    /// The packet of these rows, in an output that is long enough; the words for which items are there may be handed too.
    pub fn written(self, lent: Rows, handed: Option<u128>) -> Result<Vec<u8>, Refused> {
        let rows = self.rows(lent)?;
        self.written_rows(&rows, lent.buffer, lent.set, handed)
    }

    /// The packet of rows that are not too many: 17, 22 and 3, then the packet's own rules.
    pub fn written_rows(
        self,
        rows: &[Row],
        buffer: &[u8],
        set: u128,
        handed: Option<u128>,
    ) -> Result<Vec<u8>, Refused> {
        let is_bad = |row: &Row| !self.is_good_row(row, buffer, set);
        let bad = rows.iter().position(is_bad);
        let mut judgements = [
            bad.map(|n| self.bad_row(n, rows[n].tag)),
            self.words_disagree(rows, handed),
            self.too_long(rows),
        ];
        if self.is(Altered::WordsBeforeRows) {
            judgements.swap(0, 1);
        }
        if self.is(Altered::WordsAfterSize) {
            judgements.swap(1, 2);
        }
        match judgements.into_iter().flatten().next() {
            Some(refusal) => Err(refusal),
            None => self.written_good_rows(rows, buffer, set),
        }
    }

    /// The bytes that an answer puts into an output of this length.
    pub fn in_room(self, bytes: Vec<u8>, length: usize) -> Result<Vec<u8>, Refused> {
        let asked = bytes.len() + usize::from(self.is(Altered::ExactRoomIsTooShort));
        if asked > length {
            Err(refused(18, 0, 0))
        } else {
            Ok(bytes)
        }
    }

    /// A packet read and its rows written.
    pub fn forwarded(self, packet: &[u8], set: u128) -> Result<Vec<u8>, Refused> {
        let mut rows = self.read(packet, set, None)?;
        if self.is(Altered::UnknownItemDropped) {
            rows.retain(|row| row.kind != CARRIED);
        }
        let words: Vec<u64> = rows.iter().flat_map(|row| row.words()).collect();
        let lent = Rows {
            words: &words,
            count: rows.len(),
            buffer: packet,
            set,
        };
        self.written(lent, None)
    }

    /// One row; whether the others are bad is not asked. A number past the count is the place of its 17.
    pub fn taken_row(self, lent: Rows, n: usize) -> Result<Row, Refused> {
        let rows = self.rows(lent)?;
        let row = *rows.get(n).ok_or(refused(17, n, 0))?;
        if self.is_good_row(&row, lent.buffer, lent.set) {
            Ok(row)
        } else {
            Err(self.bad_row(n, row.tag))
        }
    }

    /// The rows lent as words: refusals 1 and 16.
    fn rows(self, lent: Rows) -> Result<Vec<Row>, Refused> {
        if !is_good(lent.set) {
            return Err(refused(1, 0, 0));
        }
        if lent.count > MOST_ITEMS || 4 * lent.count > lent.words.len() {
            return Err(refused(16, 0, 0));
        }
        Ok(lent.rows())
    }

    fn is_good_row(self, row: &Row, buffer: &[u8], set: u128) -> bool {
        let inside = row.place + row.length <= buffer.len();
        // A row's fourth word has no room for a longer one, so a longer record is no row.
        let is_part = row.code == 0 && row.length < 65_536 && inside;
        let tag_is_good = (1..=LAST_TAG).contains(&row.tag);
        tag_is_good
            && match self.known_form(set, row.tag) {
                None => row.kind == CARRIED && is_part,
                Some(_) if row.kind == WITHDRAWN => self.is_good_withdrawal(row, inside),
                Some(Form::Text) => {
                    let has_some = row.length > 0 || self.is(Altered::EmptyTextRowGets12);
                    row.kind == TEXT && is_part && has_some
                }
                Some(_) if self.is(Altered::PlaceOfNumbersAsked) && row.place > 65_535 => false,
                Some(form) => self.is_good_number(row, form),
            }
    }

    fn is_good_number(self, row: &Row, form: Form) -> bool {
        let code_is_asked = row.tag != 1 || self.is(Altered::ChecksumRowsCodeAsked);
        let too_wide = code_is_asked && row.length < 8 && row.code >> (8 * row.length) != 0;
        let is_mark = self.mark(row.tag, form) == Some(row.code);
        self.allows(form, row.length)
            && !too_wide
            && !self.is_bad_height(row, form)
            && row.kind == if is_mark { MARK } else { READING }
    }

    /// A height beyond 40,000 m makes no row bad: 14 is given for it later.
    fn is_bad_height(self, row: &Row, form: Form) -> bool {
        let told = self.is(Altered::HeightBeyondIsABadRow) && form == Form::Extended;
        told && row.code > form.last(row.length)
    }

    fn too_long(self, rows: &[Row]) -> Option<Refused> {
        let items = items_size(rows);
        (KEY.len() + length_size(items) + items > MOST_BYTES).then(|| refused(3, 0, 0))
    }

    /// Rows that are not bad, and not too long together.
    fn written_good_rows(self, rows: &[Row], buffer: &[u8], set: u128) -> Result<Vec<u8>, Refused> {
        match rows.first() {
            None => return Err(refused(9, 0, 0)),
            Some(first) if first.tag != 2 => return Err(refused(9, 0, first.tag)),
            _ => {}
        }
        let last = rows.len() - 1;
        // A row of tag 1 that is not bad has length 2.
        if rows[last].tag != 1 {
            return Err(refused(10, last, rows[last].tag));
        }
        let known = (0..rows.len()).find_map(|n| self.known_row(rows, n, set));
        if let Some(refusal) = known {
            return Err(refusal);
        }
        if rows.iter().all(|row| row.tag != 65) && !self.is(Altered::Item65NotAsked) {
            return Err(refused(15, 0, 0));
        }
        Ok(self.bytes(rows, buffer))
    }

    /// Refusals 12, 13 and 14 of one row.
    fn known_row(self, rows: &[Row], n: usize, set: u128) -> Option<Refused> {
        let row = &rows[n];
        let form = self.known_form(set, row.tag)?;
        let withdrawn = row.kind == WITHDRAWN;
        // The writer works the checksum out afresh, so the code of its row is outside no codes.
        let has_code = row.tag != 1 && !withdrawn;
        let outside = has_code && self.is_outside_its_codes(row.tag, form, row.length, row.code);
        let wrong_length = match withdrawn {
            true => row.length != 0,
            false => !self.allows(form, row.length),
        };
        let once = |row: &Row| self.stands_once(row.kind == WITHDRAWN);
        let is_same = |earlier: &Row| earlier.tag == row.tag && once(earlier);
        let second = once(row) && rows[..n].iter().any(is_same);
        let judgements = [(wrong_length, 12), (second, 13), (outside, 14)];
        let (_, number) = judgements.into_iter().find(|&(given, _)| given)?;
        Some(refused(number, n, row.tag))
    }

    fn bytes(self, rows: &[Row], buffer: &[u8]) -> Vec<u8> {
        let items = items_size(rows);
        let mut packet = Vec::with_capacity(items + 21);
        packet.extend_from_slice(&KEY);
        put_length(&mut packet, items, 0);
        for row in rows {
            put_tag(&mut packet, row.tag);
            put_length(
                &mut packet,
                row.length,
                usize::from(self.is(Altered::LongFormKept)),
            );
            match row.kind {
                TEXT | CARRIED => {
                    packet.extend_from_slice(&buffer[row.place..row.place + row.length]);
                }
                _ if row.tag == 1 => {
                    let sum = checksum(&packet);
                    put_number(&mut packet, sum, 2);
                }
                WITHDRAWN => {}
                _ => put_number(&mut packet, row.code, row.length),
            }
        }
        packet
    }

    fn bad_row(self, n: usize, tag: u64) -> Refused {
        let named = (1..=LAST_TAG).contains(&tag) || self.is(Altered::BadRowsTagAlwaysNamed);
        refused(17, n, if named { tag } else { 0 })
    }
}

/// The bytes of all items, their lengths in the shortest form.
fn items_size(rows: &[Row]) -> usize {
    let sizes = rows
        .iter()
        .map(|row| tag_size(row.tag) + length_size(row.length) + row.length);
    sizes.sum()
}
