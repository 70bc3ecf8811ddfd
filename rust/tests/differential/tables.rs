//! Seeded row tables for the writer: read from packets, changed in a place or two, or odd from the start.

use crate::catalogue::{form, Form, ALL, SMALLEST};
use crate::make::Maker;
use crate::twin::{Row, Twin, CARRIED, MARK, READING, TEXT, WITHDRAWN};
use crate::twin_write::Rows;
use crate::wire::LAST_TAG;

/// Rows for a writer, in buffers that are kept.
#[derive(Clone, Default, PartialEq)]
pub struct Table {
    words: Vec<u64>,
    count: usize,
    buffer: Vec<u8>,
    set: u128,
}

impl Table {
    pub fn lent(&self) -> Rows<'_> {
        Rows {
            words: &self.words,
            count: self.count,
            buffer: &self.buffer,
            set: self.set,
        }
    }

    /// Whether there are rows and as many words as they take.
    fn has_all_rows(&self) -> bool {
        (1..=self.words.len() / 4).contains(&self.count)
    }
}

impl Maker {
    /// Any table: right, changed in a place or two, or of odd rows.
    pub fn table(&mut self, table: &mut Table) {
        table.set = self.good_set();
        match self.random.below(32) {
            0 => self.heavy_table(table),
            1 | 2 => self.odd_table(table),
            _ => self.table_of_a_packet(table),
        }
        // Two changes show which of two refusals comes first.
        for _ in 0..self.random.pick(&[0, 0, 1, 1, 1, 2]) {
            self.change(table);
        }
        if self.random.one_in(24) {
            table.set = self.bad_set();
        }
    }

    fn change(&mut self, table: &mut Table) {
        match self.random.below(16) {
            0 | 1 => self.change_what_is_lent(table),
            2 | 3 => self.change_judged_values(table),
            4 => self.double_judged_rows(table),
            5..=7 => self.rearrange(table),
            8 | 9 => self.withdraw_a_row(table),
            _ => self.change_a_word(table),
        }
    }

    /// The rows of an accepted packet, the packet being the buffer.
    fn table_of_a_packet(&mut self, table: &mut Table) {
        self.good_packet(&mut table.buffer);
        let read = Twin::TRUE.read(&table.buffer, table.set, None);
        table.words.clear();
        match read {
            Ok(rows) => {
                table.count = rows.len();
                table.words.extend(rows.iter().flat_map(|row| row.words()));
            }
            Err(_) => self.odd_table(table),
        }
        if self.random.one_in(4) {
            table.words.resize(512.max(table.words.len()), 0);
        }
    }

    /// Rows dropped, doubled or moved.
    fn rearrange(&mut self, table: &mut Table) {
        if !table.has_all_rows() {
            return;
        }
        let n = self.random.below(table.count);
        let to = self.random.below(table.count);
        let row: Vec<u64> = table.words[4 * n..4 * n + 4].to_vec();
        let keeps = self.random.below(3);
        if keeps > 0 {
            table.words.drain(4 * n..4 * n + 4);
            table.count -= 1;
        }
        if keeps < 2 {
            let to = to.min(table.count);
            table.words.splice(4 * to..4 * to, row);
            table.count += 1;
        }
    }

    /// Another set, count, number of words or buffer than the rows are for.
    fn change_what_is_lent(&mut self, table: &mut Table) {
        match self.random.below(5) {
            0 => table.set = self.good_set(),
            1 => {
                let fewer = self.random.below(table.words.len() + 1);
                let enough = table.count.saturating_mul(4);
                let words = self.random.pick(&[fewer, enough.saturating_sub(1), enough]);
                table.words.truncate(words);
            }
            2 => {
                let bytes = self.random.below(table.buffer.len() + 1);
                table.buffer.truncate(bytes);
            }
            _ => {
                let counts = [0, 1, 128, 129, 130, 1 << 62, usize::MAX / 4, usize::MAX];
                table.count = match self.random.below(3) {
                    0 => table.count.saturating_add(1),
                    1 => table.count.saturating_sub(1),
                    _ => self.random.pick(&counts),
                };
            }
        }
    }

    fn change_a_word(&mut self, table: &mut Table) {
        if !table.has_all_rows() {
            return;
        }
        let n = self.random.below(table.count);
        let row = Row::from_words(&table.words[4 * n..]);
        let changed = &mut table.words[4 * n..4 * n + 4];
        match self.random.below(4) {
            0 => changed[0] = self.odd_tag(row.tag),
            1 => changed[1] = self.random.pick(&[0, 1, 2, 3, 4, 5, 6, 1 << 32, u64::MAX]),
            2 => changed[2] = self.odd_code(row.code, row.length.min(8)),
            _ => changed[3] = self.odd_value(&row, table.buffer.len()),
        }
        // The kind a changed code asks for, so that rules after the mark rule are reached.
        let mark = form(changed[0]).and_then(|form| form.mark());
        if changed[1] <= MARK && self.random.one_in(2) {
            let is_mark = mark == Some(changed[2]);
            changed[1] = if is_mark { MARK } else { READING };
        }
    }

    /// A row made withdrawn, also of a tag that may not be and of one that is not known, and left where it was or put beyond the buffer; now
    /// and then with a code or a length. Half the time the row stays behind it.
    fn withdraw_a_row(&mut self, table: &mut Table) {
        if !table.has_all_rows() {
            return;
        }
        let n = self.random.below(table.count);
        let row = Row::from_words(&table.words[4 * n..]);
        let far = [row.place, table.buffer.len() + 1, (1 << 48) - 1];
        let withdrawn = Row {
            kind: WITHDRAWN,
            code: self.random.pick(&[0, 0, 0, 0, 0, 1, row.code]),
            place: self.random.pick(&far),
            length: self.random.pick(&[0, 0, 0, 0, 0, 1, row.length]),
            ..row
        };
        if self.random.one_in(2) {
            table.words.splice(4 * n..4 * n, row.words());
            table.count += 1;
        }
        table.words[4 * n..4 * n + 4].copy_from_slice(&withdrawn.words());
    }

    /// Texts' lengths and numbers' codes changed so that 12 or 14 may come.
    fn change_judged_values(&mut self, table: &mut Table) {
        let from = 4 * self.random.below(table.words.len() / 4 + 1);
        let lengths = [0, 1, 127, 128, 129, 200];
        let length = self.random.pick(&lengths);
        // A text that is too long has to be in the buffer, since what is beyond is a bad row.
        let bytes = table.buffer.len().max(length);
        table.buffer.resize(bytes, 0x5A);
        let code = self.random.below(11) as u64;
        let over = self.random.below(3) as u64;
        for words in table.words[from..].chunks_exact_mut(4) {
            let mut row = Row::from_words(words);
            if row.kind == TEXT {
                row.length = length;
                row.place = row.place.min(table.buffer.len().saturating_sub(length));
            } else if row.kind == READING && row.length == 1 {
                row.code = code;
            } else if row.kind == READING && form(row.tag) == Some(Form::Extended) {
                row.code = Form::Extended.last(row.length.min(4)) + over;
            }
            words.copy_from_slice(&row.words());
        }
    }

    /// Judged rows put before themselves, those behind having other values: 13 meets 12 and 14.
    fn double_judged_rows(&mut self, table: &mut Table) {
        if !table.has_all_rows() || table.count > 32 {
            return;
        }
        let first = table.words[..4 * table.count].to_vec();
        self.change_judged_values(table);
        let judged = first
            .chunks_exact(4)
            .filter(|words| matches!(words[0], 34 | 63 | 103..=105) || words[1] == TEXT);
        let before: Vec<u64> = judged.flatten().copied().collect();
        table.count += before.len() / 4;
        table.words.splice(4..4, before);
    }

    pub fn odd_tag(&mut self, tag: u64) -> u64 {
        let odd = [0, 1, 2, 65, 3, 34, 63, 104, LAST_TAG, LAST_TAG + 1, 1 << 63];
        match self.random.below(4) {
            0 => tag ^ 1 << self.random.below(64),
            1 => tag.wrapping_add(128),
            2 => self.unknown_tag(),
            _ => self.random.pick(&odd),
        }
    }

    /// Another code for a number of so many bytes.
    pub fn odd_code(&mut self, code: u64, bytes: usize) -> u64 {
        let bits = 8 * bytes as u32;
        let too_wide = 1u64.checked_shl(bits).unwrap_or(0);
        let mark = too_wide / 2;
        match self.random.below(10) {
            0 => too_wide,
            1 => too_wide.wrapping_sub(1),
            2 => too_wide + 1,
            3 => mark,
            4 => mark.wrapping_sub(1),
            5 => u64::MAX,
            6 => self.random.next(),
            7 => code | 1 << self.random.below(64),
            _ => self.random.below(12) as u64,
        }
    }

    /// Another place or length.
    fn odd_value(&mut self, row: &Row, buffer: usize) -> u64 {
        let lengths = [0, 1, 2, 3, 4, 5, 8, 127, 128, 129, 255, 256, 65_535];
        let places = [0, 1, buffer, buffer + 1, (1 << 48) - 1];
        let mut changed = *row;
        match self.random.below(6) {
            0 => changed.length = self.random.pick(&lengths),
            1 => changed.place = self.random.pick(&places),
            2 => changed.place = buffer.saturating_sub(row.length),
            3 => changed.place = (buffer + 1).saturating_sub(row.length),
            4 => {
                changed.length = self.random.pick(&lengths);
                changed.place = buffer.saturating_sub(changed.length);
            }
            _ => return self.random.next(),
        }
        changed.words()[3]
    }

    /// Rows whose values share the buffer, so that their packet has about the greatest length allowed.
    fn heavy_table(&mut self, table: &mut Table) {
        self.make_parts();
        table.buffer.clone_from(&self.store);
        table.buffer.resize(9_000, 0x5A);
        let many = self.random.between(0, 3);
        let rest = if many == 0 { 8_145 } else { 8_130 / (many + 1) };
        let mut rows = vec![number_row(2, 8), number_row(65, 1)];
        for _ in 0..=many {
            let tag = self.random.pick(&[40, 127, 128, 16_384]);
            let length = rest + self.random.below(20);
            let place = self.random.below(table.buffer.len() - length + 1);
            rows.push(Row {
                kind: CARRIED,
                place,
                ..number_row(tag, length)
            });
        }
        rows.push(number_row(1, 2));
        if self.random.one_in(8) {
            rows.swap_remove(0);
        }
        set_rows(table, &rows);
    }

    /// Rows that are not those of any packet.
    fn odd_table(&mut self, table: &mut Table) {
        table.set = self.random.pick(&[ALL, ALL, SMALLEST]);
        let mut rows = Vec::new();
        for n in 0..self.random.below(6) {
            let tag = if n == 0 { 2 } else { self.odd_tag(64) };
            let kind = self
                .random
                .pick(&[READING, MARK, TEXT, CARRIED, CARRIED, WITHDRAWN]);
            let length = match form(tag) {
                Some(Form::Extended) => Some(self.random.between(2, 4)),
                form => form.and_then(Form::bytes),
            };
            let row = Row {
                kind: length.map_or(kind, |_| READING),
                code: self.random.below(2) as u64,
                place: self.random.below(table.buffer.len() + 1),
                ..number_row(tag, length.unwrap_or(0))
            };
            rows.push(row);
        }
        if self.random.one_in(2) {
            rows.push(number_row(65, 1));
            rows.push(number_row(1, 2));
        }
        set_rows(table, &rows);
        if self.random.one_in(8) {
            table.words.fill_with(|| self.random.next());
        }
    }
}

fn number_row(tag: u64, length: usize) -> Row {
    Row {
        tag,
        kind: READING,
        code: 0,
        place: 0,
        length,
    }
}

fn set_rows(table: &mut Table, rows: &[Row]) {
    table.count = rows.len();
    table.words.clear();
    table.words.extend(rows.iter().flat_map(|row| row.words()));
}
