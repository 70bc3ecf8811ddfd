//! The product's answer and all memory lent to it, held against the twin's word.

use std::fmt::Debug;

use oysterknoll::{catalogue, Accepted, Knowing, Present, Refusal};

use crate::lent::Lent;
use crate::same::{corner, height, item, row_of, same_row, same_rows, same_walk};
use crate::twin::{refused, Refused, Row, Twin};
use crate::twin_records::Record;
use crate::twin_write::Rows;
use crate::wire::MOST_ITEMS;

/// Nothing, or how product and twin differ.
pub type Verdict = Result<(), String>;

/// A law that holds, or else what it does not hold of.
pub fn holds(law: bool, what: impl FnOnce() -> String) -> Verdict {
    if law {
        Ok(())
    } else {
        Err(what())
    }
}

/// The documents' last refusal.
pub const LAST_REFUSAL: usize = 22;

/// How many comparisons there were, how many were accepted, and how often each refusal came.
#[derive(Clone, Copy, Default)]
pub struct Tally {
    pub cases: u64,
    pub accepted: u64,
    pub refusals: [u64; LAST_REFUSAL + 1],
}

/// Calls the product and the twin alike.
pub struct Comparer {
    pub twin: Twin,
    pub tally: Tally,
    table: Lent<u64>,
    /// What the table is to begin with.
    words: Vec<u64>,
    out: Lent<u8>,
}

/// What was asked, for the report of a difference.
struct Asked<'a> {
    function: &'a str,
    bytes: &'a [u8],
    words: &'a [u64],
    records: &'a [Record<'a>],
    set: u128,
    rest: &'a [usize],
}

pub const MOST_OUT: usize = 22_000;

pub fn knowing(set: u128) -> Knowing {
    Knowing::from_words(set as u64, (set >> 64) as u64)
}

pub fn present(words: u128) -> Present {
    Present::from_words(words as u64, (words >> 64) as u64)
}

/// The product's two words as the twin has them.
pub fn words(present: Present) -> u128 {
    let (low, high) = present.words();
    u128::from(high) << 64 | u128::from(low)
}

pub fn of_product(refusal: Refusal) -> Refused {
    refused(refusal.number(), refusal.place, refusal.tag)
}

impl Comparer {
    pub fn new(twin: Twin) -> Comparer {
        Comparer {
            twin,
            tally: Tally::default(),
            table: Lent::new(544, |n| 0xA5A5_0000_0000_0001 + 7 * n as u64),
            words: Vec::new(),
            out: Lent::new(MOST_OUT, |n| (n * 7 + n / 256) as u8 | 1),
        }
    }

    pub fn check(&mut self, packet: &[u8], set: u128) -> Verdict {
        let rows = self.twin.read(packet, set, None);
        let twin = rows.map(|rows| self.accepted(&rows));
        let product = oysterknoll::check(packet, knowing(set));
        let product = product.map(|accepted| {
            let words = [accepted.present, accepted.withdrawn].map(words);
            (accepted.count, words)
        });
        self.agree(Asked::of("check", packet, set), product, twin, true)
    }

    /// The words of a packet asked for these tags, each answer being that of a scan of the rows.
    pub fn asked(
        &mut self,
        packet: &[u8],
        set: u128,
        mut tags: impl Iterator<Item = u64>,
    ) -> Verdict {
        let rows = self.twin.read(packet, set, None);
        let product = oysterknoll::check(packet, knowing(set));
        let differs = match (&product, &rows) {
            (Ok(product), Ok(rows)) => tags.find(|&tag| !self.same_of_tag(product, rows, tag)),
            _ => None,
        };
        let (product, twin) = (product.map(|_| ()), rows.map(|_| ()));
        let numbers = [differs.unwrap_or(0) as usize];
        let asked = Asked::of("present", packet, set).with(&numbers);
        self.agree(asked, product, twin, differs.is_none())
    }

    /// How many rows there are, the words for those that are there, and the words for those that are withdrawn.
    fn accepted(&self, rows: &[Row]) -> (usize, [u128; 2]) {
        let words = [self.twin.words_of(rows), self.twin.withdrawn_of(rows)];
        (rows.len(), words)
    }

    /// Whether a tag is there, is withdrawn and has a value in the product's words as in a scan of the rows.
    fn same_of_tag(&self, product: &Accepted, rows: &[Row], tag: u64) -> bool {
        product.present.has(tag) == self.twin.is_there(rows, tag)
            && product.withdrawn.has(tag) == self.twin.is_withdrawn(rows, tag)
            && product.has_value(tag) == self.twin.has_value(rows, tag)
    }

    /// Any two words asked for a tag.
    pub fn has(&mut self, words: u128, tag: u64) -> Verdict {
        let twin = self.twin.has(words, tag);
        let product = present(words).has(tag);
        let asked = Asked::of("has", &[], words);
        self.agree(asked.with(&[tag as usize]), Ok(product), Ok(twin), true)
    }

    pub fn read(&mut self, packet: &[u8], set: u128, table_words: usize) -> Verdict {
        let asked = Asked::of("read", packet, set);
        let rows = self.twin.read(packet, set, Some(table_words));
        let table = self.table.lend(table_words);
        let product = oysterknoll::read(packet, knowing(set), table);
        let same = match (&product, &rows) {
            (Ok(product), Ok(rows)) => same_rows(product, rows, packet),
            _ => true,
        };
        let product =
            product.map(|rows| (rows.len(), [rows.present(), rows.withdrawn()].map(words)));
        self.words.clear();
        if let Ok(rows) = &rows {
            self.twin.put_table(rows, &mut self.words);
        }
        let memory_is_right = self.table.holds_only(&self.words);
        let twin = rows.map(|rows| self.accepted(&rows));
        self.agree(
            asked.with(&[table_words]),
            product,
            twin,
            same && memory_is_right,
        )
    }

    /// A walk over all items and past the last; a copy of the walker goes the same way.
    pub fn items(&mut self, packet: &[u8], set: u128) -> Verdict {
        let twin = self.twin.walked(packet, set);
        let product = oysterknoll::items(packet, knowing(set));
        let same = match (&product, &twin) {
            (Ok(items), Ok(rows)) => same_walk(items.clone(), rows, packet),
            _ => true,
        };
        // An endless walk is to differ, not to hang.
        let product = product.map(|items| items.take(MOST_ITEMS + 1).count());
        let twin = twin.map(|rows| rows.len());
        self.agree(Asked::of("items", packet, set), product, twin, same)
    }

    pub fn take_row(&mut self, lent: Rows, n: usize) -> Verdict {
        let asked = Asked::of_rows("take_row", lent);
        let twin = self.twin.taken_row(lent, n);
        let set = knowing(lent.set);
        let product = oysterknoll::take_row(lent.words, lent.count, n, lent.buffer, set);
        let same = match (&product, &twin) {
            (Ok(product), Ok(row)) => same_row(product, row, lent.buffer),
            _ => true,
        };
        let product = product.map(|row| row.tag);
        let twin = twin.map(|row| row.tag);
        self.agree(asked.with(&[lent.count, n]), product, twin, same)
    }

    /// `room` gives the output's length for the length that is needed.
    pub fn write(&mut self, lent: Rows, room: impl FnOnce(usize) -> usize) -> Verdict {
        let asked = Asked::of_rows("write", lent);
        let written = self.twin.written(lent, None);
        let length = room(written.as_ref().map_or(64, Vec::len));
        let out = self.out.lend(length);
        let set = knowing(lent.set);
        let product = oysterknoll::write(lent.words, lent.count, lent.buffer, set, out);
        self.agree_on_bytes(asked.with(&[lent.count, length]), product, written, length)
    }

    /// The writer handed these words for which items are there.
    pub fn write_with(
        &mut self,
        lent: Rows,
        handed: u128,
        room: impl FnOnce(usize) -> usize,
    ) -> Verdict {
        let asked = Asked::of_rows("write_with", lent);
        let written = self.twin.written(lent, Some(handed));
        let length = room(written.as_ref().map_or(64, Vec::len));
        let out = self.out.lend(length);
        let (set, there) = (knowing(lent.set), present(handed));
        let product = oysterknoll::write_with(lent.words, lent.count, lent.buffer, set, there, out);
        let (low, high) = there.words();
        let numbers = [lent.count, length, low as usize, high as usize];
        self.agree_on_bytes(asked.with(&numbers), product, written, length)
    }

    pub fn write_rows(
        &mut self,
        records: &[Record],
        set: u128,
        room: impl FnOnce(usize) -> usize,
    ) -> Verdict {
        let asked = Asked::of_records("write_rows", records, set);
        let written = self.twin.written_records(records, set);
        let length = room(written.as_ref().map_or(64, Vec::len));
        let out = self.out.lend(length);
        let rows: Vec<oysterknoll::Row> = records.iter().map(row_of).collect();
        let product = oysterknoll::write_rows(&rows, knowing(set), out);
        self.agree_on_bytes(asked.with(&[length]), product, written, length)
    }

    pub fn forward(
        &mut self,
        packet: &[u8],
        set: u128,
        room: impl FnOnce(usize) -> usize,
    ) -> Verdict {
        let asked = Asked::of("forward", packet, set);
        let forwarded = self.twin.forwarded(packet, set);
        let length = room(forwarded.as_ref().map_or(64, Vec::len));
        let out = self.out.lend(length);
        let product = oysterknoll::forward(packet, knowing(set), out);
        self.agree_on_bytes(asked.with(&[length]), product, forwarded, length)
    }

    pub fn list(&mut self, packet: &[u8], room: impl FnOnce(usize) -> usize) -> Verdict {
        let listing = self.twin.listing(packet).map(String::into_bytes);
        let length = room(listing.as_ref().map_or(64, Vec::len));
        let out = self.out.lend(length);
        let product = oysterknoll::list(packet, out);
        let asked = Asked::of("list", packet, 0);
        self.agree_on_bytes(asked.with(&[length]), product, listing, length)
    }

    pub fn item(&mut self, tag: u64) -> Verdict {
        let twin = self.twin.item(tag);
        let product = catalogue::item(tag);
        let has_its_tag = product.iter().all(|item| item.tag == tag);
        let asked = Asked::of("item", &[], 0);
        self.agree(
            asked.with(&[tag as usize]),
            Ok(product.map(item)),
            Ok(twin),
            has_its_tag,
        )
    }

    pub fn house_of(&mut self, tag: u64, length: usize, code: u64) -> Verdict {
        let twin = self.twin.to_house(tag, length, code);
        let product = oysterknoll::to_house(tag, length, code);
        let asked = Asked::of("to_house", &[], 0);
        self.agree(
            asked.with(&[tag as usize, length, code as usize]),
            product,
            twin,
            true,
        )
    }

    pub fn code_of(&mut self, tag: u64, length: usize, value: i64) -> Verdict {
        let twin = self.twin.to_code(tag, length, value);
        let product = oysterknoll::to_code(tag, length, value);
        let asked = Asked::of("to_code", &[], 0);
        self.agree(
            asked.with(&[tag as usize, length, value as usize]),
            product,
            twin,
            true,
        )
    }

    pub fn heights(&mut self, packet: &[u8], set: u128) -> Verdict {
        let twin = self.twin.sensor_height(packet, set);
        let product = oysterknoll::sensor_height(packet, knowing(set)).map(height);
        self.agree(Asked::of("sensor_height", packet, set), product, twin, true)?;
        let twin = self.twin.frame_centre_height(packet, set);
        let product = oysterknoll::frame_centre_height(packet, knowing(set)).map(height);
        let asked = Asked::of("frame_centre_height", packet, set);
        self.agree(asked, product, twin, true)
    }

    pub fn corner(&mut self, packet: &[u8], set: u128, k: u64) -> Verdict {
        let twin = self.twin.corner(packet, set, k);
        let product = oysterknoll::corner(packet, knowing(set), k).map(corner);
        let asked = Asked::of("corner", packet, set);
        self.agree(asked.with(&[k as usize]), product, twin, true)
    }

    /// An answer that is a number of bytes at the output's beginning; too short an output is 18.
    fn agree_on_bytes(
        &mut self,
        asked: Asked,
        product: Result<usize, Refusal>,
        bytes: Result<Vec<u8>, Refused>,
        length: usize,
    ) -> Verdict {
        let bytes = bytes.and_then(|bytes| self.twin.in_room(bytes, length));
        let written = bytes.as_ref().map_or(&[][..], |bytes| &bytes[..]);
        let memory_is_right = self.out.holds_only(written);
        let twin = bytes.map(|bytes| bytes.len());
        self.agree(asked, product, twin, memory_is_right)
    }

    fn agree<T: PartialEq + Debug>(
        &mut self,
        asked: Asked,
        product: Result<T, Refusal>,
        twin: Result<T, Refused>,
        rest_is_right: bool,
    ) -> Verdict {
        let product = product.map_err(of_product);
        self.tally.cases += 1;
        match &product {
            Ok(_) => self.tally.accepted += 1,
            Err(refusal) => self.tally.refusals[refusal.number as usize] += 1,
        }
        holds(product == twin && rest_is_right, || {
            let rest = if rest_is_right {
                ""
            } else {
                "; rows or lent memory differ"
            };
            format!("{asked}: product {product:?}, twin {twin:?}{rest}")
        })
    }
}

impl<'a> Asked<'a> {
    fn of(function: &'a str, bytes: &'a [u8], set: u128) -> Asked<'a> {
        Asked {
            function,
            bytes,
            words: &[],
            records: &[],
            set,
            rest: &[],
        }
    }

    fn of_rows(function: &'a str, lent: Rows<'a>) -> Asked<'a> {
        Asked {
            words: lent.words,
            ..Asked::of(function, lent.buffer, lent.set)
        }
    }

    fn of_records(function: &'a str, records: &'a [Record<'a>], set: u128) -> Asked<'a> {
        Asked {
            records,
            ..Asked::of(function, &[], set)
        }
    }

    fn with(self, rest: &'a [usize]) -> Asked<'a> {
        Asked { rest, ..self }
    }
}

impl std::fmt::Display for Asked<'_> {
    fn fmt(&self, f: &mut std::fmt::Formatter) -> std::fmt::Result {
        let hex: String = self
            .bytes
            .iter()
            .map(|byte| format!("{byte:02X}"))
            .collect();
        write!(
            f,
            "{} of bytes [{hex}], words {:X?}, records {:X?}, set {:X}, numbers {:?}",
            self.function, self.words, self.records, self.set, self.rest
        )
    }
}
