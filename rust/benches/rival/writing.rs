//! The rival's writer: one pass that judges the rows and sums their sizes, one that writes.

use super::{
    catalogue, checksum, good, length_bytes, may_be_withdrawn, put, put_length, refusal, Refusal,
    Rule, CARRIED, CATALOGUE, EXTENDED, HIGHEST, KEY, LONGEST_PACKET, MOST_ITEMS, NUMBER,
    NUMBER_OR_MARK, TEXT, WITHDRAWN,
};

const LARGEST_TAG: u64 = 0x1F_FFFF;

/// A row of the table, its fourth word taken apart.
#[derive(Clone, Copy)]
struct Row {
    tag: u64,
    kind: u64,
    code: u64,
    place: usize,
    length: usize,
}

impl Row {
    #[inline(always)]
    fn of(words: &[u64]) -> Row {
        Row {
            tag: words[0],
            kind: words[1],
            code: words[2],
            place: (words[3] >> 16) as usize,
            length: (words[3] & 0xFFFF) as usize,
        }
    }

    fn has_tag(&self) -> bool {
        (1..=LARGEST_TAG).contains(&self.tag)
    }

    /// A text or carried row that is not bad.
    #[inline(always)]
    fn is_part(&self, kind: u8, buffer: usize) -> bool {
        self.kind == kind.into() && self.code == 0 && self.place + self.length <= buffer
    }

    /// A withdrawn row that is not bad. The place is never a reason.
    fn is_withdrawn(&self) -> bool {
        self.code == 0 && self.length == 0 && may_be_withdrawn(self.tag)
    }

    /// A number's row that is not bad. The code of tag 1 is never a reason.
    fn is_number(&self, rule: Rule) -> bool {
        if self.length.wrapping_sub(rule.least.into()) > rule.span.into() {
            return false;
        }
        let shift = 64 - 8 * self.length as u32;
        let top = self.code << shift;
        let is_mark = rule.form == NUMBER_OR_MARK && top == 1 << 63;
        self.kind == 1 + u64::from(is_mark) && (top >> shift == self.code || self.tag == 1)
    }

    /// The largest code that is not refused, of a number whose codes are limited.
    fn largest(&self, rule: Rule) -> u64 {
        match rule.form {
            EXTENDED => u64::from(u32::from_be_bytes(HIGHEST)) >> (32 - 8 * self.length),
            _ => rule.top.into(),
        }
    }

    #[inline(always)]
    fn size(&self) -> usize {
        tag_bytes(self.tag) + length_bytes(self.length) + self.length
    }
}

/// A known reading that calls for no closer look: its length, its largest code, and a code that is not among them.
#[derive(Clone, Copy)]
struct Plain {
    length: usize,
    largest: u64,
    but: u64,
}

static PLAIN: [Plain; 128] = plain_readings();

const fn plain_readings() -> [Plain; 128] {
    let rules = catalogue();
    let mut readings = [plain(rules[0]); 128];
    let mut tag = 1;
    while tag < 128 {
        readings[tag] = plain(rules[tag]);
        tag += 1;
    }
    readings
}

/// What is no number, or has no one length, has a length that no row has.
const fn plain(rule: Rule) -> Plain {
    if rule.form == TEXT || rule.form == CARRIED || rule.form == EXTENDED {
        return Plain {
            length: usize::MAX,
            largest: 0,
            but: 0,
        };
    }
    let all = u64::MAX >> (64 - 8 * rule.least as u32);
    let is_limited = rule.top < 255;
    Plain {
        length: rule.least as usize,
        largest: if is_limited { rule.top as u64 } else { all },
        but: if rule.form == NUMBER_OR_MARK {
            all / 2 + 1
        } else {
            u64::MAX
        },
    }
}

/// The known tags, those of them not yet met, and the first known row that is at fault.
struct Judge {
    knowing: [u64; 2],
    awaited: [u64; 2],
    fault: Option<Refusal>,
}

impl Judge {
    fn knows(&self, tag: u64) -> bool {
        tag < 128 && self.knowing[(tag / 64) as usize] >> (tag % 64) & 1 == 1
    }

    /// The known tags that were met.
    fn met(&self) -> [u64; 2] {
        let ([low, high], [low_left, high_left]) = (self.knowing, self.awaited);
        [low ^ low_left, high ^ high_left]
    }

    /// The size of row n, unless it is bad.
    #[inline(always)]
    fn size(&mut self, n: usize, words: &[u64], buffer: usize) -> Result<usize, Refusal> {
        let row = Row::of(words);
        let (word, bit) = ((row.tag / 64) as usize, 1 << (row.tag % 64));
        if row.kind == NUMBER.into() && word < 2 && self.awaited[word] & bit != 0 {
            let plain = &PLAIN[row.tag as usize];
            if row.length == plain.length && row.code <= plain.largest && row.code != plain.but {
                self.awaited[word] ^= bit;
                return Ok(2 + row.length);
            }
        } else if row.is_part(CARRIED, buffer) && row.has_tag() && !self.knows(row.tag) {
            return Ok(row.size());
        }
        self.any_size(n, words, buffer)
    }

    /// The same by the general rules; keeps the row's fault if it is the first that has one.
    #[inline(never)]
    fn any_size(&mut self, n: usize, words: &[u64], buffer: usize) -> Result<usize, Refusal> {
        let row = Row::of(words);
        let (word, bit) = ((row.tag / 64) as usize, 1 << (row.tag % 64));
        let is_good = if self.knows(row.tag) {
            let rule = CATALOGUE[row.tag as usize];
            let is_fresh = self.awaited[word] & bit != 0;
            self.awaited[word] &= !bit;
            if let Some(number) = fault(row, rule, is_fresh) {
                self.fault.get_or_insert(refusal(number, n, row.tag));
            }
            match rule.form {
                _ if row.kind == WITHDRAWN.into() => row.is_withdrawn(),
                TEXT => row.is_part(TEXT, buffer) && row.length > 0,
                _ => row.is_number(rule),
            }
        } else {
            row.is_part(CARRIED, buffer) && row.has_tag()
        };
        if is_good {
            return Ok(row.size());
        }
        Err(refusal(17, n, if row.has_tag() { row.tag } else { 0 }))
    }
}

/// What is wrong with a known row that is not bad. A withdrawn one can only be a second one.
fn fault(row: Row, rule: Rule, is_fresh: bool) -> Option<u64> {
    if row.kind == WITHDRAWN.into() {
        return (!is_fresh).then_some(13);
    }
    if row.length.wrapping_sub(rule.least.into()) > rule.span.into() {
        Some(12)
    } else if !is_fresh {
        Some(13)
    } else if rule.top < 255 && row.code > row.largest(rule) {
        Some(14)
    } else {
        None
    }
}

/// The size of all items, where the rows can be written and have the words handed, if any are.
#[inline(always)]
fn items_size(
    words: &[u64],
    buffer: usize,
    knowing: [u64; 2],
    handed: Option<[u64; 2]>,
) -> Result<usize, Refusal> {
    let mut judge = Judge {
        knowing,
        awaited: knowing,
        fault: None,
    };
    let mut items = 0;
    for (n, row) in words.chunks_exact(4).enumerate() {
        items += judge.size(n, row, buffer)?;
    }
    if handed.is_some_and(|handed| handed != judge.met()) {
        return Err(refusal(22, 0, 0));
    }
    if packet_size(items) > LONGEST_PACKET {
        return Err(refusal(3, 0, 0));
    }
    ends(words)?;
    match judge.fault {
        Some(fault) => Err(fault),
        None if judge.awaited[1] & 2 != 0 => Err(refusal(15, 0, 0)),
        None => Ok(items),
    }
}

/// The first row is item 2, the last item 1.
fn ends(words: &[u64]) -> Result<(), Refusal> {
    let first = words.first().map_or(0, |&tag| tag);
    if first != 2 {
        return Err(refusal(9, 0, first));
    }
    let last = words.len() - 4;
    if words[last] != 1 {
        return Err(refusal(10, last / 4, words[last]));
    }
    Ok(())
}

fn packet_size(items: usize) -> usize {
    KEY.len() + length_bytes(items) + items
}

fn tag_bytes(tag: u64) -> usize {
    match tag {
        0..=0x7F => 1,
        0x80..=0x3FFF => 2,
        _ => 3,
    }
}

/// Writes a tag and answers the place after it.
fn put_tag(out: &mut [u8], at: usize, tag: u64) -> usize {
    let more = |shift: u32| 0x80 | (tag >> shift) as u8;
    let last = tag as u8 & 0x7F;
    match tag_bytes(tag) {
        1 => put(out, at, &[last]),
        2 => put(out, at, &[more(7), last]),
        _ => put(out, at, &[more(14), more(7), last]),
    }
}

/// Writes an item by the general rules and answers the place after it.
#[inline(never)]
fn put_item(out: &mut [u8], at: usize, words: &[u64], buffer: &[u8]) -> usize {
    let row = Row::of(words);
    let place = if row.tag < 0x80 && row.length < 0x80 {
        put(out, at, &[row.tag as u8, row.length as u8])
    } else {
        let after_tag = put_tag(out, at, row.tag);
        put_length(out, after_tag, row.length)
    };
    if row.kind == WITHDRAWN.into() {
        return place;
    }
    let number = row.code.to_be_bytes();
    let value = if row.kind <= NUMBER_OR_MARK.into() {
        &number[8 - row.length..]
    } else {
        &buffer[row.place..row.place + row.length]
    };
    put(out, place, value)
}

/// Writes all items but the checksum's. A number of at most four bytes is written with its tag and length as eight bytes, of which
/// the next item writes over those that are too many.
fn put_items(out: &mut [u8], mut at: usize, words: &[u64], buffer: &[u8]) {
    for words in words.chunks_exact(4) {
        let row = Row::of(words);
        let is_short = row.kind <= NUMBER_OR_MARK.into() && row.length <= 4;
        at = match out[at..].first_chunk_mut() {
            Some(room) if is_short => {
                let code = row.code << (48 - 8 * row.length);
                let item = row.tag << 56 | (row.length as u64) << 48 | code;
                *room = item.to_be_bytes();
                at + 2 + row.length
            }
            _ => put_item(out, at, words, buffer),
        };
    }
}

/// Writes rows as a packet: lengths in their shortest form, the checksum afresh.
#[inline(never)]
pub fn write(
    words: &[u64],
    count: usize,
    buffer: &[u8],
    low: u64,
    high: u64,
    out: &mut [u8],
) -> Result<usize, Refusal> {
    write_rows(words, count, buffer, [low, high], None, out)
}

/// The same, handed the words for which items are there.
#[inline(never)]
pub fn write_with(
    words: &[u64],
    count: usize,
    buffer: &[u8],
    low: u64,
    high: u64,
    present: [u64; 2],
    out: &mut [u8],
) -> Result<usize, Refusal> {
    write_rows(words, count, buffer, [low, high], Some(present), out)
}

#[inline(always)]
fn write_rows(
    words: &[u64],
    count: usize,
    buffer: &[u8],
    knowing: [u64; 2],
    handed: Option<[u64; 2]>,
    out: &mut [u8],
) -> Result<usize, Refusal> {
    if !good(knowing[0], knowing[1]) {
        return Err(refusal(1, 0, 0));
    }
    if count > MOST_ITEMS {
        return Err(refusal(16, 0, 0));
    }
    let words = words.get(..4 * count).ok_or(refusal(16, 0, 0))?;
    let items = items_size(words, buffer.len(), knowing, handed)?;
    let size = packet_size(items);
    let out = out.get_mut(..size).ok_or(refusal(18, 0, 0))?;
    put(out, 0, &KEY);
    let at = put_length(out, KEY.len(), items);
    put_items(out, at, &words[..words.len() - 4], buffer);
    put(out, size - 4, &[1, 2]);
    let (summed, sum) = out.split_at_mut(size - 2);
    sum.copy_from_slice(&checksum(summed).to_be_bytes());
    Ok(size)
}
