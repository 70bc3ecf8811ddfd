//! The library's operations but the listing in plain safe Rust, written for speed alone: the yardstick beside the library.

pub mod ground;
mod scale;
mod writing;

pub use ground::corner;
pub use scale::{to_code, to_house};
pub use writing::{write, write_with};

/// What an accepted packet has: how many items, and by the bits of two words each which known ones, and which withdrawn ones.
#[derive(Clone, Copy, PartialEq, Eq, Debug)]
pub struct Accepted {
    pub count: usize,
    pub present: [u64; 2],
    pub withdrawn: [u64; 2],
}

/// Why a packet is refused, by number.
#[derive(Clone, Copy, PartialEq, Eq, Debug)]
pub struct Refusal {
    pub number: u64,
    pub place: usize,
    pub tag: u64,
}

pub const KEY: [u8; 16] = [
    0x06, 0x0E, 0x2B, 0x34, 0x02, 0x0B, 0x01, 0x01, 0x0E, 0x01, 0x03, 0x01, 0x01, 0x00, 0x00, 0x00,
];
const LONGEST_PACKET: usize = 8192;
const MOST_ITEMS: usize = 128;
const TABLE_WORDS: usize = 512;

const NUMBER: u8 = 1;
const NUMBER_OR_MARK: u8 = 2;
const TEXT: u8 = 3;
const CARRIED: u8 = 4;
const WITHDRAWN: u8 = 5;
/// A number of 2, 3 or 4 bytes. This is no kind of a row.
const EXTENDED: u8 = 6;

/// The highest value of an extended height, of which one of fewer bytes has the first.
const HIGHEST: [u8; 4] = [0x4F, 0xE2, 0, 0];

/// What the catalogue says of a tag: the least length, how many more bytes it may have, its largest first byte, its form.
#[derive(Clone, Copy)]
struct Rule {
    least: u8,
    span: u8,
    top: u8,
    form: u8,
}

static CATALOGUE: [Rule; 128] = catalogue();
static PLAIN_LENGTHS: [(u8, u8); 256] = plain_lengths();
const CATALOGUE_TAGS: [u64; 2] = catalogue_tags();

/// What is said of some tags, in the order of a rule's fields, and the tags.
type Group = ((u8, u8, u8, u8), &'static [usize]);

/// The catalogue's tags by what is said of them.
const GROUPS: [Group; 11] = [
    ((1, 0, 255, NUMBER), &[8, 9, 36, 39, 55, 56, 65]),
    ((1, 0, 2, NUMBER), &[34]),
    ((1, 0, 8, NUMBER), &[63]),
    (
        (2, 0, 255, NUMBER),
        &[1, 5, 15, 16, 17, 22, 25, 35, 37, 38, 64, 71, 75, 78],
    ),
    ((4, 0, 255, NUMBER), &[18, 20, 21, 57]),
    ((8, 0, 255, NUMBER), &[2]),
    (
        (2, 0, 255, NUMBER_OR_MARK),
        &[6, 7, 26, 27, 28, 29, 30, 31, 32, 33, 79, 80],
    ),
    ((4, 0, 255, NUMBER_OR_MARK), &[13, 14, 19, 23, 24, 67, 68]),
    (
        (4, 0, 255, NUMBER_OR_MARK),
        &[82, 83, 84, 85, 86, 87, 88, 89, 90, 91],
    ),
    ((1, 126, 255, TEXT), &[3, 4, 10, 11, 12, 59, 70]),
    ((2, 2, HIGHEST[0], EXTENDED), &[103, 104, 105]),
];

const fn catalogue() -> [Rule; 128] {
    let outside = Rule {
        least: 0,
        span: 0,
        top: 255,
        form: CARRIED,
    };
    let mut rules = [outside; 128];
    let mut group = 0;
    while group < GROUPS.len() {
        let ((least, span, top, form), tags) = GROUPS[group];
        let mut n = 0;
        while n < tags.len() {
            rules[tags[n]] = Rule {
                least,
                span,
                top,
                form,
            };
            n += 1;
        }
        group += 1;
    }
    rules
}

/// The least length of each tag and how many more bytes settle the matter; for a tag with a largest code none does.
const fn plain_lengths() -> [(u8, u8); 256] {
    let rules = catalogue();
    let mut lengths = [(255, 0); 256];
    let mut tag = 0;
    while tag < 128 {
        if rules[tag].top == 255 {
            lengths[tag] = (rules[tag].least, rules[tag].span);
        }
        tag += 1;
    }
    lengths
}

const fn catalogue_tags() -> [u64; 2] {
    let rules = catalogue();
    let mut words = [0; 2];
    let mut tag = 0;
    while tag < 128 {
        if rules[tag].form != CARRIED {
            words[tag / 64] |= 1 << (tag % 64);
        }
        tag += 1;
    }
    words
}

/// One item of a packet: where it starts, its tag, where its value stands, and how many bytes its length wastes.
#[derive(Clone, Copy)]
struct Item {
    start: usize,
    tag: u64,
    place: usize,
    length: usize,
    spare: usize,
}

fn refusal(number: u64, place: usize, tag: u64) -> Refusal {
    Refusal { number, place, tag }
}

/// A length and the number of bytes that it takes, unless it is cut or forbidden.
fn length(bytes: &[u8]) -> Option<(usize, usize)> {
    match *bytes {
        [a @ ..=0x7F, ..] => Some((a.into(), 1)),
        [0x81, a, ..] => Some((a.into(), 2)),
        [0x82, a, b, ..] => Some((u16::from_be_bytes([a, b]).into(), 3)),
        [0x83, a, b, c, ..] => Some((u32::from_be_bytes([0, a, b, c]) as usize, 4)),
        [0x84, a, b, c, d, ..] => Some((u32::from_be_bytes([a, b, c, d]) as usize, 5)),
        _ => None,
    }
}

/// A tag and the number of bytes that it takes, unless it is cut or forbidden.
fn tag(bytes: &[u8]) -> Option<(u64, usize)> {
    match *bytes {
        [0 | 0x80, ..] => None,
        [a @ ..=0x7F, ..] => Some((a.into(), 1)),
        [a, b @ ..=0x7F, ..] => Some((u64::from(a & 0x7F) << 7 | u64::from(b), 2)),
        [a, b, c @ ..=0x7F, ..] => Some((
            u64::from(a & 0x7F) << 14 | u64::from(b & 0x7F) << 7 | u64::from(c),
            3,
        )),
        _ => None,
    }
}

impl Item {
    #[inline(always)]
    fn short(start: usize, tag: u8, length: u8) -> Item {
        Item {
            start,
            tag: tag.into(),
            place: start + 2,
            length: length.into(),
            spare: 0,
        }
    }
}

/// The item at a place before the packet's end.
#[inline(always)]
fn next_item(packet: &[u8], start: usize) -> Result<Item, Refusal> {
    let (tag, tag_bytes) = tag(&packet[start..]).ok_or(refusal(7, start, 0))?;
    let after_tag = start + tag_bytes;
    let (length, bytes) = length(&packet[after_tag..]).ok_or(refusal(8, start, tag))?;
    let place = after_tag + bytes;
    if length > packet.len() - place {
        return Err(refusal(8, start, tag));
    }
    let spare = bytes - length_bytes(length);
    Ok(Item {
        start,
        tag,
        place,
        length,
        spare,
    })
}

/// Even places count 256 times, odd ones once: after the first byte every pair is a word with its lowest byte first, as the
/// processor loads it.
pub fn checksum(bytes: &[u8]) -> u16 {
    let Some((&first, rest)) = bytes.split_first() else {
        return 0;
    };
    let pairs = rest.chunks_exact(2);
    let unpaired = pairs.remainder().first().map_or(0, |&byte| byte.into());
    let words = pairs.map(|pair| u16::from_le_bytes([pair[0], pair[1]]));
    words
        .fold(unpaired, u16::wrapping_add)
        .wrapping_add(u16::from(first) << 8)
}

fn good(low: u64, high: u64) -> bool {
    let outside = (low & !CATALOGUE_TAGS[0]) | (high & !CATALOGUE_TAGS[1]);
    outside == 0 && low & 6 == 6 && high & 2 == 2
}

/// The place of the first item of a packet that has a good size, key and outer length.
fn body(packet: &[u8]) -> Result<usize, Refusal> {
    if packet.len() > LONGEST_PACKET {
        return Err(refusal(3, 0, 0));
    }
    let Some(rest) = packet.strip_prefix(&KEY) else {
        return Err(refusal(4, 0, 0));
    };
    match length(rest) {
        Some((length, bytes)) if length == rest.len() - bytes => Ok(16 + bytes),
        _ => Err(refusal(5, 16, 0)),
    }
}

/// The known tags, those of them not yet met, those withdrawn, and the first known item that is at fault. The sets have a bit for every
/// byte, so that a tag of one byte needs no test of its bounds.
struct Known {
    knowing: [u64; 4],
    awaited: [u64; 4],
    withdrawn: [u64; 2],
    fault: Option<Refusal>,
}

/// Whether an item of this tag may be without a value.
fn may_be_withdrawn(tag: u64) -> bool {
    !matches!(tag, 1 | 2 | 65)
}

fn holds(set: &[u64; 4], tag: u64) -> bool {
    set[(tag / 64) as usize] >> (tag % 64) & 1 == 1
}

impl Known {
    /// The item at a place if nothing about it calls for a closer look, as with nearly all of them.
    #[inline(always)]
    fn plain_item(&mut self, packet: &[u8], start: usize) -> Option<Item> {
        let [tag, length, ref rest @ ..] = packet[start..] else {
            return None;
        };
        if tag | length > 0x7F || usize::from(length) > rest.len() {
            return None;
        }
        let (word, bit) = (usize::from(tag / 64), 1 << (tag % 64));
        if self.awaited[word] & bit != 0 {
            let (least, span) = PLAIN_LENGTHS[usize::from(tag)];
            if length.wrapping_sub(least) > span {
                return None;
            }
            self.awaited[word] ^= bit;
        } else if tag == 0 || self.knowing[word] & bit != 0 {
            return None;
        }
        Some(Item::short(start, tag, length))
    }

    /// The item at a place by the general rules, and its fault if it is the first that has one.
    #[inline(never)]
    fn any_item(&mut self, packet: &[u8], start: usize) -> Result<Item, Refusal> {
        let item = next_item(packet, start)?;
        if item.tag > 127 || !holds(&self.knowing, item.tag) {
            return Ok(item);
        }
        let rule = CATALOGUE[item.tag as usize];
        let is_fresh = holds(&self.awaited, item.tag);
        let (word, bit) = ((item.tag / 64) as usize, 1 << (item.tag % 64));
        self.awaited[word] &= !bit;
        let number = match item.length.checked_sub(rule.least.into()) {
            Some(more) if more <= rule.span.into() => match is_fresh {
                true if is_within(rule, &packet[item.place..item.place + item.length]) => {
                    return Ok(item)
                }
                true => 14,
                false => 13,
            },
            _ if item.length == 0 && may_be_withdrawn(item.tag) => {
                self.withdrawn[word] |= bit;
                if is_fresh {
                    return Ok(item);
                }
                13
            }
            _ => 12,
        };
        self.fault.get_or_insert(refusal(number, start, item.tag));
        Ok(item)
    }
}

/// Whether a value of a right length is none that is refused by its code. Bytes compare as the numbers that they are.
fn is_within(rule: Rule, value: &[u8]) -> bool {
    match rule.form {
        EXTENDED => value <= &HIGHEST[..value.len()],
        _ => value[0] <= rule.top,
    }
}

/// Checks a packet in one pass and hands each item on with its number.
#[inline(always)]
fn walk(
    packet: &[u8],
    low: u64,
    high: u64,
    mut keep: impl FnMut(usize, Item),
) -> Result<Accepted, Refusal> {
    let body = body(packet)?;
    let mut known = Known {
        knowing: [low, high, 0, 0],
        awaited: [low, high, 0, 0],
        withdrawn: [0; 2],
        fault: None,
    };
    let (mut count, mut place, mut last) = (0, body, body);
    while place < packet.len() {
        if count == MOST_ITEMS {
            return Err(refusal(6, place, 0));
        }
        let item = match known.plain_item(packet, place) {
            Some(item) => item,
            None => known.any_item(packet, place)?,
        };
        keep(count, item);
        count += 1;
        last = place;
        place = item.place + item.length;
    }
    ends(packet, body, last)?;
    let [low_left, high_left, ..] = known.awaited;
    match known.fault {
        Some(fault) => Err(fault),
        None if high_left & 2 != 0 => Err(refusal(15, 0, 0)),
        None => Ok(Accepted {
            count,
            present: [low ^ low_left, high ^ high_left],
            withdrawn: known.withdrawn,
        }),
    }
}

/// The first item, the last one and the checksum of a packet that is all items.
#[inline(always)]
fn ends(packet: &[u8], body: usize, last: usize) -> Result<(), Refusal> {
    if packet[body..].first() != Some(&2) {
        let tag = tag(&packet[body..]).map_or(0, |(tag, _)| tag);
        return Err(refusal(9, body, tag));
    }
    let last = next_item(packet, last)?;
    if last.tag != 1 || last.length != 2 {
        return Err(refusal(10, last.start, last.tag));
    }
    let (summed, stored) = packet.split_at(last.place);
    if checksum(summed).to_be_bytes() != stored {
        return Err(refusal(11, last.place, 1));
    }
    Ok(())
}

/// How many items an accepted packet has, and which known ones.
#[inline(never)]
pub fn check(packet: &[u8], low: u64, high: u64) -> Result<Accepted, Refusal> {
    if !good(low, high) {
        return Err(refusal(1, 0, 0));
    }
    walk(packet, low, high, |_, _| {})
}

/// Whether the words have a bit for the tag.
#[inline(never)]
pub fn has(present: [u64; 2], tag: u64) -> bool {
    tag < 128 && present[(tag / 64) as usize] >> (tag % 64) & 1 == 1
}

/// Fills the first 512 words of the table with the rows of an accepted packet, and answers as check does.
#[inline(never)]
pub fn read(packet: &[u8], low: u64, high: u64, table: &mut [u64]) -> Result<Accepted, Refusal> {
    if !good(low, high) {
        return Err(refusal(1, 0, 0));
    }
    let table = table.get_mut(..TABLE_WORDS).ok_or(refusal(2, 0, 0))?;
    let mut items = [(0u32, 0u32); MOST_ITEMS];
    let accepted = walk(packet, low, high, |n, item| {
        items[n] = (item.tag as u32, (item.place << 16 | item.length) as u32);
    })?;
    let knowing = [low, high];
    let (rows, rest) = table.split_at_mut(4 * accepted.count);
    for (row, &(tag, span)) in rows.chunks_exact_mut(4).zip(&items) {
        let (kind, code) = content(packet, &knowing, tag, span);
        row.copy_from_slice(&[tag.into(), kind.into(), code, span.into()]);
    }
    rest.fill(0);
    Ok(accepted)
}

/// Kind and code of an accepted item.
#[inline(always)]
fn content(packet: &[u8], knowing: &[u64; 2], tag: u32, span: u32) -> (u8, u64) {
    if tag > 127 || knowing[(tag >> 6) as usize] >> (tag & 63) & 1 == 0 {
        return (CARRIED, 0);
    }
    let (place, length) = ((span >> 16) as usize, (span & 0xFFFF) as usize);
    if length == 0 {
        return (WITHDRAWN, 0);
    }
    let form = CATALOGUE[tag as usize].form;
    if form == TEXT {
        return (TEXT, 0);
    }
    // The key stands before every value, so the eight bytes that end with a number are always there.
    let end = place + length;
    let bytes = packet[end - 8..end].try_into().unwrap_or_default();
    let shift = 64 - 8 * length as u32;
    let top = u64::from_be_bytes(bytes) << shift;
    let is_mark = form == NUMBER_OR_MARK && top == 1 << 63;
    (1 + u8::from(is_mark), top >> shift)
}

/// The number of bytes of a length in its shortest form.
fn length_bytes(length: usize) -> usize {
    match length {
        0..=0x7F => 1,
        0x80..=0xFF => 2,
        _ => 3,
    }
}

/// Writes a length in its shortest form and answers the place after it.
fn put_length(out: &mut [u8], at: usize, length: usize) -> usize {
    let [high, low] = (length as u16).to_be_bytes();
    match length_bytes(length) {
        1 => out[at] = low,
        2 => out[at..at + 2].copy_from_slice(&[0x81, low]),
        _ => out[at..at + 3].copy_from_slice(&[0x82, high, low]),
    }
    at + length_bytes(length)
}

/// Sends an accepted packet on: every item in its order, lengths in their shortest form, the checksum afresh.
#[inline(never)]
pub fn forward(packet: &[u8], low: u64, high: u64, out: &mut [u8]) -> Result<usize, Refusal> {
    if !good(low, high) {
        return Err(refusal(1, 0, 0));
    }
    let (mut body, mut spare) = (packet.len(), 0);
    walk(packet, low, high, |n, item| {
        body = if n == 0 { item.start } else { body };
        spare += item.spare;
    })?;
    let items_size = packet.len() - body - spare;
    let size = 16 + length_bytes(items_size) + items_size;
    let out = out.get_mut(..size).ok_or(refusal(18, 0, 0))?;
    if size == packet.len() {
        out.copy_from_slice(packet);
    } else {
        shorten(packet, body, items_size, out);
    }
    Ok(size)
}

/// Copies an accepted packet in runs that end where a length has a shorter form.
fn shorten(packet: &[u8], body: usize, items_size: usize, out: &mut [u8]) {
    out[..16].copy_from_slice(&KEY);
    let mut at = put_length(out, 16, items_size);
    let (mut run, mut place) = (body, body);
    while let Ok(item) = next_item(packet, place) {
        if item.spare > 0 {
            let tag_end = item.place - length_bytes(item.length) - item.spare;
            at = put(out, at, &packet[run..tag_end]);
            at = put_length(out, at, item.length);
            run = item.place;
        }
        place = item.place + item.length;
    }
    put(out, at, &packet[run..]);
    let (summed, sum) = out.split_at_mut(out.len() - 2);
    sum.copy_from_slice(&checksum(summed).to_be_bytes());
}

fn put(out: &mut [u8], at: usize, bytes: &[u8]) -> usize {
    out[at..at + bytes.len()].copy_from_slice(bytes);
    at + bytes.len()
}
