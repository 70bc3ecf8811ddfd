//! The documents' worked values: product and twin both answer them.

use oysterknoll::LONGEST_LISTING;

use crate::bench::must_hold;
use crate::catalogue::{form, Form, ALL, SMALLEST};
use crate::compare::{Comparer, LAST_REFUSAL};
use crate::conversions::{scaled, Told};
use crate::make::repair_checksum;
use crate::twin::{Twin, CARRIED, MARK, READING, TEXT, WITHDRAWN};
use crate::twin_records::Record;
use crate::twin_write::Rows;
use crate::wire::{length_at, put_length, put_tag, tag_at, KEY, MOST_BYTES};

/// Tag, length, code and value.
const TO_HOUSE: [(u64, usize, u64, i64); 24] = [
    (18, 4, 0x724A_0A20, 1_607_192_114),
    (19, 4, 0x87F8_4B86, -1_687_923_248),
    (21, 4, 0x0383_0926, 68_590_983),
    (67, 4, 0x85A1_5A39, -860_412_073),
    (64, 2, 0xDDC5, 3_118_681_621),
    (26, 2, 0x8001, -750_000),
    (26, 2, 0x7FFF, 750_000),
    (26, 2, 0x0001, 23),
    (39, 1, 0x80, -128_000),
    (15, 2, 0x0000, -900_000),
    (15, 2, 0xFFFF, 19_000_000),
    (57, 4, 0xFFFF_FFFF, 5_000_000_000),
    (103, 3, 0x2F_921E, 23_456_234),
    (104, 3, 0x2F_921E, 23_456_234),
    (105, 3, 0x2F_921E, 23_456_234),
    (104, 2, 0, -900_000),
    (104, 2, 1, -898_000),
    (104, 2, 0x4FE2, 40_000_000),
    (104, 3, 0x4F_E200, 40_000_000),
    (104, 4, 0x4FE2_0000, 40_000_000),
    // Ties go upward, below zero too: -899,937.5 and -899,812.5 mm, and 62.5 mm.
    (104, 3, 8, -899_937),
    (104, 3, 24, -899_812),
    (104, 4, 2_048, -899_937),
    (104, 3, 115_208, 63),
];

/// Tag, length, value and code.
const TO_CODE: [(u64, usize, i64, u64); 12] = [
    (36, 1, 10_000, 26),
    (36, 1, 9_999, 25),
    (26, 2, -375_000, 0xC000),
    (39, 1, -127_500, 0x80),
    (39, 1, -128_000, 0x80),
    // The code at or below.
    (104, 3, 23_456_240, 0x2F_921E),
    (104, 3, 23_456_234, 0x2F_921D),
    (104, 2, -898_001, 0),
    (104, 2, -898_000, 1),
    (104, 2, 39_999_999, 0x4FE1),
    (104, 3, 40_000_000, 0x4F_E200),
    (104, 4, -899_999, 32),
];

#[test]
fn worked_conversions() {
    let mut comparer = Comparer::new(Twin::TRUE);
    for (tag, length, code, value) in TO_HOUSE {
        must_hold(comparer.house_of(tag, length, code));
        assert_eq!(oysterknoll::to_house(tag, length, code), Ok(value));
    }
    for (tag, length, value, code) in TO_CODE {
        must_hold(comparer.code_of(tag, length, value));
        assert_eq!(oysterknoll::to_code(tag, length, value), Ok(code));
    }
    must_hold(comparer.house_of(26, 2, 0x8000));
    assert_eq!(comparer.tally.refusals[20], 1);
}

#[test]
fn worked_lengths_and_tags() {
    assert_eq!(length_at(&[0x7F]), Some((127, 1)));
    assert_eq!(length_at(&[0x81, 0x7F]), Some((127, 2)));
    assert_eq!(length_at(&[0x80]), None);
    assert_eq!(length_at(&[0x85, 0, 0, 0, 0, 1]), None);
    assert_eq!(tag_at(&[0x81, 0x00]), Some((128, 2)));
    assert_eq!(tag_at(&[0x80, 0x05]), None);
}

pub type Items = Vec<(u64, Vec<u8>)>;

/// A packet of these items and the checksum.
pub fn packet_of(items: &Items) -> Vec<u8> {
    packet_in_forms(items, 0)
}

/// The same, each item's length with at least so many bytes after its first.
pub fn packet_in_forms(items: &Items, at_least: usize) -> Vec<u8> {
    let mut body = Vec::new();
    for (tag, value) in items {
        put_tag(&mut body, *tag);
        put_length(&mut body, value.len(), at_least);
        body.extend_from_slice(value);
    }
    body.extend_from_slice(&[1, 2, 0, 0]);
    let mut packet = KEY.to_vec();
    put_length(&mut packet, body.len(), 0);
    packet.extend_from_slice(&body);
    repair_checksum(&mut packet);
    packet
}

/// The items of the worked packet but for its checksum.
pub fn worked_items() -> Items {
    vec![(2, vec![0, 0, 0, 0, 0, 0, 0, 1]), (65, vec![17])]
}

#[test]
fn worked_packet() {
    let packet = packet_of(&worked_items());
    assert_eq!(packet[packet.len() - 4..], [1, 2, 0x62, 0xA6]);
    let lines = [
        "place\ttag\tkind\tvalue\n",
        "19\t2\tnumber\t1\n",
        "29\t65\tnumber\t17\n",
        "32\t1\tnumber\t25254\n",
    ];
    assert_eq!(Twin::TRUE.listing(&packet), Ok(lines.concat()));
    let verdict = Comparer::new(Twin::TRUE).list(&packet, |needed| needed);
    must_hold(verdict);
}

/// The refusal's number of the worked packet with more items, 0 if accepted.
fn refusal_with(tag: u64, value: &[u8], times: usize) -> usize {
    let mut items = worked_items();
    items.resize(items.len() + times, (tag, value.to_vec()));
    let mut comparer = Comparer::new(Twin::TRUE);
    must_hold(comparer.read(&packet_of(&items), ALL, 512));
    the_refusal(&comparer)
}

/// The number of the refusal that came, 0 if none did.
fn the_refusal(comparer: &Comparer) -> usize {
    let refusals = comparer.tally.refusals;
    let came = (1..=LAST_REFUSAL).find(|&number| refusals[number] > 0);
    came.unwrap_or(0)
}

/// A text of 0 bytes is withdrawn since W-204, and was refused by 12 before.
#[test]
fn worked_limits() {
    for (length, refusal) in [(0, 0), (1, 0), (127, 0), (128, 12)] {
        assert_eq!(refusal_with(3, &[7; 128][..length], 1), refusal);
    }
    assert_eq!(refusal_with(40, &[], 125), 0);
    assert_eq!(refusal_with(40, &[], 126), 6);
    assert_eq!(refusal_with(63, &[8], 1), 0);
    assert_eq!(refusal_with(63, &[9], 1), 14);
}

/// A carried item sets no bit, whether the catalogue has it or not.
#[test]
fn worked_words() {
    let mut items = worked_items();
    items.extend([(23, vec![0; 4]), (40, vec![7]), (128 + 24, vec![7])]);
    let packet = packet_of(&items);
    let centre = 1 << 23;
    for (set, words) in [(ALL, SMALLEST | centre), (ALL & !centre, SMALLEST)] {
        let rows = Twin::TRUE.read(&packet, set, None);
        assert_eq!(rows.map(|rows| Twin::TRUE.words_of(&rows)), Ok(words));
        must_hold(Comparer::new(Twin::TRUE).check(&packet, set));
    }
}

/// The refusal's number of the worked packet's rows with item 23 so many times, the writer being handed these words.
fn refusal_handed(words: u128, times: usize) -> usize {
    let mut rows = vec![[2, READING, 1, 8], [65, READING, 17, 1]];
    rows.resize(2 + times, [23, READING, 0, 4]);
    rows.push([1, READING, 0, 2]);
    let lent = Rows {
        words: rows.as_flattened(),
        count: rows.len(),
        buffer: &[],
        set: ALL,
    };
    let mut comparer = Comparer::new(Twin::TRUE);
    must_hold(comparer.write_with(lent, words, |needed| needed));
    the_refusal(&comparer)
}

/// Words with a bit too many or too few disagree; those of a tag that stands twice are its bit set once.
#[test]
fn worked_words_handed() {
    let centre = 1 << 23;
    for (times, bit, refusal) in [(0, 0, 0), (1, centre, 0), (2, centre, 13)] {
        assert_eq!(refusal_handed(SMALLEST | bit, times), refusal);
        for wrong in [centre, 1, 1 << 40, 1 << 65, 1 << 127] {
            assert_eq!(refusal_handed((SMALLEST | bit) ^ wrong, times), 22);
        }
    }
}

fn number(tag: u64, kind: u64, code: u64) -> Record<'static> {
    Record {
        tag,
        kind,
        code,
        length: form(tag).and_then(Form::bytes).unwrap_or(0),
        value: &[],
    }
}

/// A reading of so many bytes.
fn reading_of(length: usize, tag: u64, code: u64) -> Record<'static> {
    Record {
        length,
        ..number(tag, READING, code)
    }
}

fn part(tag: u64, kind: u64, length: usize) -> Record<'static> {
    Record {
        value: &[7; 65_536][..length],
        ..number(tag, kind, 0)
    }
}

/// The worked packet's records with others among them.
fn worked_records_with(other: Record<'static>, times: usize) -> Vec<Record<'static>> {
    let mut records = vec![number(2, READING, 1), number(65, READING, 17)];
    records.resize(2 + times, other);
    // The writer works the checksum out, so no code of its row is wrong.
    records.push(number(1, READING, u64::MAX));
    records
}

#[test]
fn worked_records() {
    let records = worked_records_with(part(40, CARRIED, 0), 0);
    let packet = packet_of(&worked_items());
    assert_eq!(Twin::TRUE.written_records(&records, ALL), Ok(packet));
    must_hold(Comparer::new(Twin::TRUE).write_rows(&records, ALL, |needed| needed));
    let cases = [
        (part(40, CARRIED, 0), 125, 0),
        (part(40, CARRIED, 0), 126, 16),
        (part(40, CARRIED, 65_535), 1, 3),
        (part(40, CARRIED, 65_536), 1, 17),
        (part(3, TEXT, 0), 1, 17),
        (part(3, WITHDRAWN, 0), 1, 0),
        (part(3, WITHDRAWN, 0), 2, 13),
        (part(3, TEXT, 127), 1, 0),
        (part(3, TEXT, 128), 1, 12),
        (part(3, CARRIED, 1), 1, 17),
        (number(63, READING, 8), 1, 0),
        (number(63, READING, 9), 1, 14),
        (number(63, READING, 256), 1, 17),
        (number(26, MARK, 0), 1, 0),
        (number(26, READING, 0x8000), 1, 17),
        (number(39, MARK, 0), 1, 17),
        (number(39, READING, 0x80), 1, 0),
        (reading_of(2, 39, 0x80), 1, 17),
        (reading_of(3, 104, 0x4F_E200), 1, 0),
        (reading_of(3, 104, 0x4F_E201), 1, 14),
        (reading_of(3, 104, 0x100_0000), 1, 17),
        (reading_of(5, 104, 0), 1, 17),
        (number(104, MARK, 0), 1, 17),
    ];
    for (other, times, refusal) in cases {
        let records = worked_records_with(other, times);
        let mut comparer = Comparer::new(Twin::TRUE);
        must_hold(comparer.write_rows(&records, ALL, |needed| needed));
        let tag = other.tag;
        assert_eq!(the_refusal(&comparer), refusal, "tag {tag}");
    }
}

/// The value with which an item makes the listing longest, of those at the ends and none: "withdrawn" has three letters more than "number",
/// and leaves its bytes to the carried item, of which each is listed by two digits.
fn longest_value(told: Told) -> Vec<u8> {
    let Told { tag, length, scale } = told;
    let end = if scale.signed { scale.low } else { scale.high };
    if end.to_string().len() < 3 + 2 * length {
        return Vec::new();
    }
    let code = Twin::TRUE.to_code(tag, length, end);
    let bytes = code.expect("an end has a code").to_be_bytes();
    bytes[8 - length..].to_vec()
}

/// All scaled items at their longest, the others withdrawn, and carried ones up to 128 items, from place 1,000 on but for two.
fn items_of_the_longest_listing() -> Items {
    let long = MOST_BYTES - 1_000;
    let mut items = vec![
        (2, vec![0xFF; 8]),
        (100, vec![0xAC; long]),
        (65, vec![0xFF]),
    ];
    // An extended height lists the same at its end whatever its length: the shortest leaves the most room.
    let longest = scaled(32).filter(|told| !told.scale.extended || told.length == 2);
    items.extend(longest.map(|told| (told.tag, longest_value(told))));
    // An empty item is listed longer by withdrawn than by carried, if its tag has two digits.
    items.extend([10, 11, 12, 34, 59, 63, 70].map(|tag| (tag, Vec::new())));
    items.resize(127, (100, Vec::new()));
    let room = MOST_BYTES - packet_of(&items).len();
    items[1].1.resize(long + room, 0xAC);
    items
}

#[test]
fn longest_listing() {
    let packet = packet_of(&items_of_the_longest_listing());
    assert_eq!(packet.len(), MOST_BYTES);
    let mut comparer = Comparer::new(Twin::TRUE);
    must_hold(comparer.list(&packet, |needed| needed));
    must_hold(comparer.list(&packet, |needed| needed - 1));
    let length = Twin::TRUE.listing(&packet).map(|listing| listing.len());
    assert_eq!(length, Ok(18_249));
    const { assert!(LONGEST_LISTING >= 18_249) };
}
