//! The extended heights, 103 to 105: their scale by the length, in conversions, packets and rows.

use super::writing::{reading, refused_within, row, within, written};
use super::{refused, sample};
use oysterknoll::Content::{Carried, Mark};
use oysterknoll::*;

const TAGS: [u64; 3] = [103, 104, 105];

/// The highest code of each length, and the one that 39,999.999 m is sent as.
const LAST: [(usize, u64, u64); 3] = [
    (2, 0x4fe2, 0x4fe1),
    (3, 0x4f_e200, 0x4f_e1ff),
    (4, 0x4fe2_0000, 0x4fe1_ffdf),
];

/// A receiver that is older than the extended heights.
fn older() -> Knowing {
    TAGS.into_iter().fold(Knowing::ALL, Knowing::without)
}

/// A packet with this item, of so many bytes: the older receiver writes any.
fn packet_with(tag: u64, code: u64, length: usize) -> Vec<u8> {
    let bytes = code.to_be_bytes();
    let height = row(tag, Carried(&bytes[8 - length..]));
    written(&within(&[height]), older())
}

/// Document 001's example of all three, with document 02's value.
#[test]
fn the_standards_examples_are_turned_both_ways() {
    for tag in TAGS {
        assert_eq!(to_house(tag, 3, 0x2f_921e), Ok(23_456_234));
        assert_eq!(to_code(tag, 3, 23_456_240), Ok(0x2f_921e));
        // Its exact value is 23,456,234.375 mm, and was rounded down.
        assert_eq!(to_code(tag, 3, 23_456_234), Ok(0x2f_921d));
    }
}

#[test]
fn each_length_has_its_own_scale() {
    for (length, last, below) in LAST {
        for tag in TAGS {
            assert_eq!(to_house(tag, length, 0), Ok(-900_000));
            assert_eq!(to_house(tag, length, last), Ok(40_000_000));
            assert_eq!(to_code(tag, length, -900_000), Ok(0));
            assert_eq!(to_code(tag, length, 40_000_000), Ok(last));
            assert_eq!(to_code(tag, length, 39_999_999), Ok(below));
            assert_eq!(refused(to_house(tag, length, last + 1)), (20, 0, tag));
            assert_eq!(refused(to_house(tag, length, u64::MAX)), (20, 0, tag));
            assert_eq!(refused(to_code(tag, length, -900_001)), (21, 0, tag));
            assert_eq!(refused(to_code(tag, length, 40_000_001)), (21, 0, tag));
        }
    }
}

#[test]
fn another_length_has_no_scale() {
    for length in [0, 1, 5, 8, 258, usize::MAX] {
        for tag in TAGS {
            assert_eq!(refused(to_house(tag, length, 0)), (19, 0, tag));
            assert_eq!(refused(to_house(tag, length, u64::MAX)), (19, 0, tag));
            assert_eq!(refused(to_code(tag, length, 0)), (19, 0, tag));
            assert_eq!(refused(to_code(tag, length, i64::MAX)), (19, 0, tag));
        }
        // Where it is not asked, any will do.
        assert_eq!(to_house(64, length, 0xddc5), Ok(3_118_681_621));
        assert_eq!(to_code(36, length, 10_000), Ok(26));
    }
}

#[test]
fn a_tie_goes_upward() {
    // 62.5 mm over the low end, 62.5 mm under zero, 62.5 mm over it.
    let ties = [(8, -899_937), (115_192, -62), (115_208, 63)];
    for (code, value) in ties {
        assert_eq!(to_house(104, 3, code), Ok(value));
        assert_eq!(to_house(104, 4, code << 8), Ok(value));
        assert_eq!(to_house(104, 4, (code << 8) - 1), Ok(value - 1));
    }
}

#[test]
fn packets_with_them_are_judged_by_who_knows_them() {
    let all = |packet: &[u8]| refused(check(packet, Knowing::ALL));
    for tag in TAGS {
        for length in [1, 5, 6, 7, 8] {
            let packet = packet_with(tag, 0, length);
            assert_eq!(all(&packet), (12, 30, tag));
            assert!(check(&packet, older()).is_ok());
        }
        for (length, last, _) in LAST {
            let packet = packet_with(tag, last, length);
            assert!(check(&packet, Knowing::ALL).unwrap().present.has(tag));
            assert!(!check(&packet, older()).unwrap().present.has(tag));
            let beyond = packet_with(tag, last + 1, length);
            assert_eq!(all(&beyond), (14, 30, tag));
            assert!(check(&beyond, older()).is_ok());
        }
    }
}

#[test]
fn a_row_of_them_is_bad_by_its_length_or_width_only() {
    for tag in TAGS {
        for (length, last, _) in LAST {
            let of = |code| refused_within(&[row(tag, reading(code, length))]);
            assert_eq!(of(last + 1), (14, 2, tag));
            assert_eq!(of((1 << (8 * length)) - 1), (14, 2, tag));
            assert_eq!(of(1 << (8 * length)), (17, 2, tag));
        }
        for length in [0, 1, 5, 8, 65_536 + 3, usize::MAX] {
            let rows = [row(tag, reading(0, length))];
            assert_eq!(refused_within(&rows), (17, 2, tag));
        }
        assert_eq!(refused_within(&[row(tag, Mark)]), (17, 2, tag));
        assert_eq!(refused_within(&[row(tag, Carried(&[0; 2]))]), (17, 2, tag));
    }
}

/// The value of the row with this tag.
fn value(packet: &[u8], tag: u64) -> Option<i64> {
    let mut rows = items(packet, Knowing::ALL).unwrap();
    rows.find(|row| row.tag == tag).unwrap().value()
}

#[test]
fn a_rows_value_goes_by_its_length() {
    for (length, last, below) in LAST {
        assert_eq!(
            value(&packet_with(104, last, length), 104),
            Some(40_000_000)
        );
        let back = to_house(104, length, below).unwrap();
        assert_eq!(value(&packet_with(104, below, length), 104), Some(back));
    }
    let newer = sample("tower_extended");
    let values = [103, 104, 105, 75, 15].map(|tag| value(&newer, tag));
    let heights = [76_000, 690_063, 1_249_999, 689_935, 641_958];
    assert_eq!(values, heights.map(Some));
    // A number without scale, a mark, a text and a carried item.
    assert_eq!([65, 82, 3, 107].map(|tag| value(&newer, tag)), [None; 4]);
    // A code that is no number of the item has no value, whoever put it there.
    assert_eq!(row(104, reading(0x4fe3, 2)).value(), None);
    assert_eq!(row(104, reading(0x4fe2, 5)).value(), None);
    assert_eq!(row(26, reading(0x8000, 2)).value(), None);
}

#[test]
fn an_older_receiver_hands_them_on() {
    let newer = sample("tower_extended");
    for knowing in [Knowing::ALL, older(), Knowing::LEAST] {
        let mut out = [0; LONGEST_PACKET];
        let size = forward(&newer, knowing, &mut out).unwrap();
        assert_eq!(out[..size], newer);
    }
    let carried = items(&newer, older())
        .unwrap()
        .filter(|row| TAGS.contains(&row.tag));
    let bytes: [&[u8]; 3] = [b"\x01\xe8", b"\x03\x1b\x08", b"\x04\x32\xff\xdf"];
    assert!(carried
        .map(|row| row.content)
        .eq(bytes.into_iter().map(Carried)));
}
