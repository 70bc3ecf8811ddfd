//! Packets built from rows: the same answers as the writer's over words.

use super::walk::RECEIVERS;
use super::{accepted, count, refused, sample};
use oysterknoll::Content::{Carried, Mark, Text};
use oysterknoll::*;

pub fn row(tag: u64, content: Content) -> Row {
    Row { tag, content }
}

/// A number by its code and its length.
pub fn reading(code: u64, length: usize) -> Content<'static> {
    Content::Reading { code, length }
}

/// Time stamp, version and checksum.
const TIME: Row = Row {
    tag: 2,
    content: Content::Reading { code: 1, length: 8 },
};
const VERSION_17: Row = Row {
    tag: 65,
    content: Content::Reading {
        code: 17,
        length: 1,
    },
};
const SUM: Row = Row {
    tag: 1,
    content: Content::Reading { code: 0, length: 2 },
};

/// These rows after time stamp and version and before the checksum.
pub fn within<'a>(rows: &[Row<'a>]) -> Vec<Row<'a>> {
    let mut all = vec![TIME, VERSION_17];
    all.extend(rows);
    all.push(SUM);
    all
}

/// What is refused of all of these rows. No byte of the output changes.
fn refused_all(rows: &[Row], knowing: Knowing) -> (u64, usize, u64) {
    let mut out = [0xee; LONGEST_PACKET];
    let refusal = refused(write_rows(rows, knowing, &mut out));
    assert_eq!(out, [0xee; LONGEST_PACKET]);
    refusal
}

/// What is refused of these rows with those that every packet has around them.
pub fn refused_within(rows: &[Row]) -> (u64, usize, u64) {
    refused_all(&within(rows), Knowing::ALL)
}

/// The packet of these rows, in an output with room to spare, which stays.
pub fn written(rows: &[Row], knowing: Knowing) -> Vec<u8> {
    let mut out = [0xee; LONGEST_PACKET + 1];
    let size = write_rows(rows, knowing, &mut out).unwrap();
    assert!(out[size..].iter().all(|byte| *byte == 0xee));
    out[..size].to_vec()
}

#[test]
fn rows_are_written_as_their_words_are() {
    for packet in accepted() {
        for knowing in RECEIVERS {
            let rows: Vec<Row> = items(&packet, knowing).unwrap().collect();
            let mut sent = [0; LONGEST_PACKET];
            let size = forward(&packet, knowing, &mut sent).unwrap();
            assert_eq!(written(&rows, knowing), sent[..size]);
        }
    }
}

#[test]
fn the_smallest_packet_is_built_whatever_the_checksum_row_says() {
    for code in [0, 0x62a6, u64::MAX] {
        let rows = [TIME, VERSION_17, row(1, reading(code, 2))];
        assert_eq!(written(&rows, Knowing::ALL), sample("smallest"));
    }
}

#[test]
fn what_was_built_is_read_back() {
    let name = b"OYSTER".to_vec();
    let inside = [
        row(26, Mark),
        row(82, Mark),
        row(39, reading(0x80, 1)),
        row(103, reading(0x4fe2, 2)),
        row(104, reading(0x2f_921e, 3)),
        row(105, reading(0, 4)),
        row(3, Text(&name)),
        row(4, Text(&name[2..])),
        row(100, Carried(&name[..4])),
        row(100, Carried(&[])),
        row(2_097_151, Carried(&name)),
        row(128, Carried(&[])),
    ];
    let packet = written(&within(&inside), Knowing::ALL);
    let back: Vec<Row> = items(&packet, Knowing::ALL).unwrap().collect();
    assert_eq!(back[2..14], inside);
    assert_eq!(back.len(), 15);
}

#[test]
fn a_row_that_is_bad_gets_17_with_its_number_and_tag() {
    let bad = [
        (13, reading(1 << 32, 4)),
        (13, reading(0x8000_0000, 4)), // the mark's code is no reading
        (13, reading(1, 3)),
        (13, reading(1, 65_536 + 4)),
        (13, reading(1, usize::MAX)),
        (8, Mark),
        (39, Mark),
        (2, Mark),
        (3, Mark),
        (3, reading(1, 1)),
        (3, Text(&[])),
        (3, Carried(b"EO")),
        (5, Text(b"EO")),
        (5, Carried(b"EO")),
        (40, reading(1, 1)),
        (40, Mark),
        (40, Text(b"EO")),
        (2_097_151, reading(0, 0)),
    ];
    for (tag, content) in bad {
        let rows = [row(12, Text(b"fine")), row(tag, content)];
        assert_eq!(refused_within(&rows), (17, 3, tag), "{:?}", rows[1]);
    }
    for tag in [0, 2_097_152, u64::MAX] {
        assert_eq!(refused_within(&[row(tag, Carried(&[]))]), (17, 2, 0));
    }
    // A receiver that does not know item 13 has to carry it.
    let known = within(&[row(13, reading(1, 4))]);
    assert_eq!(refused_all(&known, Knowing::LEAST.with(3)), (17, 2, 13));
}

#[test]
fn a_value_without_a_row_in_words_is_bad() {
    let long = vec![0; 65_536];
    assert_eq!(refused_within(&[row(40, Carried(&long))]), (17, 2, 40));
    assert_eq!(refused_within(&[row(3, Text(&long))]), (17, 2, 3));
    assert_eq!(refused_within(&[row(40, Carried(&long[1..]))]), (3, 0, 0));
    // The first bad row is the one that is told.
    let first = [row(41, Mark), row(40, Carried(&long))];
    assert_eq!(refused_within(&first), (17, 2, 41));
    let later = [row(40, Carried(&long)), row(41, Mark)];
    assert_eq!(refused_within(&later), (17, 2, 40));
}

#[test]
fn a_packet_may_be_as_long_as_the_longest() {
    // Around the value: key 16, outer length 3, time stamp 10, version 3, tag and length 4, checksum 4.
    let bytes = [0xa5; LONGEST_PACKET];
    let room = LONGEST_PACKET - 40;
    let packet = written(&within(&[row(40, Carried(&bytes[..room]))]), Knowing::ALL);
    assert_eq!(packet.len(), LONGEST_PACKET);
    assert_eq!(count(&packet), Ok(4));
    let too_long = refused_within(&[row(40, Carried(&bytes[..=room]))]);
    assert_eq!(too_long, (3, 0, 0));
}

#[test]
fn values_that_are_too_long_together_are_refused_as_any_others() {
    let bytes = [0xa5; LONGEST_PACKET];
    let halves = [
        row(40, Carried(&bytes[..4_096])),
        row(41, Carried(&bytes[..4_096])),
    ];
    let beyond = [halves[0], halves[1], row(42, Carried(&bytes[..1]))];
    for rows in [&halves[..], &beyond] {
        assert_eq!(refused_within(rows), (3, 0, 0));
        let with_bad = [rows, &[row(43, Mark)]].concat();
        assert_eq!(refused_within(&with_bad), (17, 2 + rows.len(), 43));
        let no_set = Knowing::LEAST.without(65);
        assert_eq!(refused_all(&within(&with_bad), no_set), (1, 0, 0));
        // Size goes before the first row's tag and before the length of a text.
        assert_eq!(refused_all(rows, Knowing::ALL), (3, 0, 0));
        let with_text = [rows, &[row(3, Text(&bytes[..128]))]].concat();
        assert_eq!(refused_within(&with_text), (3, 0, 0));
    }
}

#[test]
fn rows_over_128_get_16() {
    let empty = row(40, Carried(&[]));
    let most = within(&[empty; 125]);
    assert_eq!(count(&written(&most, Knowing::ALL)), Ok(128));
    let long = [0; LONGEST_PACKET];
    for one in [empty, row(0, Mark), row(40, Carried(&long))] {
        for count in [126, 500] {
            let rows = within(&vec![one; count]);
            assert_eq!(refused_all(&rows, Knowing::ALL), (16, 0, 0));
            let no_set = Knowing::from_words(0, 0);
            assert_eq!(refused_all(&rows, no_set), (1, 0, 0));
        }
    }
}

#[test]
fn a_packet_that_would_be_wrong_is_refused_by_its_own_number() {
    let all = |rows: &[Row]| refused_all(rows, Knowing::ALL);
    assert_eq!(all(&[]), (9, 0, 0));
    assert_eq!(all(&[VERSION_17, TIME, SUM]), (9, 0, 65));
    assert_eq!(all(&[TIME, SUM, VERSION_17]), (10, 2, 65));
    assert_eq!(all(&[TIME, SUM]), (15, 0, 0));
    assert_eq!(refused_within(&[row(3, Text(&[b'x'; 128]))]), (12, 2, 3));
    let twice = [row(13, reading(1, 4)), row(13, Mark)];
    assert_eq!(refused_within(&twice), (13, 3, 13));
    assert_eq!(refused_within(&[row(34, reading(3, 1))]), (14, 2, 34));
    assert_eq!(refused_within(&[row(63, reading(9, 1))]), (14, 2, 63));
}

#[test]
fn an_output_without_room_is_left_as_it_was() {
    let rows = within(&[row(3, Text(b"EO"))]);
    let size = written(&rows, Knowing::ALL).len();
    let mut short = vec![7; size - 1];
    let refusal = refused(write_rows(&rows, Knowing::ALL, &mut short));
    assert_eq!(refusal, (18, 0, 0));
    assert!(short.iter().all(|byte| *byte == 7));
    assert_eq!(
        write_rows(&rows, Knowing::ALL, &mut vec![7; size]),
        Ok(size)
    );
    assert_eq!(
        refused(write_rows(&rows, Knowing::ALL, &mut [])),
        (18, 0, 0)
    );
}
