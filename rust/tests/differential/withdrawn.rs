//! The withdrawn items of W-204: an empty item of each tag in packets, tables and records, and what stands once.

use crate::bench::{must_hold, report, seed, Bench};
use crate::catalogue::{form, knows, tags_of, Form, ALL, SMALLEST};
use crate::compare::Comparer;
use crate::extended::{packet_agrees, receivers, rows_agree, with_item};
use crate::make::Maker;
use crate::random::Random;
use crate::twin::{refused, Refused, Row, Twin, CARRIED, READING, TEXT, WITHDRAWN};
use crate::twin_records::Record;
use crate::twin_write::Rows;
use crate::wire::{length_size, put_length, KEY, LAST_TAG};
use crate::worked::{packet_in_forms, packet_of, worked_items, Items};

/// The tags that may be withdrawn.
const OTHERS: u128 = ALL & !SMALLEST;

/// Tags that no receiver knows.
const UNKNOWN: [u64; 5] = [40, 127, 128, 128 + 23, LAST_TAG];

/// Where the third item of the worked packet with one item more starts, lengths being in their shortest form.
const THIRD: usize = 30;

impl Maker {
    /// Whether an item that is about to be made is withdrawn: now and then, if it may be.
    pub fn is_withdrawn(&mut self, tag: u64) -> bool {
        let may_be = form(tag).is_some() && Twin::TRUE.may_be_withdrawn(tag);
        may_be && self.random.one_in(12)
    }
}

/// The third row of a packet, all others being as in the worked one.
fn third_row(packet: &[u8], set: u128) -> Result<Row, Refused> {
    let rows = Twin::TRUE.read(packet, set, None)?;
    let row = rows[2];
    let withdrawn = u128::from(row.kind == WITHDRAWN) << (row.tag % 128);
    assert_eq!(Twin::TRUE.withdrawn_of(&rows), withdrawn);
    assert_eq!(Twin::TRUE.words_of(&rows), SMALLEST | withdrawn);
    Ok(row)
}

/// Its length in every form, by receivers that know it and by those that do not and carry it.
#[test]
fn an_empty_item_of_every_tag() {
    let mut comparer = Comparer::new(Twin::TRUE);
    for tag in tags_of(ALL) {
        for more in 0..=4 {
            let packet = packet_in_forms(&with_item(tag, &[]), more);
            let start = THIRD + 2 * more;
            let row = |kind| Row {
                tag,
                kind,
                code: 0,
                place: start + 2 + more,
                length: 0,
            };
            for set in receivers(tag).map(|set| set | SMALLEST) {
                let expected = match knows(set, tag) {
                    true if knows(SMALLEST, tag) => Err(refused(12, start, tag)),
                    true => Ok(row(WITHDRAWN)),
                    false => Ok(row(CARRIED)),
                };
                assert_eq!(third_row(&packet, set), expected);
                must_hold(packet_agrees(&mut comparer, &packet, set));
            }
        }
    }
    report("an empty item of every tag", &comparer.tally);
}

/// Nothing follows the last tab.
#[test]
fn a_withdrawn_item_is_listed_without_a_value() {
    let mut comparer = Comparer::new(Twin::TRUE);
    for tag in tags_of(OTHERS) {
        let packet = packet_of(&with_item(tag, &[]));
        must_hold(comparer.list(&packet, |needed| needed));
        must_hold(comparer.list(&packet, |needed| needed - 1));
        let listing = Twin::TRUE.listing(&packet).expect("a right packet");
        let line = format!("\n32\t{tag}\twithdrawn\t\n");
        assert!(listing.contains(&line), "{listing}");
    }
    report("withdrawn items listed", &comparer.tally);
}

/// Of 1, 2 and 65 where they have to stand; the last item is refused before its length is looked at as a known one's.
#[test]
fn what_every_packet_has_is_never_withdrawn() {
    let [time, version] = [0, 1].map(|n| worked_items()[n].clone());
    let body = [&[2, 8, 0, 0, 0, 0, 0, 0, 0, 1, 65, 1, 17][..], &[1, 0]].concat();
    let mut without_sum = KEY.to_vec();
    put_length(&mut without_sum, body.len(), 0);
    without_sum.extend_from_slice(&body);
    let cases = [
        (packet_of(&vec![(2, vec![]), version]), (12, 17, 2)),
        (packet_of(&vec![time.clone(), (65, vec![])]), (12, 27, 65)),
        (packet_of(&vec![time]), (15, 0, 0)),
        (without_sum, (10, THIRD, 1)),
    ];
    let mut comparer = Comparer::new(Twin::TRUE);
    for (packet, (number, place, tag)) in cases {
        for set in [ALL, SMALLEST] {
            must_hold(packet_agrees(&mut comparer, &packet, set));
            let read = Twin::TRUE.read(&packet, set, None);
            assert_eq!(read, Err(refused(number, place, tag)));
        }
    }
    report("never withdrawn", &comparer.tally);
}

/// The worked packet's rows with others among them, from the third on.
fn rows_with(others: &[[u64; 4]]) -> Vec<[u64; 4]> {
    [&[[2, 1, 1, 8], [65, 1, 17, 1]], others, &[[1, 1, 0, 2]]].concat()
}

/// The packet of these rows, or what they are refused by, in every form of the writer; the buffer has 16 bytes.
fn written(comparer: &mut Comparer, rows: &[[u64; 4]], set: u128) -> Result<Vec<u8>, Refused> {
    must_hold(rows_agree(comparer, rows, set));
    let lent = Rows {
        words: rows.as_flattened(),
        count: rows.len(),
        buffer: &[0x4F; 16],
        set,
    };
    Twin::TRUE.written(lent, None)
}

/// The receivers of a tag, which may be one that nobody knows.
fn good_receivers(tag: u64) -> [u128; 3] {
    receivers(tag % 128).map(|set| set | SMALLEST)
}

/// Neither code nor length, and any place: also beyond the buffer.
#[test]
fn a_withdrawn_row_of_every_tag() {
    let mut comparer = Comparer::new(Twin::TRUE);
    let (codes, lengths) = ([0, 1, u64::MAX], [0, 1, 2, 4, 8, 65_535]);
    let places = [0, 16, 17, 65_536, (1 << 48) - 1];
    for tag in tags_of(ALL).chain(UNKNOWN) {
        let packet = packet_of(&with_item(tag, &[]));
        for set in good_receivers(tag) {
            let may_be = knows(set, tag) && !knows(SMALLEST, tag);
            for (code, length) in codes.iter().flat_map(|&code| lengths.map(|l| (code, l))) {
                let expected = match may_be && code == 0 && length == 0 {
                    true => Ok(packet.clone()),
                    false => Err(refused(17, 2, tag)),
                };
                for place in places {
                    let row = [tag, WITHDRAWN, code, place << 16 | length];
                    let written = written(&mut comparer, &rows_with(&[row]), set);
                    assert_eq!(written, expected, "{row:?}");
                }
            }
        }
    }
    report("withdrawn rows of every tag", &comparer.tally);
}

/// A record has neither, whatever else it may hold.
#[test]
fn a_withdrawn_record_of_every_tag() {
    let mut comparer = Comparer::new(Twin::TRUE);
    let record = |(tag, kind, code, length)| Record {
        tag,
        kind,
        code,
        length,
        value: &[7; 3],
    };
    for tag in tags_of(ALL).chain(UNKNOWN) {
        let withdrawn = (tag, WITHDRAWN, 5, 65_536);
        let others = [(2, READING, 1, 8), (65, READING, 17, 1)];
        let records = [others[0], others[1], withdrawn, (1, READING, 0, 2)].map(record);
        for set in good_receivers(tag) {
            must_hold(comparer.write_rows(&records, set, |needed| needed));
            let expected = match knows(set & OTHERS, tag) {
                true => Ok(packet_of(&with_item(tag, &[]))),
                false => Err(refused(17, 2, tag)),
            };
            assert_eq!(Twin::TRUE.written_records(&records, set), expected);
        }
    }
    report("withdrawn records of every tag", &comparer.tally);
}

/// Of the rows without a byte the withdrawn ones are good, and where the tag is not known the carried ones: no number is, and no text.
#[test]
fn rows_without_a_byte_of_every_kind() {
    let mut comparer = Comparer::new(Twin::TRUE);
    for tag in tags_of(ALL).chain(UNKNOWN) {
        for (kind, set) in (0..=6).flat_map(|kind| good_receivers(tag).map(|set| (kind, set))) {
            let is_good = match kind {
                WITHDRAWN => knows(set & OTHERS, tag),
                CARRIED => !knows(set, tag),
                _ => false,
            };
            let row = [tag, kind, 0, 0];
            let written = written(&mut comparer, &rows_with(&[row]), set);
            let refusal = written.err().map(|refused| refused.number);
            assert_eq!(refusal, (!is_good).then_some(17), "{row:?}");
        }
    }
    report("rows without a byte", &comparer.tally);
    // A text that is too long is refused as before, by 12.
    let long = rows_with(&[[3, TEXT, 0, 128]]);
    let lent = Rows {
        words: long.as_flattened(),
        count: long.len(),
        buffer: &[7; 128],
        set: ALL,
    };
    must_hold(comparer.write(lent, |needed| needed));
    assert_eq!(Twin::TRUE.written(lent, None), Err(refused(12, 2, 3)));
}

/// A value that the item may have: code 0, or one byte of text.
pub fn value_of(tag: u64) -> Vec<u8> {
    let bytes = match form(tag) {
        Some(Form::Extended) => 2,
        Some(Form::Text) => 1,
        form => form.and_then(Form::bytes).unwrap_or(0),
    };
    vec![0; bytes]
}

/// Twice is twice, in either order: the place of 13 is the second one's start, or its row number.
#[test]
fn a_tag_stands_once_withdrawn_or_not() {
    let mut comparer = Comparer::new(Twin::TRUE);
    for tag in tags_of(OTHERS) {
        let read_and_withdrawn = [value_of(tag), vec![]];
        for (first, second) in [(0, 1), (1, 0), (1, 1)] {
            let [first, second] = [first, second].map(|n| read_and_withdrawn[n].clone());
            let start = THIRD + 2 + first.len();
            let two: Items = [first, second].map(|value| (tag, value)).into();
            let packet = packet_of(&[worked_items(), two].concat());
            for set in receivers(tag) {
                must_hold(packet_agrees(&mut comparer, &packet, set));
            }
            let read = |set| Twin::TRUE.read(&packet, set, None);
            assert_eq!(read(ALL), Err(refused(13, start, tag)));
            let carried = read(ALL & !(1 << tag)).expect("they are carried");
            assert!(carried[2..4].iter().all(|row| row.kind == CARRIED));
        }
        let kind = if form(tag) == Some(Form::Text) {
            TEXT
        } else {
            READING
        };
        let reading = [tag, kind, 0, value_of(tag).len() as u64];
        let withdrawn = [tag, WITHDRAWN, 0, 0];
        for two in [[reading, withdrawn], [withdrawn, reading], [withdrawn; 2]] {
            let written = written(&mut comparer, &rows_with(&two), ALL);
            assert_eq!(written, Err(refused(13, 3, tag)));
        }
    }
    report("withdrawn and read", &comparer.tally);
}

/// 12 comes before 13, and 13 before 14, also of a tag that was withdrawn before.
#[test]
fn a_second_one_is_judged_as_before() {
    let cases: [(u64, &[u8], u64); 7] = [
        (23, &[0; 3], 12),
        (3, &[7; 128], 12),
        (104, &[0; 5], 12),
        (34, &[3], 13),
        (63, &[9], 13),
        (104, &[0x4F, 0xE3], 13),
        (24, &[0x80, 0, 0, 0], 13),
    ];
    let mut comparer = Comparer::new(Twin::TRUE);
    for (tag, value, number) in cases {
        let two = vec![(tag, vec![]), (tag, value.to_vec())];
        let packet = packet_of(&[worked_items(), two].concat());
        must_hold(packet_agrees(&mut comparer, &packet, ALL));
        let read = Twin::TRUE.read(&packet, ALL, None);
        // The checksum's item has four bytes.
        let start = packet.len() - 4 - value.len() - length_size(value.len()) - 1;
        assert_eq!(read, Err(refused(number, start, tag)));
    }
}

/// What is made for the laws has withdrawn items, rows and records of every tag, and rows also of those that may not be.
#[test]
fn withdrawn_ones_of_every_tag_are_made() {
    let mut bench = Bench::new(Twin::TRUE);
    let [mut packets, mut tables, mut lists] = [0; 3];
    for case in 0..20_000 {
        bench.maker.random = Random::of_case(seed(), 0, case);
        bench.make_packet();
        let read = Twin::TRUE.read(&bench.packet, ALL, None);
        packets |= Twin::TRUE.withdrawn_of(&read.unwrap_or_default());
        bench.make_table();
        tables |= Twin::TRUE.withdrawn_of(&bench.table.lent().rows());
        bench.make_list();
        let records = bench.list.lent();
        let withdrawn = records.iter().filter(|record| record.kind == WITHDRAWN);
        let known = withdrawn.filter(|record| knows(ALL, record.tag));
        lists |= known.fold(0, |tags, record| tags | 1_u128 << record.tag);
    }
    assert_eq!((packets, tables & ALL, lists), (OTHERS, ALL, ALL));
}
