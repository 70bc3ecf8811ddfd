//! Which items are there, and the writer that is handed it.

use super::walk::RECEIVERS;
use super::{accepted, refused, sample};
use oysterknoll::*;

/// What check answers of an accepted packet.
fn present_of(packet: &[u8], knowing: Knowing) -> Present {
    check(packet, knowing).unwrap().present
}

/// Tags that no words have a bit for, among them some that a shift or a cut takes for 23.
const FAR: [u64; 7] = [
    128,
    128 + 23,
    300,
    1 << 32 | 23,
    1 << 63,
    u64::MAX - 104,
    u64::MAX,
];

#[test]
fn what_is_asked_of_the_words_is_what_a_scan_finds() {
    for packet in accepted() {
        for knowing in RECEIVERS {
            let mut table = [0; TABLE_WORDS];
            let rows = read(&packet, knowing, &mut table).unwrap();
            let present = rows.present();
            assert_eq!(present, present_of(&packet, knowing));
            let known = |row: &Row| !matches!(row.content, Content::Carried(_));
            let withdrawn = |row: &Row| row.content == Content::Withdrawn;
            for tag in (0..=300).chain(FAR) {
                let found = |is_one: &dyn Fn(&Row) -> bool| {
                    let mut of_tag = rows.iter().filter(|row| row.tag == tag);
                    of_tag.any(|row| is_one(&row))
                };
                assert_eq!(present.has(tag), found(&known), "tag {tag}");
                assert_eq!(rows.withdrawn().has(tag), found(&withdrawn), "tag {tag}");
                let has_value = found(&|row| known(row) && !withdrawn(row));
                assert_eq!(rows.has_value(tag), has_value, "tag {tag}");
            }
            assert_eq!(present.count(), rows.iter().filter(known).count());
            let count = rows.iter().filter(withdrawn).count();
            assert_eq!(rows.withdrawn().count(), count);
        }
    }
}

#[test]
fn words_of_the_samples() {
    let words = |name: &str| present_of(&sample(name), Knowing::ALL).words();
    assert_eq!(words("smallest"), (0b110, 0b10));
    // 1, 2, 23 to 33, 65.
    assert_eq!(words("offsets"), (0x3_ff80_0006, 0b10));
    // 1 to 3, 5 to 7, 11 to 37, 39, 56, 59, 63; 64, 65, 75, 78, 82 to 89.
    let tower = (0x8900_00bf_ffff_f8ee, 0x3fc_4803);
    assert_eq!(words("tower"), tower);
    assert_eq!(words("relayed"), tower);
    // And 103 to 105.
    let extended = (tower.0, tower.1 | 0x380_0000_0000);
    assert_eq!(words("tower_extended"), extended);
}

#[test]
fn a_carried_item_is_not_there() {
    let tower = sample("tower");
    let present = present_of(&tower, Knowing::ALL);
    // 100 and 107 are outside the catalogue; 28 and 82 are marks.
    assert!(!present.has(100) && !present.has(107));
    assert!(present.has(28) && present.has(82));
    assert_eq!(present.count(), 49);

    let old = present_of(&tower, Knowing::ALL.without(23).without(82));
    let lacks = present.tags().filter(|tag| !old.has(*tag));
    assert!(lacks.eq([23, 82]));
    assert_eq!(old.count(), 47);
    assert_eq!(
        present_of(&tower, Knowing::LEAST).words(),
        Knowing::LEAST.words()
    );
}

#[test]
fn words_have_a_bit_for_each_tag_below_128() {
    assert_eq!(Present::default(), Present::from_words(0, 0));
    for tag in 0..128 {
        let (low, high) = Knowing::from_words(0, 0).with(tag).words();
        let one = Present::from_words(low, high);
        assert_eq!(one.words(), (low, high));
        assert_eq!(one.count(), 1);
        assert!(one.tags().eq([tag]));
        assert!((0..=300).filter(|asked| one.has(*asked)).eq([tag]));
    }
    let every = Present::from_words(u64::MAX, u64::MAX);
    assert!((0..128).all(|tag| every.has(tag)));
    assert!(FAR.iter().all(|tag| !every.has(*tag)));
}

#[test]
fn tags_come_in_their_order_from_either_end() {
    let present = present_of(&sample("offsets"), Knowing::ALL);
    let tags: Vec<u64> = [1, 2].into_iter().chain(23..=33).chain([65]).collect();
    assert_eq!(present.tags().collect::<Vec<_>>(), tags);
    assert_eq!(present.into_iter().collect::<Vec<_>>(), tags);
    assert_eq!((&present).into_iter().collect::<Vec<_>>(), tags);
    let backwards: Vec<u64> = present.tags().rev().collect();
    assert!(backwards.iter().rev().eq(&tags));

    let mut left = present.tags();
    assert_eq!((left.next(), left.next_back()), (Some(1), Some(65)));
    assert_eq!((left.len(), left.size_hint()), (12, (12, Some(12))));
    assert_eq!(left.by_ref().count(), 12);
    assert_eq!((left.next(), left.next_back(), left.len()), (None, None, 0));

    let every = Present::from_words(u64::MAX, u64::MAX);
    assert!(every.tags().eq(0..128));
    assert!(every.tags().rev().eq((0..128).rev()));
    assert_eq!(Present::default().tags().next_back(), None);
}

#[test]
fn words_are_shown_by_their_tags() {
    let smallest = present_of(&sample("smallest"), Knowing::ALL);
    assert_eq!(format!("{smallest:?}"), "{1, 2, 65}");
    assert_eq!(format!("{:?}", Present::default()), "{}");
}

/// Time stamp, version and checksum, in words.
const TIME: [u64; 4] = [2, 1, 1, 8];
const VERSION_17: [u64; 4] = [65, 1, 17, 1];
const SUM: [u64; 4] = [1, 1, 0, 2];

/// A latitude of the frame centre, and an item that is not in the catalogue, of which every value stands at the buffer's start.
const CENTRE: [u64; 4] = [23, 1, 7, 4];
const fn carried(tag: u64, length: u64) -> [u64; 4] {
    [tag, 4, 0, length]
}

/// The words with a bit for each of these tags.
fn words_with(tags: &[u64]) -> Present {
    let none = Knowing::from_words(0, 0);
    let (low, high) = tags.iter().fold(none, |set, tag| set.with(*tag)).words();
    Present::from_words(low, high)
}

/// The words with another bit.
fn flipped(present: Present, bit: u64) -> Present {
    let (low, high) = present.words();
    let (low_bit, high_bit) = words_with(&[bit]).words();
    Present::from_words(low ^ low_bit, high ^ high_bit)
}

/// What is refused of these rows by a receiver of the whole catalogue. No byte of the output changes.
fn refused_with(rows: &[[u64; 4]], present: Present) -> (u64, usize, u64) {
    let mut out = [0xee; LONGEST_PACKET];
    let buffer = [0xa5; LONGEST_PACKET];
    let words = rows.as_flattened();
    let written = write_with(words, rows.len(), &buffer, Knowing::ALL, present, &mut out);
    assert_eq!(out, [0xee; LONGEST_PACKET]);
    refused(written)
}

#[test]
fn rows_with_their_words_are_written_as_without() {
    for packet in accepted() {
        for knowing in RECEIVERS {
            let mut table = [0; TABLE_WORDS];
            let rows = read(&packet, knowing, &mut table).unwrap();
            let (words, count, present) = (rows.words(), rows.len(), rows.present());
            let [mut out, mut plain] = [[0xee; LONGEST_PACKET]; 2];
            let size = write_with(words, count, &packet, knowing, present, &mut out).unwrap();
            assert_eq!(write(words, count, &packet, knowing, &mut plain), Ok(size));
            assert_eq!(out, plain);
            assert_eq!(present_of(&out[..size], knowing), present);
        }
    }
}

#[test]
fn one_bit_too_many_or_too_few_gets_22() {
    // Item 40 is carried, so that its own bit is one too many; so is bit 0, which is no tag's.
    let rows = [TIME, VERSION_17, CENTRE, carried(40, 3), SUM];
    let right = words_with(&[1, 2, 23, 65]);
    for bit in 0..128 {
        let refusal = refused_with(&rows, flipped(right, bit));
        assert_eq!(refusal, (22, 0, 0), "bit {bit}");
    }
    assert_eq!(refused_with(&rows, Present::default()), (22, 0, 0));
    let all = Present::from_words(u64::MAX, u64::MAX);
    assert_eq!(refused_with(&rows, all), (22, 0, 0));
}

#[test]
fn words_of_another_receiver_get_22() {
    let tower = sample("tower");
    let old = Knowing::ALL.without(23);
    let mut table = [0; TABLE_WORDS];
    for (knowing, other) in [(Knowing::ALL, old), (old, Knowing::ALL)] {
        let rows = read(&tower, knowing, &mut table).unwrap();
        let words = present_of(&tower, other);
        let mut out = [0xee; LONGEST_PACKET];
        let written = write_with(rows.words(), rows.len(), &tower, knowing, words, &mut out);
        assert_eq!(refused(written), (22, 0, 0));
        assert_eq!(out, [0xee; LONGEST_PACKET]);
    }
}

#[test]
fn a_known_tag_that_stands_twice_sets_its_bit_once() {
    let rows = [TIME, VERSION_17, CENTRE, CENTRE, SUM];
    let right = words_with(&[1, 2, 23, 65]);
    assert_eq!(refused_with(&rows, right), (13, 3, 23));
    assert_eq!(refused_with(&rows, flipped(right, 23)), (22, 0, 0));
    assert_eq!(refused_with(&rows, flipped(right, 24)), (22, 0, 0));
}

/// A withdrawn row is not carried: heights and corners treat it as absent, and the words do not.
#[test]
fn a_withdrawn_row_sets_its_bit() {
    let withdrawn = [24, 5, 0, 0];
    let rows = [TIME, VERSION_17, CENTRE, withdrawn, SUM];
    let right = words_with(&[1, 2, 23, 24, 65]);
    for bit in [23, 24, 25] {
        assert_eq!(refused_with(&rows, flipped(right, bit)), (22, 0, 0));
    }
    let mut out = [0; LONGEST_PACKET];
    let words = rows.as_flattened();
    let size = write_with(words, rows.len(), &[], Knowing::ALL, right, &mut out).unwrap();
    let accepted = check(&out[..size], Knowing::ALL).unwrap();
    assert_eq!(
        (accepted.present, accepted.withdrawn),
        (right, words_with(&[24]))
    );
    assert!(accepted.has_value(23) && !accepted.has_value(24));
    // Read and withdrawn of one tag are twice one tag.
    let twice = [TIME, VERSION_17, CENTRE, [23, 5, 0, 0], SUM];
    assert_eq!(
        refused_with(&twice, words_with(&[1, 2, 23, 65])),
        (13, 3, 23)
    );
}

#[test]
fn what_comes_before_22() {
    let none = Present::default();
    let bad_row = [TIME, VERSION_17, [23, 4, 0, 0], SUM];
    assert_eq!(refused_with(&bad_row, none), (17, 2, 23));
    // The words that a scan gives of a bad row's table change nothing.
    assert_eq!(refused_with(&bad_row, words_with(&[1, 2, 65])), (17, 2, 23));
    assert_eq!(refused_with(&[SUM; 129], none), (16, 0, 0));
    let rows = [TIME, VERSION_17, SUM];
    let no_set = Knowing::LEAST.without(65);
    let written = write_with(rows.as_flattened(), 3, &[], no_set, none, &mut []);
    assert_eq!(refused(written), (1, 0, 0));
}

/// Rows, the tags that a scan of them gives, and what is refused of them.
type Case<'a> = (&'a [[u64; 4]], &'a [u64], (u64, usize, u64));

#[test]
fn what_comes_after_22() {
    let too_long = [TIME, VERSION_17, carried(40, 8_190), SUM];
    let cases: [Case; 7] = [
        (&too_long, &[1, 2, 65], (3, 0, 0)),
        (&[], &[], (9, 0, 0)),
        (&[VERSION_17, TIME, SUM], &[1, 2, 65], (9, 0, 65)),
        (&[TIME, VERSION_17], &[2, 65], (10, 1, 65)),
        (
            &[TIME, VERSION_17, [3, 3, 0, 128], SUM],
            &[1, 2, 3, 65],
            (12, 2, 3),
        ),
        (
            &[TIME, VERSION_17, [63, 1, 9, 1], SUM],
            &[1, 2, 63, 65],
            (14, 2, 63),
        ),
        (&[TIME, SUM], &[1, 2], (15, 0, 0)),
    ];
    for (rows, tags, refusal) in cases {
        let right = words_with(tags);
        assert_eq!(refused_with(rows, right), refusal);
        for bit in [0, 1, 23, 40, 65, 127] {
            assert_eq!(refused_with(rows, flipped(right, bit)), (22, 0, 0));
        }
    }
    // An output without room.
    let (rows, right) = ([TIME, VERSION_17, SUM], words_with(&[1, 2, 65]));
    let mut short = [7; 33];
    for (words, refusal) in [(right, 18), (flipped(right, 23), 22)] {
        let written = write_with(rows.as_flattened(), 3, &[], Knowing::ALL, words, &mut short);
        assert_eq!(refused(written), (refusal, 0, 0));
    }
    assert_eq!(short, [7; 33]);
}
