//! Withdrawn items: a known item of length 0 says that its earlier value no longer holds.

use super::writing::{reading, refused_within, row, within, written};
use super::{listing, refused, sample};
use oysterknoll::Content::{Carried, Mark, Text, Withdrawn};
use oysterknoll::*;

/// The tags that may be withdrawn: all of the catalogue but 1, 2 and 65.
fn others() -> impl Iterator<Item = u64> {
    let tags = catalogue::all().map(|item| item.tag);
    tags.filter(|tag| !Knowing::LEAST.knows(*tag))
}

/// A packet with this item, of length 0: a receiver that does not know it writes it.
fn packet_with(tag: u64) -> Vec<u8> {
    let empty = row(tag, Carried(&[]));
    written(&within(&[empty]), Knowing::ALL.without(tag))
}

#[test]
fn a_known_item_of_length_0_is_withdrawn() {
    for tag in others() {
        let packet = packet_with(tag);
        let mut table = [0; TABLE_WORDS];
        let rows = read(&packet, Knowing::ALL, &mut table).unwrap();
        assert_eq!(rows.get(2), Some(row(tag, Withdrawn)));
        assert_eq!(rows.words()[8..12], [tag, 5, 0, 32 << 16]);
        assert_eq!(rows.get(2).unwrap().value(), None);
        let walked = items(&packet, Knowing::ALL).unwrap().nth(2);
        assert_eq!(walked, Some(row(tag, Withdrawn)));
        let line = format!("\n32\t{tag}\twithdrawn\t\n");
        assert!(listing(&packet).contains(&line));
    }
}

#[test]
fn a_withdrawn_item_is_there_and_has_no_value() {
    for tag in others() {
        let packet = packet_with(tag);
        let accepted = check(&packet, Knowing::ALL).unwrap();
        assert!(accepted.present.tags().eq({
            let mut there = vec![1, 2, tag, 65];
            there.sort_unstable();
            there
        }));
        assert!(accepted.withdrawn.tags().eq([tag]));
        let with_value = (0..300).filter(|tag| accepted.has_value(*tag));
        assert!(with_value.eq([1, 2, 65]));
        let mut table = [0; TABLE_WORDS];
        let rows = read(&packet, Knowing::ALL, &mut table).unwrap();
        assert_eq!(rows.withdrawn(), accepted.withdrawn);
        assert!((0..300).all(|tag| rows.has_value(tag) == accepted.has_value(tag)));
    }
}

#[test]
fn zero_is_a_value() {
    let zeros = [
        row(23, reading(0, 4)),
        row(34, reading(0, 1)),
        row(104, reading(0, 2)),
    ];
    let packet = written(&within(&zeros), Knowing::ALL);
    let accepted = check(&packet, Knowing::ALL).unwrap();
    assert_eq!(accepted.withdrawn, Present::default());
    assert!([23, 34, 104].into_iter().all(|tag| accepted.has_value(tag)));
}

#[test]
fn who_does_not_know_the_tag_carries_an_empty_value() {
    for tag in others() {
        let packet = packet_with(tag);
        for older in [Knowing::ALL.without(tag), Knowing::LEAST] {
            let accepted = check(&packet, older).unwrap();
            assert_eq!(accepted.present.words(), Knowing::LEAST.words());
            assert_eq!(accepted.withdrawn, Present::default());
            let carried = items(&packet, older).unwrap().nth(2);
            assert_eq!(carried, Some(row(tag, Carried(&[]))));
            let mut out = vec![0; packet.len()];
            assert_eq!(forward(&packet, older, &mut out), Ok(packet.len()));
            assert_eq!(out, packet);
        }
    }
}

#[test]
fn what_every_packet_has_is_not_withdrawn() {
    for tag in [1, 2, 65] {
        assert_eq!(refused_within(&[row(tag, Withdrawn)]), (17, 2, tag));
    }
    // Version, time stamp and checksum without a value, each where it has to stand.
    let smallest = sample("smallest");
    let version_empty = [&smallest[..16], &[16], &smallest[17..27], &[65, 0, 1, 2]].concat();
    assert_eq!(
        refused(check(&sealed(version_empty), Knowing::ALL)),
        (12, 27, 65)
    );
    let time_empty = [&smallest[..16], &[9, 2, 0, 65, 1, 17, 1, 2]].concat();
    assert_eq!(
        refused(check(&sealed(time_empty), Knowing::ALL)),
        (12, 17, 2)
    );
    let sum_empty = [&smallest[..16], &[15], &smallest[17..30], &[1, 0]].concat();
    assert_eq!(refused(check(&sum_empty, Knowing::ALL)), (10, 30, 1));
}

/// The packet with its checksum, which is all that it lacks: bytes at even places count 256 times.
fn sealed(mut packet: Vec<u8>) -> Vec<u8> {
    let weighed = (0..).zip(&packet).map(|(n, byte)| match n % 2 {
        0 => u16::from(*byte) << 8,
        _ => u16::from(*byte),
    });
    let sum = weighed.fold(0, u16::wrapping_add);
    packet.extend(sum.to_be_bytes());
    packet
}

#[test]
fn a_withdrawn_row_is_written_as_an_item_of_length_0() {
    for tag in others() {
        let rows = within(&[row(tag, Withdrawn)]);
        assert_eq!(written(&rows, Knowing::ALL), packet_with(tag));
        // Who does not know the tag has to carry it.
        let mut out = [0xee; LONGEST_PACKET];
        let refusal = refused(write_rows(&rows, Knowing::ALL.without(tag), &mut out));
        assert_eq!((refusal, out), ((17, 2, tag), [0xee; LONGEST_PACKET]));
    }
    assert_eq!(refused_within(&[row(40, Withdrawn)]), (17, 2, 40));
    for other in [reading(0, 4), Mark, Withdrawn] {
        let twice = [row(13, Withdrawn), row(13, other)];
        assert_eq!(refused_within(&twice), (13, 3, 13));
    }
    assert_eq!(
        refused_within(&[row(3, Withdrawn), row(3, Text(b"EO"))]),
        (13, 3, 3)
    );
}

#[test]
fn of_a_withdrawn_row_code_and_length_are_looked_at_and_not_the_place() {
    let part = |place: u64, length: u64| place << 16 | length;
    let taken = |words: &[u64; 4]| take_row(words, 1, 0, b"0123", Knowing::ALL);
    for tag in others() {
        for place in [0, 4, 5, (1 << 48) - 1] {
            let words = [tag, 5, 0, part(place, 0)];
            assert_eq!(taken(&words), Ok(row(tag, Withdrawn)));
            let rows = [[2, 1, 1, 8], [65, 1, 17, 1], words, [1, 1, 0, 2]];
            let mut out = [0; LONGEST_PACKET];
            let size = write(rows.as_flattened(), 4, b"0123", Knowing::ALL, &mut out).unwrap();
            assert_eq!(out[..size], packet_with(tag));
        }
        for (code, length) in [(1, 0), (u64::MAX, 0), (0, 1), (0, 65_535), (1, 1)] {
            let words = [tag, 5, code, part(0, length)];
            assert_eq!(refused(taken(&words)), (17, 0, tag));
        }
    }
    for tag in [1, 2, 65, 40, 128, 2_097_151] {
        assert_eq!(refused(taken(&[tag, 5, 0, 0])), (17, 0, tag));
    }
}

/// The packet again, with these items withdrawn.
fn withdrawn_from(packet: &[u8], tags: &[u64]) -> Vec<u8> {
    let rows = items(packet, Knowing::ALL).unwrap().map(|item| {
        let taken_back = tags.contains(&item.tag);
        row(item.tag, if taken_back { Withdrawn } else { item.content })
    });
    written(&rows.collect::<Vec<_>>(), Knowing::ALL)
}

#[test]
fn heights_treat_a_withdrawn_item_as_absent() {
    let newer = sample("tower_extended");
    let sensor = |tags: &[u64]| sensor_height(&withdrawn_from(&newer, tags), Knowing::ALL).unwrap();
    let ellipsoid = |mm| Height::OverEllipsoid(EllipsoidHeight(mm));
    let sea_level = |mm| Height::OverSeaLevel(SeaLevelHeight(mm));
    assert_eq!(sensor(&[]), ellipsoid(690_063));
    assert_eq!(sensor(&[104]), ellipsoid(689_935));
    assert_eq!(sensor(&[75, 15]), ellipsoid(690_063));
    assert_eq!(sensor(&[104, 75]), sea_level(641_958));
    assert_eq!(sensor(&[104, 75, 15]), Height::Missing);
    let centre =
        |tags: &[u64]| frame_centre_height(&withdrawn_from(&newer, tags), Knowing::ALL).unwrap();
    assert_eq!(centre(&[]), ellipsoid(649_549));
    assert_eq!(centre(&[78]), sea_level(601_572));
    assert_eq!(centre(&[78, 25]), Height::Missing);
}

#[test]
fn corners_treat_a_withdrawn_item_as_absent() {
    let tower = sample("tower");
    let of = |k, tags: &[u64]| corner(&withdrawn_from(&tower, tags), Knowing::ALL, k).unwrap();
    let at = |latitude, longitude| {
        Corner::At(Point {
            latitude,
            longitude,
        })
    };
    // Corner 1 is marked; without one of its full items the offsets decide, as for a receiver that does not know it.
    assert_eq!(of(1, &[]), Corner::OffTheEarth);
    for tags in [&[82][..], &[83], &[82, 83]] {
        assert_eq!(of(1, tags), at(469_766_368, 83_416_463));
    }
    assert_eq!(of(3, &[]), at(469_001_577, 83_008_305));
    assert_eq!(of(3, &[23, 24, 30, 31]), at(469_001_577, 83_008_305));
    assert_eq!(of(3, &[86]), at(469_016_368 - 14_786, 83_016_457 - 8_148));
    for used in [23, 24, 30, 31] {
        assert_eq!(of(3, &[87, used]), Corner::Missing);
    }
    // Its offsets are marked too.
    assert_eq!(of(2, &[84]), Corner::OffTheEarth);
    assert_eq!(of(2, &[84, 28]), Corner::Missing);
}

#[test]
fn the_fleets_packet_is_no_longer_refused() {
    let fleet = sample("fleet");
    let accepted = check(&fleet, Knowing::ALL).unwrap();
    let withdrawn = [3, 21, 34, 63, 78, 82, 83, 86, 103, 104];
    assert!(accepted.withdrawn.tags().eq(withdrawn));
    // Item 94 is outside the catalogue.
    assert_eq!((accepted.count, accepted.present.count()), (36, 35));
    for tag in withdrawn {
        assert!(accepted.present.has(tag) && !accepted.has_value(tag));
    }
    // Item 103 has a length of two bytes, which takes its shortest form.
    let mut out = vec![0; fleet.len()];
    assert_eq!(forward(&fleet, Knowing::ALL, &mut out), Ok(fleet.len() - 1));
}
