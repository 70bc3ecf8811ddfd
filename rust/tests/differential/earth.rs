//! The corners of W-203: about the 180th meridian, about the poles, and what of them is there.

use crate::bench::{must_hold, report};
use crate::catalogue::{ALL, DEGREE, SMALLEST};
use crate::compare::Comparer;
use crate::twin::Twin;
use crate::twin_answers::{TwinCorner, HALF_TURN, POLE};
use crate::worked::{packet_of, worked_items, Items};
use TwinCorner::{At, Missing, OffTheEarth};

/// 90 or 180 degrees by a code of four bytes, and 0.075 by one of two.
const HIGHEST: u32 = 0x7FFF_FFFF;
const LOWEST: u32 = 0x8000_0001;
const EAST: u16 = 0x7FFF;
const WEST: u16 = 0x8001;

/// Codes at the ends, about where an offset of one code or of 0.075 degrees leads to an end, the mark and some others.
fn centres() -> impl Iterator<Item = u32> {
    let about = |code: u32, apart: u32| {
        (0..=2 * apart).map(move |n| code.wrapping_sub(apart).wrapping_add(n))
    };
    about(HIGHEST.wrapping_add(1), 60)
        .chain(about(HIGHEST - 894_784, 3))
        .chain(about(LOWEST + 894_784, 3))
        .chain(about(HIGHEST - 1_789_569, 3))
        .chain(about(LOWEST + 1_789_569, 3))
        .chain([0, 1, 0xFFFF_FFFF, 0x4000_0000, 0xC000_0000])
}

const OFFSETS: [u16; 9] = [0, 1, 2, 0xFFFF, 0xFFFE, EAST, EAST - 1, WEST, WEST + 1];

/// The rows of corner k by its offsets: latitude and longitude of the centre, then those of the offset.
fn by_offsets(k: u64, centre: [u32; 2], offset: [u16; 2]) -> Items {
    let centre = centre.map(|code| code.to_be_bytes().to_vec());
    let offset = offset.map(|code| code.to_be_bytes().to_vec());
    let tags = [23, 24, 24 + 2 * k, 25 + 2 * k];
    tags.into_iter().zip([centre, offset].concat()).collect()
}

fn full(k: u64, corner: [u32; 2]) -> Items {
    let corner = corner.map(|code| code.to_be_bytes().to_vec());
    [80 + 2 * k, 81 + 2 * k].into_iter().zip(corner).collect()
}

fn with_rows(rows: &Items) -> Vec<u8> {
    packet_of(&[worked_items(), rows.clone()].concat())
}

/// A point that is answered lies on the Earth.
fn is_on_earth(corner: TwinCorner) -> bool {
    match corner {
        At(latitude, longitude) => {
            (-POLE..=POLE).contains(&latitude) && (-HALF_TURN..HALF_TURN).contains(&longitude)
        }
        OffTheEarth | Missing => true,
    }
}

/// The plain sum of document 01, of rows that are all numbers.
fn plain(codes: (u32, u16), tag: u64) -> Option<i64> {
    let centre = oysterknoll::to_house(tag, 4, u64::from(codes.0)).ok()?;
    let offset = oysterknoll::to_house(tag + 3, 2, u64::from(codes.1)).ok()?;
    Some(centre + offset)
}

/// Hands on the corner and the plain sum for each code of row 23 or 24 with each offset to it; the other coordinate is far from its ends.
fn each_sum(name: &str, tag: u64, mut see: impl FnMut(TwinCorner, Option<i64>)) {
    let mut comparer = Comparer::new(Twin::TRUE);
    for (n, code) in centres().enumerate() {
        let k = n as u64 % 4 + 1;
        for by in OFFSETS.into_iter().chain([0x8000]) {
            let (centre, offset) = match tag {
                23 => ([code, 0x0123_4567], [by, 1]),
                _ => ([0x1234_5678, code], [1, by]),
            };
            let packet = with_rows(&by_offsets(k, centre, offset));
            must_hold(comparer.corner(&packet, ALL, k));
            let corner = Twin::TRUE.corner(&packet, ALL, k).expect("a right packet");
            assert!(is_on_earth(corner), "{corner:?}");
            see(corner, plain((code, by), tag));
        }
    }
    report(name, &comparer.tally);
}

#[test]
fn sums_about_the_180th_meridian() {
    let (mut moved, mut stayed) = (0, 0);
    each_sum("sums about the 180th meridian", 24, |corner, sum| {
        match (corner, sum) {
            (At(_, longitude), Some(sum)) if longitude == sum => stayed += 1,
            (At(_, longitude), Some(sum)) => {
                moved += 1;
                assert_eq!((sum - longitude).abs(), 2 * HALF_TURN, "one turn");
            }
            (OffTheEarth, None) => {}
            other => panic!("{other:?}"),
        }
    });
    assert!(moved > 100 && stayed > 100, "{moved} and {stayed}");
}

#[test]
fn sums_about_the_poles() {
    let (mut on, mut off) = (0, 0);
    each_sum("sums about the poles", 23, |corner, sum| {
        match (corner, sum) {
            (At(latitude, _), Some(sum)) => {
                on += 1;
                assert!(latitude == sum && sum.abs() <= POLE, "{sum}");
            }
            (OffTheEarth, Some(sum)) => {
                off += 1;
                assert!(sum.abs() > POLE, "{sum}");
            }
            (OffTheEarth, None) => {}
            other => panic!("{other:?}"),
        }
    });
    assert!(on > 100 && off > 100, "{on} and {off}");
}

/// Of a full corner only a longitude of exactly 180 degrees moves.
#[test]
fn full_corners_about_the_ends() {
    let mut comparer = Comparer::new(Twin::TRUE);
    for (n, code) in centres().enumerate() {
        let k = n as u64 % 4 + 1;
        for corner in [[code, HIGHEST], [LOWEST, code], [code, code]] {
            let packet = with_rows(&full(k, corner));
            must_hold(comparer.corner(&packet, ALL, k));
            let house = [(23, corner[0]), (24, corner[1])]
                .map(|(tag, code)| oysterknoll::to_house(tag, 4, u64::from(code)).ok());
            let expected = match house {
                [Some(north), Some(HALF_TURN)] => At(north, -HALF_TURN),
                [Some(north), Some(east)] => At(north, east),
                _ => OffTheEarth,
            };
            assert_eq!(Twin::TRUE.corner(&packet, ALL, k), Ok(expected));
        }
    }
    report("full corners about the ends", &comparer.tally);
}

/// The sum that is shown decides: here it is 90 degrees, and exactly it is 0.00000003 more.
#[test]
fn the_shown_sum_decides() {
    let east = HIGHEST - 119_304;
    let cases = [
        ([0x7FFF_FFC9, 0], [1, 0], At(POLE, 0)),
        ([0x7FFF_FFCA, 0], [1, 0], OffTheEarth),
        ([0x8000_0037, 0], [0xFFFF, 0], At(-POLE, 0)),
        ([0x8000_0036, 0], [0xFFFF, 0], OffTheEarth),
        ([0, HIGHEST], [0, 0], At(0, -HALF_TURN)),
        ([0, HIGHEST], [0, EAST], At(0, -1_799_250_000)),
        ([0, HIGHEST], [0, 0xFFFF], At(0, HALF_TURN - 23)),
        ([0, LOWEST], [0, 0], At(0, -HALF_TURN)),
        ([0, LOWEST], [0, 0xFFFF], At(0, HALF_TURN - 23)),
        // The island's corner at 180.03 degrees.
        ([0, east], [0, 0x4444], At(0, -1_799_699_993)),
    ];
    let mut comparer = Comparer::new(Twin::TRUE);
    for (centre, offset, expected) in cases {
        let packet = with_rows(&by_offsets(1, centre, offset));
        must_hold(comparer.corner(&packet, ALL, 1));
        assert_eq!(Twin::TRUE.corner(&packet, ALL, 1), Ok(expected));
    }
    report("the shown sum decides", &comparer.tally);
}

/// A corner that lacks a row used is missing, also where its latitude is beyond a pole.
#[test]
fn missing_comes_before_off_the_earth() {
    let mut comparer = Comparer::new(Twin::TRUE);
    for k in 1..=4 {
        let rows = by_offsets(k, [HIGHEST, HIGHEST], [EAST, EAST]);
        for chosen in 0..16_u32 {
            let some = (0..4).filter(|n| chosen >> n & 1 == 1);
            let items: Items = some.map(|n| rows[n].clone()).collect();
            let packet = with_rows(&items);
            let expected = if chosen == 15 { OffTheEarth } else { Missing };
            assert_eq!(Twin::TRUE.corner(&packet, ALL, k), Ok(expected));
            must_hold(comparer.corner(&packet, ALL, k));
            // A receiver that does not know the rest has no other answer.
            let packet = with_rows(&rows);
            let unknown = (0..4).filter(|n| chosen >> n & 1 == 0);
            let removed = unknown.map(|n| 1_u128 << rows[n].0);
            let set = ALL & !removed.fold(0, |all, one| all | one);
            assert_eq!(Twin::TRUE.corner(&packet, set, k), Ok(expected));
            must_hold(comparer.corner(&packet, set, k));
        }
        must_hold(comparer.corner(&with_rows(&rows), SMALLEST, k));
    }
    report("missing before off the Earth", &comparer.tally);
}

/// Rows, conversions and listing are as sent: a frame centre at 180 degrees is listed there.
#[test]
fn rows_are_as_sent() {
    let packet = with_rows(&by_offsets(1, [HIGHEST, HIGHEST], [0, EAST]));
    let mut comparer = Comparer::new(Twin::TRUE);
    must_hold(comparer.list(&packet, |needed| needed));
    must_hold(comparer.read(&packet, ALL, 512));
    must_hold(comparer.house_of(24, 4, u64::from(HIGHEST)));
    let listing = Twin::TRUE.listing(&packet).expect("a right packet");
    assert!(listing.contains("\t24\tnumber\t1800000000\n"), "{listing}");
    assert_eq!(
        oysterknoll::to_house(24, 4, u64::from(HIGHEST)),
        Ok(180 * DEGREE)
    );
}
