//! What heights and corners have of the withdrawn items of W-204: nothing, as if they were absent.

use oysterknoll::{Content, Corner, Height, Refusal};

use crate::bench::{must_hold, report, Bench};
use crate::catalogue::ALL;
use crate::compare::{holds, knowing, Comparer, Verdict};
use crate::present::{count, words_of};
use crate::same;
use crate::twin::Twin;
use crate::twin_answers::{TwinCorner, TwinHeight};
use crate::withdrawn::value_of;
use crate::worked::{packet_of, worked_items, Items};

/// What a packet has of an item: nothing, the item without a value, a number, or a mark.
#[derive(Clone, Copy, PartialEq)]
enum Has {
    Nothing,
    Withdrawn,
    Number,
    Mark,
}

const ALL_FOUR: [Has; 4] = [Has::Nothing, Has::Withdrawn, Has::Number, Has::Mark];

/// What a packet has of the item numbered n, in the choice with this number.
fn chosen(choice: usize, n: u32) -> Has {
    ALL_FOUR[choice / 4_usize.pow(n) % 4]
}

impl Has {
    fn item(self, tag: u64) -> Option<(u64, Vec<u8>)> {
        let mut value = value_of(tag);
        match self {
            Has::Nothing => return None,
            Has::Withdrawn => value.clear(),
            // Another number for each tag, and of 104 none beyond its range.
            Has::Number => value.fill(tag as u8 ^ 0x40),
            Has::Mark => value[0] = 0x80,
        }
        Some((tag, value))
    }

    fn is_value(self) -> bool {
        matches!(self, Has::Number | Has::Mark)
    }
}

/// The worked packet with what the choice has of each of these tags, and the same without what is withdrawn.
fn packets_of_choice(tags: &[u64], choice: usize) -> [Vec<u8>; 2] {
    let items = (0..)
        .zip(tags)
        .filter_map(|(n, &tag)| chosen(choice, n).item(tag));
    let items: Items = items.collect();
    let with_values = items.iter().filter(|(_, value)| !value.is_empty());
    let left: Items = with_values.cloned().collect();
    [items, left].map(|items| packet_of(&[worked_items(), items].concat()))
}

/// The full rows if both have a value, else centre and offsets if all have; a mark in a row used is off the Earth.
#[test]
fn corners_by_what_is_not_withdrawn() {
    let mut comparer = Comparer::new(Twin::TRUE);
    for (k, choice) in (1..=4).flat_map(|k| (0..4096).map(move |choice| (k, choice))) {
        let tags = [80 + 2 * k, 81 + 2 * k, 23, 24, 24 + 2 * k, 25 + 2 * k];
        let [packet, without] = packets_of_choice(&tags, choice);
        must_hold(comparer.corner(&packet, ALL, k));
        let corner = Twin::TRUE.corner(&packet, ALL, k);
        assert_eq!(corner, Twin::TRUE.corner(&without, ALL, k));
        let has = [0, 1, 2, 3, 4, 5].map(|n| chosen(choice, n));
        let used = match has[..2].iter().all(|has| has.is_value()) {
            true => &has[..2],
            false => &has[2..],
        };
        let as_expected = match corner.expect("a right packet") {
            TwinCorner::Missing => used.iter().any(|has| !has.is_value()),
            TwinCorner::OffTheEarth => {
                used.iter().all(|has| has.is_value()) && used.contains(&Has::Mark)
            }
            TwinCorner::At(..) => used.iter().all(|&has| has == Has::Number),
        };
        assert!(as_expected, "corner {k} of choice {choice}");
    }
    report("corners by what is not withdrawn", &comparer.tally);
}

/// The first of 104, 75 and 15 that has a value, and of 78 and 25; none of them can be a mark.
#[test]
fn heights_by_what_is_not_withdrawn() {
    let tags = [104, 75, 15, 78, 25];
    let has_no_mark = |choice: &usize| (0..5).all(|n| chosen(*choice, n) != Has::Mark);
    let mut comparer = Comparer::new(Twin::TRUE);
    for choice in (0..1024).filter(has_no_mark) {
        let [packet, without] = packets_of_choice(&tags, choice);
        must_hold(comparer.heights(&packet, ALL));
        let heights = |packet: &[u8]| {
            let sensor = Twin::TRUE.sensor_height(packet, ALL);
            [sensor, Twin::TRUE.frame_centre_height(packet, ALL)].map(Result::unwrap)
        };
        assert_eq!(heights(&packet), heights(&without));
        let is_value = |n: u32| chosen(choice, n).is_value();
        let [sensor, frame_centre] = heights(&packet).map(|height| match height {
            TwinHeight::OverEllipsoid(_) => (true, true),
            TwinHeight::OverSeaLevel(_) => (true, false),
            TwinHeight::Missing => (false, false),
        });
        let ellipsoid = is_value(0) || is_value(1);
        assert_eq!(sensor, (ellipsoid || is_value(2), ellipsoid));
        assert_eq!(frame_centre, (is_value(3) || is_value(4), is_value(3)));
    }
    report("heights by what is not withdrawn", &comparer.tally);
}

/// The worked packet with these items.
fn packet_with(items: &[(u64, &[u8])]) -> Vec<u8> {
    let items = items.iter().map(|&(tag, value)| (tag, value.to_vec()));
    packet_of(&worked_items().into_iter().chain(items).collect())
}

/// By hand: where a full latitude or longitude is withdrawn the offsets decide, and where a row that they use is, nothing does.
#[test]
fn worked_corners() {
    // One code of an offset is 23 house units; the full corner is in the north-east.
    let rows: [(u64, &[u8]); 6] = [
        (82, &[0x40, 0, 0, 0]),
        (83, &[0x40, 0, 0, 0]),
        (23, &[0; 4]),
        (24, &[0; 4]),
        (26, &[0, 1]),
        (27, &[0xFF, 0xFF]),
    ];
    let corner = |without: &[u64]| {
        let rows = rows.map(|(tag, value)| match without.contains(&tag) {
            true => (tag, &[][..]),
            false => (tag, value),
        });
        oysterknoll::corner(&packet_with(&rows), knowing(ALL), 1).map(same::corner)
    };
    let full = TwinCorner::At(450_000_000, 900_000_000);
    assert_eq!(corner(&[]), Ok(full));
    assert_eq!(corner(&[23, 24, 26, 27]), Ok(full));
    for without in [&[82][..], &[83], &[82, 83]] {
        assert_eq!(corner(without), Ok(TwinCorner::At(23, -23)));
    }
    for used in [23, 24, 26, 27] {
        assert_eq!(corner(&[82, used]), Ok(TwinCorner::Missing));
    }
}

/// By hand: 104, then 75, then 15, then none.
#[test]
fn worked_heights() {
    let values: [&[u8]; 3] = [&[0x2F, 0x92, 0x1E], &[0, 0], &[0xFF, 0xFF]];
    let height = |withdrawn: usize| {
        let mut values = values;
        values[..withdrawn].fill(&[]);
        let rows = [(104, values[0]), (75, values[1]), (15, values[2])];
        oysterknoll::sensor_height(&packet_with(&rows), knowing(ALL)).map(same::height)
    };
    assert_eq!(height(0), Ok(TwinHeight::OverEllipsoid(23_456_234)));
    assert_eq!(height(1), Ok(TwinHeight::OverEllipsoid(-900_000)));
    assert_eq!(height(2), Ok(TwinHeight::OverSeaLevel(19_000_000)));
    assert_eq!(height(3), Ok(TwinHeight::Missing));
}

/// Both heights and the four corners.
fn on_the_ground(packet: &[u8], set: u128) -> Result<([Height; 2], [Corner; 4]), Refusal> {
    let corner = |k| oysterknoll::corner(packet, knowing(set), k);
    let sensor = oysterknoll::sensor_height(packet, knowing(set))?;
    let frame_centre = oysterknoll::frame_centre_height(packet, knowing(set))?;
    Ok((
        [sensor, frame_centre],
        [corner(1)?, corner(2)?, corner(3)?, corner(4)?],
    ))
}

/// Heights, corners and which items have a value are those of the packet without its withdrawn items.
pub fn as_absent(bench: &mut Bench) -> Verdict {
    bench.make_packet();
    let set = bench.maker.set();
    let packet = &bench.packet;
    let words = words_of(packet, set);
    count(&mut bench.comparer.tally, &words);
    let items = oysterknoll::items(packet, knowing(set));
    let (Ok([present, withdrawn]), Ok(items)) = (words, items) else {
        return Ok(());
    };
    let has_value = |row: &oysterknoll::Row| row.content != Content::Withdrawn;
    let left: Vec<_> = items.filter(has_value).collect();
    let mut out = vec![0; packet.len()];
    let written = oysterknoll::write_rows(&left, knowing(set), &mut out);
    let without = &out[..written.unwrap_or(0)];
    let same = words_of(without, set) == Ok([present & !withdrawn, 0])
        && withdrawn & !present == 0
        && on_the_ground(packet, set) == on_the_ground(without, set);
    holds(same, || {
        format!("a withdrawn item is not as absent: packet {packet:02X?}, set {set:X}")
    })
}
