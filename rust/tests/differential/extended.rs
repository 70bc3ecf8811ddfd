//! The extended heights of W-202: ties and lengths of the conversions, packets, tables and records of every length, and which height
//! decides.

use crate::bench::{must_hold, report};
use crate::catalogue::{Form, ALL, SMALLEST};
use crate::compare::{Comparer, Verdict};
use crate::conversions::{code_agrees, value_agrees, Told};
use crate::twin::{Twin, CARRIED, READING};
use crate::twin_answers::TwinHeight;
use crate::twin_records::Record;
use crate::twin_write::Rows;
use crate::wire::number;
use crate::worked::{packet_of, worked_items, Items};

const TAGS: [u64; 3] = [103, 104, 105];

/// Lengths that no extended height has, some of which a cut takes for one that it has.
const WRONG_LENGTHS: [usize; 9] = [0, 1, 5, 6, 7, 8, 256 + 3, 1 << 32 | 4, usize::MAX];

/// Values at the ends of the range and outside.
const VALUES: [i64; 8] = [
    i64::MIN,
    -900_001,
    -900_000,
    0,
    23_456_234,
    40_000_000,
    40_000_001,
    i64::MAX,
];

/// Codes at the ends of the range and of so many bytes, and about the lowest ties.
fn codes(length: usize) -> Vec<u64> {
    let last = Form::Extended.last(length.min(4));
    let too_wide = 1_u64.checked_shl(8 * length as u32).unwrap_or(0);
    let top = too_wide.wrapping_sub(1);
    let ties = [7, 8, 9, 24, 2_047, 2_048, 2_049, 6_144];
    let mut codes = vec![0, 1, last - 1, last, last + 1, top, top / 2 + 1];
    codes.extend(ties.iter().filter(|&&tie| tie < top));
    codes
}

/// The codes about every tie, and the values about what they stand for. Each tag has its share of the ties.
#[test]
fn every_tie_of_the_extended_heights() {
    let mut comparer = Comparer::new(Twin::TRUE);
    for (length, apart) in [(3, 16), (4, 4_096)] {
        let last = Form::Extended.last(length);
        let ties = (apart / 2..last).step_by(apart as usize);
        for (tie, &tag) in ties.zip(TAGS.iter().cycle()) {
            let told = Told::of(tag, length).expect("a right length");
            for code in tie - 1..=tie + 1 {
                must_hold(code_agrees(&mut comparer, told, code));
            }
            let value = oysterknoll::to_house(tag, length, tie).expect("a right code");
            for value in value - 1..=value + 1 {
                must_hold(value_agrees(&mut comparer, told, value));
            }
        }
    }
    report("every tie of the extended heights", &comparer.tally);
    // 40,900 m have a tie every 125 mm, in either length.
    assert_eq!(comparer.tally.cases, 2 * 327_200 * 6);
    assert_eq!(comparer.tally.accepted, comparer.tally.cases);
}

/// 19 comes first, then 20 or 21.
#[test]
fn every_length_told_of_an_extended_height() {
    let mut comparer = Comparer::new(Twin::TRUE);
    let wide = [1 << 32, u64::MAX];
    for tag in TAGS {
        for length in (2..=4).chain(WRONG_LENGTHS) {
            for code in codes(length.min(8)).into_iter().chain(wide) {
                must_hold(comparer.house_of(tag, length, code));
            }
            for value in VALUES {
                must_hold(comparer.code_of(tag, length, value));
            }
        }
        for length in WRONG_LENGTHS {
            let house = Twin::TRUE.to_house(tag, length, u64::MAX);
            let code = Twin::TRUE.to_code(tag, length, i64::MAX);
            assert_eq!(
                [house.unwrap_err(), code.unwrap_err()].map(|no| no.number),
                [19, 19]
            );
        }
    }
    report("every length told of an extended height", &comparer.tally);
    for number in [19, 20, 21] {
        assert!(comparer.tally.refusals[number] > 0, "{number} never came");
    }
}

/// At every other tag the length is not asked, whatever it is.
#[test]
fn no_length_matters_at_another_tag() {
    let mut comparer = Comparer::new(Twin::TRUE);
    let others = (0..=300).filter(|tag| !TAGS.contains(tag));
    for tag in others.chain([1 << 32 | 104, u64::MAX]) {
        let house = oysterknoll::to_house(tag, 2, 77);
        let code = oysterknoll::to_code(tag, 2, 5);
        for length in (2..=4).chain(WRONG_LENGTHS) {
            must_hold(comparer.house_of(tag, length, 77));
            must_hold(comparer.code_of(tag, length, 5));
            assert_eq!(oysterknoll::to_house(tag, length, 77), house);
            assert_eq!(oysterknoll::to_code(tag, length, 5), code);
        }
    }
    report("no length matters at another tag", &comparer.tally);
}

/// The receivers of a tag: the whole catalogue, one that does not know it, and the smallest set.
pub fn receivers(tag: u64) -> [u128; 3] {
    [ALL, ALL & !(1 << tag), SMALLEST]
}

/// The worked packet with one item more.
pub fn with_item(tag: u64, value: &[u8]) -> Items {
    let mut items = worked_items();
    items.push((tag, value.to_vec()));
    items
}

/// Every function that is given a packet.
pub fn packet_agrees(comparer: &mut Comparer, packet: &[u8], set: u128) -> Verdict {
    comparer.check(packet, set)?;
    comparer.read(packet, set, 512)?;
    comparer.items(packet, set)?;
    comparer.asked(packet, set, 0..=300)?;
    comparer.forward(packet, set, |needed| needed)?;
    comparer.heights(packet, set)?;
    (1..=4).try_for_each(|k| comparer.corner(packet, set, k))?;
    comparer.list(packet, |needed| needed)
}

/// Items of 0 to 8 bytes, by receivers that know them and by those that do not and carry them.
#[test]
fn packets_with_extended_heights_of_every_length() {
    let mut comparer = Comparer::new(Twin::TRUE);
    for tag in TAGS {
        for length in 0..=8 {
            for code in codes(length) {
                let value = &code.to_be_bytes()[8 - length..];
                let packet = packet_of(&with_item(tag, value));
                for set in receivers(tag) {
                    must_hold(packet_agrees(&mut comparer, &packet, set));
                }
                let read = Twin::TRUE.read(&packet, ALL, None);
                let number = read.map_or_else(|refusal| refusal.number, |_| 0);
                assert_eq!(number, refusal_of(value), "{value:X?}");
                let carried = Twin::TRUE.read(&packet, ALL & !(1 << tag), None);
                assert_eq!(carried.expect("it is carried")[2].kind, CARRIED);
            }
        }
    }
    report("packets with extended heights", &comparer.tally);
    let [twelve, fourteen] = [12, 14].map(|number| comparer.tally.refusals[number]);
    assert!(twelve > 0 && fourteen > 0);
}

/// What the reader refuses an extended height by, 0 if it does not. One of no bytes is withdrawn.
fn refusal_of(value: &[u8]) -> u64 {
    match value.len() {
        0 => 0,
        length @ 2..=4 if number(value) <= 0x4FE2_0000 >> (8 * (4 - length)) => 0,
        2..=4 => 14,
        _ => 12,
    }
}

/// Every function that is given rows, all of these words being lent; the third row is taken out.
pub fn rows_agree(comparer: &mut Comparer, rows: &[[u64; 4]], set: u128) -> Verdict {
    let lent = Rows {
        words: rows.as_flattened(),
        count: rows.len(),
        buffer: &[0x4F; 16],
        set,
    };
    let right = Twin::TRUE.words_of(&lent.rows());
    comparer.take_row(lent, 2)?;
    comparer.write(lent, |needed| needed)?;
    comparer.write_with(lent, right, |needed| needed)?;
    let wrong = right ^ 1 << (rows[2][0] % 128);
    comparer.write_with(lent, wrong, |needed| needed)
}

/// Rows of 0 to 8 bytes and of far more, with right codes, codes beyond 40,000 m and codes too wide, in every kind.
#[test]
fn tables_with_extended_heights_of_every_length() {
    let mut comparer = Comparer::new(Twin::TRUE);
    for tag in TAGS {
        for length in (0..=8).chain([256 + 3, 65_535]) {
            let wide = [
                1_u64.checked_shl(8 * length as u32).unwrap_or(1 << 63),
                u64::MAX,
            ];
            for code in codes(length.min(8)).into_iter().chain(wide) {
                for kind in 0..=6 {
                    let height = [tag, kind, code, length as u64];
                    let rows = [[2, 1, 1, 8], [65, 1, 17, 1], height, [1, 1, 0, 2]];
                    for set in receivers(tag) {
                        must_hold(rows_agree(&mut comparer, &rows, set));
                    }
                }
            }
        }
    }
    report("tables with extended heights", &comparer.tally);
    // The length of a row that is not bad is right, so that 12 is left to the texts.
    let [twelve, fourteen, bad] = [12, 14, 17].map(|number| comparer.tally.refusals[number]);
    assert!(twelve == 0 && fourteen > 0 && bad > 0);
}

/// A record has the length of its reading: another than the item allows makes a bad row, at every tag.
#[test]
fn records_of_every_length() {
    let mut comparer = Comparer::new(Twin::TRUE);
    for tag in [5, 13, 39, 65, 103, 104, 105] {
        for length in (0..=8).chain([256 + 3, 65_536 + 3, 1 << 32 | 4]) {
            for code in codes(length.min(8)) {
                let records = [(2, 1, 8), (65, 17, 1), (tag, code, length), (1, 0, 2)];
                let records = records.map(|(tag, code, length)| Record {
                    tag,
                    kind: READING,
                    code,
                    length,
                    value: &[],
                });
                for set in receivers(tag) {
                    must_hold(comparer.write_rows(&records, set | SMALLEST, |needed| needed));
                }
            }
        }
    }
    report("records of every length", &comparer.tally);
    assert!(comparer.tally.refusals[14] > 0 && comparer.tally.refusals[17] > 0);
}

/// 104 if it is known and there, else 75, else 15, in whatever order they stand; 103 and 105 are never asked.
#[test]
fn the_sensor_height_is_104s_then_75s_then_15s() {
    let heights: Items = vec![
        (15, vec![0x13, 0xD6]),
        (103, vec![0x4F, 0xE2]),
        (104, vec![0x2F, 0x92, 0x1E]),
        (75, vec![0x14, 0x74]),
        (105, vec![0, 0, 8, 0]),
    ];
    let mut comparer = Comparer::new(Twin::TRUE);
    for chosen in 0..32_u32 {
        let is_chosen = |n: &usize| chosen >> n & 1 == 1;
        let some: Items = (0..5)
            .filter(is_chosen)
            .map(|n| heights[n].clone())
            .collect();
        for unknown in 0..32_u32 {
            let is_known = |n: &usize| unknown >> n & 1 == 0;
            let removed = (0..5).filter(|n| !is_known(n)).map(|n| 1 << heights[n].0);
            let set = ALL & !removed.fold(0, |all: u128, one: u128| all | one);
            let has = |n: usize| is_chosen(&n) && is_known(&n);
            let height = match (has(2), has(3), has(0)) {
                (true, _, _) => TwinHeight::OverEllipsoid(23_456_234),
                (_, true, _) => TwinHeight::OverEllipsoid(689_935),
                (_, _, true) => TwinHeight::OverSeaLevel(641_958),
                _ => TwinHeight::Missing,
            };
            let packet = packet_of(&[worked_items(), some.clone()].concat());
            assert_eq!(Twin::TRUE.sensor_height(&packet, set), Ok(height));
            must_hold(comparer.heights(&packet, set));
        }
    }
    report("sensor heights by their order", &comparer.tally);
}
