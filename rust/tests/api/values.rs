//! The catalogue, and how values are shown.

use super::refused;
use oysterknoll::catalogue::{all, item, Range, Stored, Unit, Value};
use oysterknoll::*;

const DEGREE: i64 = 10_000_000;

/// Document 01's table: tags, bytes, whether the number is signed, and the range in house units.
const SCALED: [(&[u64], usize, bool, i64, i64); 19] = [
    (&[5, 35, 64, 71], 2, false, 0, 360 * DEGREE),
    (&[6], 2, true, -20 * DEGREE, 20 * DEGREE),
    (&[7], 2, true, -50 * DEGREE, 50 * DEGREE),
    (&[8, 9, 56], 1, false, 0, 255_000),
    (
        &[13, 23, 67, 82, 84, 86, 88, 90, 91],
        4,
        true,
        -90 * DEGREE,
        90 * DEGREE,
    ),
    (
        &[14, 19, 24, 68, 83, 85, 87, 89],
        4,
        true,
        -180 * DEGREE,
        180 * DEGREE,
    ),
    (&[15, 25, 38, 75, 78], 2, false, -900_000, 19_000_000),
    (&[16, 17], 2, false, 0, 180 * DEGREE),
    (&[18, 20], 4, false, 0, 360 * DEGREE),
    (&[21, 57], 4, false, 0, 5_000_000_000),
    (&[22], 2, false, 0, 10_000_000),
    (
        &[26, 27, 28, 29, 30, 31, 32, 33],
        2,
        true,
        -750_000,
        750_000,
    ),
    (&[36, 55], 1, false, 0, 100_000),
    (&[37], 2, false, 0, 5_000_000),
    (&[39], 1, true, -128_000, 127_000),
    (&[79, 80], 2, true, -327_000, 327_000),
    // Without scale.
    (&[1], 2, false, 0, 0),
    (&[2], 8, false, 0, 0),
    (&[34, 63, 65], 1, false, 0, 0),
];

const TEXTS: [u64; 7] = [3, 4, 10, 11, 12, 59, 70];

/// The extended heights of document 02.
const EXTENDED: [u64; 3] = [103, 104, 105];

/// How the tag is stored, its range and whether it has a mark, by documents 01 and 02.
fn defined(tag: u64) -> Option<(Stored, Option<Range>, bool)> {
    if TEXTS.contains(&tag) {
        return Some((Stored::Text, None, false));
    }
    if EXTENDED.contains(&tag) {
        let (low, high) = (-900_000, 40_000_000);
        return Some((Stored::Extended, Some(Range { low, high }), false));
    }
    let (_, width, signed, low, high) = *SCALED.iter().find(|(tags, ..)| tags.contains(&tag))?;
    let stored = match signed {
        true => Stored::Signed { width },
        false => Stored::Unsigned { width },
    };
    let range = (low < high).then_some(Range { low, high });
    Some((stored, range, signed && tag != 39))
}

#[test]
fn items_are_those_of_the_documents() {
    for tag in (0..=200).chain([u64::MAX]) {
        let found = item(tag);
        let said = found.map(|item| (item.stored, item.range, item.marked));
        assert_eq!(said, defined(tag), "tag {tag}");
        assert_eq!(found.is_some(), Knowing::ALL.knows(tag));
        assert_eq!(found.map_or(tag, |item| item.tag), tag);
    }
    assert!(all().eq((0..=200).filter_map(item)));
    assert_eq!(all().count(), 67);
}

#[test]
fn names_and_units_go_with_their_items() {
    let said = |tag| item(tag).map(|item| (item.name, item.unit)).unwrap();
    assert_eq!(said(1), ("Checksum", None));
    assert_eq!(said(2), ("Precision Time Stamp", Some(Unit::Microsecond)));
    assert_eq!(said(3), ("Mission ID", None));
    assert_eq!(said(34), ("Icing Detected", None));
    assert_eq!(said(37), ("Static Pressure", Some(Unit::Millibar)));
    assert_eq!(said(39), ("Outside Air Temperature", Some(Unit::Celsius)));
    assert_eq!(said(55), ("Relative Humidity", Some(Unit::Percent)));
    let speed = Some(Unit::MetrePerSecond);
    assert_eq!(said(80), ("Sensor East Velocity", speed));
    let height = "Frame Center Height Above Ellipsoid";
    assert_eq!(said(78), (height, Some(Unit::Metre)));
    let roll = "Platform Roll Angle (Full)";
    assert_eq!(said(91), (roll, Some(Unit::Degree)));
    let other = "Alternate Platform Ellipsoid Height Extended";
    assert_eq!(said(105), (other, Some(Unit::Metre)));
}

#[test]
fn conversions_keep_to_the_ranges() {
    for item in all() {
        let tag = item.tag;
        match item.range {
            // Two bytes are right for an extended height, and not asked of any other.
            Some(Range { low, high }) => {
                assert!(to_code(tag, 2, low).is_ok() && to_code(tag, 2, high).is_ok());
                assert_eq!(refused(to_code(tag, 2, low - 1)), (21, 0, tag));
                assert_eq!(refused(to_code(tag, 2, high + 1)), (21, 0, tag));
                assert_eq!(to_house(tag, 2, to_code(tag, 2, low).unwrap()), Ok(low));
            }
            None => assert_eq!(refused(to_code(tag, 2, 0)), (19, 0, tag)),
        }
    }
}

/// A value of an item as it is shown.
fn shown(tag: u64, value: i64) -> String {
    item(tag).unwrap().value(value).to_string()
}

#[test]
fn values_are_shown_as_people_write_them() {
    assert_eq!(shown(13, 468_995_000), "46.8995000°");
    assert_eq!(shown(26, -750_000), "-0.0750000°");
    assert_eq!(shown(14, -5_000_000), "-0.5000000°");
    assert_eq!(shown(14, -1), "-0.0000001°");
    assert_eq!(shown(14, 0), "0.0000000°");
    assert_eq!(shown(15, 641_958), "641.958 m");
    assert_eq!(shown(15, -5), "-0.005 m");
    assert_eq!(shown(36, 12_345), "12.345 m/s");
    assert_eq!(shown(37, 1_013_250), "1013.250 mbar");
    assert_eq!(shown(55, 50_588), "50.588 %");
    assert_eq!(shown(39, -128_000), "-128.000 °C");
    assert_eq!(shown(2, 1_779_178_530_250_000), "1779178530250000 µs");
    assert_eq!(shown(65, 17), "17");
    assert_eq!(shown(65, -1), "-1");
}

#[test]
fn the_longest_values_are_shown_whole() {
    let ends = |unit| [i64::MIN, i64::MAX].map(|value| Value { value, unit }.to_string());
    let whole = ["-9223372036854775808", "9223372036854775807"];
    assert_eq!(ends(None), whole);
    let microseconds = ["-9223372036854775808 µs", "9223372036854775807 µs"];
    assert_eq!(ends(Some(Unit::Microsecond)), microseconds);
    let degrees = ["-922337203685.4775808°", "922337203685.4775807°"];
    assert_eq!(ends(Some(Unit::Degree)), degrees);
    let metres = ["-9223372036854775.808 m", "9223372036854775.807 m"];
    assert_eq!(ends(Some(Unit::Metre)), metres);
}

#[test]
fn values_are_filled_up_to_a_width() {
    let latitude = item(13).unwrap().value(468_995_000);
    assert_eq!(format!("[{latitude:>14}]"), "[   46.8995000°]");
    assert_eq!(format!("[{latitude:14}]"), "[   46.8995000°]");
    assert_eq!(format!("[{latitude:<14}]"), "[46.8995000°   ]");
    assert_eq!(format!("[{latitude:^14}]"), "[ 46.8995000°  ]");
    assert_eq!(format!("[{latitude:·<12}]"), "[46.8995000°·]");
    // A width that is too small, and one that is exact; no digit is cut off.
    assert_eq!(
        format!("{latitude:3} {latitude:11}"),
        "46.8995000° 46.8995000°"
    );
    assert_eq!(format!("{latitude:.2}"), "46.8995000°");
    assert_eq!(
        format!("{:>4}|{:<4}", Unit::Celsius, Unit::Metre),
        "  °C|m   "
    );
}
