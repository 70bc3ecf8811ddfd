//! The items of the header, with names, units and scales, held to those of the crate and the archive and to ST 0601.

use super::{between, number, parts, upper_snake, HEADER};
use oysterknoll::catalogue::{self, Range, Stored, Unit};
use std::array::from_fn;
use std::collections::BTreeMap;

const NAMES: &str = include_str!("../../../tests/names/st0601.tsv");

/// Tag, name and unit of an item, the unit as the header has it.
type Item = (u64, String, String);

fn item([tag, name, unit]: [&str; 3]) -> Item {
    (number(tag), name.to_string(), unit.to_string())
}

/// The first three parts of a line.
fn three<'a>(mut parts: impl Iterator<Item = &'a str>) -> [&'a str; 3] {
    from_fn(|_| parts.next().expect("tag, name and unit"))
}

/// The items of the header's list.
fn header_items() -> Vec<Item> {
    let listed = HEADER
        .lines()
        .filter_map(|line| line.trim_start().strip_prefix("ITEM("));
    let items = listed.map(|line| {
        let [tag, name, unit] = three(line.split('"'));
        item([tag.trim_end_matches(", "), name, between(unit, ", ", ")")])
    });
    items.collect()
}

/// The items as crate and archive have them.
fn crate_items() -> Vec<Item> {
    let items = catalogue::all();
    items
        .map(|item| (item.tag, item.name.to_string(), unit_name(item.unit)))
        .collect()
}

/// The items as ST 0601 has them.
fn named_items() -> Vec<Item> {
    let items = NAMES.lines().skip(1).map(|line| {
        let [tag, name, unit] = three(line.split('\t'));
        item([tag, name, &unit_name(unit_of(unit))])
    });
    items.collect()
}

/// The unit by its name in the header.
fn unit_name(unit: Option<Unit>) -> String {
    unit.map_or("NONE".to_string(), |unit| upper_snake(&format!("{unit:?}")))
}

/// The unit by the sign that the table of names has for it; what is only a code has none.
fn unit_of(sign: &str) -> Option<Unit> {
    match sign {
        "deg" => Some(Unit::Degree),
        "m" => Some(Unit::Metre),
        "m/s" => Some(Unit::MetrePerSecond),
        "mbar" => Some(Unit::Millibar),
        "%" => Some(Unit::Percent),
        "degC" => Some(Unit::Celsius),
        "us" => Some(Unit::Microsecond),
        "none" | "code" => None,
        other => panic!("{other} is no unit of the catalogue"),
    }
}

/// Each scaled item by its tag, in the words that the header's table has for it.
type Scales = BTreeMap<u64, String>;

fn header_scales() -> Scales {
    let lines = HEADER
        .lines()
        .filter_map(|line| line.strip_prefix(" *     ")?.split_once("  "));
    let is_scale = |scale: &str| scale.contains("signed ") || scale.starts_with("extended ");
    let scales = lines.filter(|(_, scale)| is_scale(scale.trim_start()));
    let items = scales.flat_map(|(tags, scale)| {
        let words = scale.split_whitespace().collect::<Vec<_>>().join(" ");
        parts(tags, ',').map(move |tag| (number(&tag), words.clone()))
    });
    items.collect()
}

/// The words for an item of the catalogue, if it has a scale.
fn scale(item: catalogue::Item) -> Option<String> {
    let Range { low, high } = item.range?;
    let stored = match item.stored {
        Stored::Unsigned { width } => format!("unsigned {width}"),
        Stored::Signed { width } => format!("signed {width}"),
        Stored::Extended => "extended 2 to 4".to_string(),
        Stored::Text => return None,
    };
    let (whole, unit) = match item.unit? {
        Unit::Degree => (1e7, "degrees"),
        Unit::Metre => (1e3, "m"),
        Unit::MetrePerSecond => (1e3, "m/s"),
        Unit::Millibar => (1e3, "mbar"),
        Unit::Percent => (1e3, "percent"),
        Unit::Celsius => (1e3, "degrees C"),
        Unit::Microsecond => return None,
    };
    let (low, high) = (low as f64 / whole, high as f64 / whole);
    Some(format!("{stored} {low} to {high} {unit}"))
}

#[test]
fn items_agree() {
    assert_eq!(header_items(), crate_items());
    assert_eq!(header_items(), named_items());
    assert_eq!(header_items().len(), 67);
}

#[test]
fn scales_agree() {
    let scaled = catalogue::all().filter_map(|item| Some((item.tag, scale(item)?)));
    assert_eq!(header_scales(), scaled.collect());
    assert_eq!(header_scales().len(), 55);
}
