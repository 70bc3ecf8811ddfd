//! The product's values in the twin's terms, and whether its rows are the twin's.

use oysterknoll::catalogue::{Item, Stored, Unit};
use oysterknoll::{Content, Corner, Height, Items};

use crate::catalogue;
use crate::twin::{Row, CARRIED, MARK, READING, TEXT, WITHDRAWN};
use crate::twin_answers::{TwinCorner, TwinHeight, TwinItem};
use crate::twin_records::Record;

pub fn height(height: Height) -> TwinHeight {
    match height {
        Height::OverEllipsoid(height) => TwinHeight::OverEllipsoid(height.0),
        Height::OverSeaLevel(height) => TwinHeight::OverSeaLevel(height.0),
        Height::Missing => TwinHeight::Missing,
    }
}

pub fn corner(corner: Corner) -> TwinCorner {
    match corner {
        Corner::At(point) => TwinCorner::At(point.latitude, point.longitude),
        Corner::OffTheEarth => TwinCorner::OffTheEarth,
        Corner::Missing => TwinCorner::Missing,
    }
}

pub fn item(item: Item) -> TwinItem {
    let (signed, bytes) = match item.stored {
        Stored::Unsigned { width } => (false, Some(width)),
        Stored::Signed { width } => (true, Some(width)),
        Stored::Extended | Stored::Text => (false, None),
    };
    TwinItem {
        signed,
        extended: item.stored == Stored::Extended,
        bytes,
        range: item.range.map(|range| (range.low, range.high)),
        unit: item.unit.map(unit),
        marked: item.marked,
    }
}

fn unit(unit: Unit) -> catalogue::Unit {
    match unit {
        Unit::Degree => catalogue::Unit::Degree,
        Unit::Metre => catalogue::Unit::Metre,
        Unit::MetrePerSecond => catalogue::Unit::MetreASecond,
        Unit::Millibar => catalogue::Unit::Millibar,
        Unit::Percent => catalogue::Unit::Percent,
        Unit::Celsius => catalogue::Unit::DegreeCelsius,
        Unit::Microsecond => catalogue::Unit::Microsecond,
    }
}

/// A record as the product takes it.
pub fn row_of<'a>(record: &Record<'a>) -> oysterknoll::Row<'a> {
    let content = match record.kind {
        READING => Content::Reading {
            code: record.code,
            length: record.length,
        },
        MARK => Content::Mark,
        TEXT => Content::Text(record.value),
        WITHDRAWN => Content::Withdrawn,
        _ => Content::Carried(record.value),
    };
    oysterknoll::Row {
        tag: record.tag,
        content,
    }
}

/// Whether a walk hands out these rows and then no more, however often it is asked.
pub fn same_walk(mut items: Items, rows: &[Row], packet: &[u8]) -> bool {
    let hands_out = |row| {
        let next = items.next();
        next.is_some_and(|product| same_row(&product, row, packet))
    };
    rows.iter().all(hands_out) && (0..3).all(|_| items.next().is_none())
}

pub fn same_rows(product: &oysterknoll::Rows, rows: &[Row], packet: &[u8]) -> bool {
    let words = rows.iter().flat_map(|row| row.words());
    product.len() == rows.len()
        && product.words().iter().copied().eq(words)
        && product.get(rows.len()).is_none()
        && product
            .iter()
            .zip(rows)
            .all(|(product, row)| same_row(&product, row, packet))
}

/// Whether a row taken out is the twin's, its value being that part of the buffer.
pub fn same_row(product: &oysterknoll::Row, row: &Row, buffer: &[u8]) -> bool {
    let same_content = match product.content {
        Content::Reading { code, length } => {
            row.kind == READING && (code, length) == (row.code, row.length)
        }
        Content::Mark => row.kind == MARK,
        Content::Text(value) => row.kind == TEXT && is_part(value, row, buffer),
        Content::Carried(value) => row.kind == CARRIED && is_part(value, row, buffer),
        Content::Withdrawn => row.kind == WITHDRAWN,
    };
    product.tag == row.tag && same_content
}

fn is_part(value: &[u8], row: &Row, buffer: &[u8]) -> bool {
    let part = &buffer[row.place..row.place + row.length];
    // An empty value has no bytes that could be in the wrong place.
    std::ptr::eq(value, part) || (value.is_empty() && part.is_empty())
}
