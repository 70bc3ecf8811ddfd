//! The walk over the items of a packet.

use super::{accepted, sample};
use oysterknoll::*;

/// Receivers of every age.
pub const RECEIVERS: [Knowing; 5] = [
    Knowing::ALL,
    Knowing::LEAST,
    Knowing::LEAST.with(3).with(82).with(39),
    Knowing::ALL.without(75).without(59),
    Knowing::ALL.without(103).without(104).without(105),
];

#[test]
fn items_are_the_rows_of_a_table() {
    for packet in accepted() {
        for knowing in RECEIVERS {
            let mut table = [0; TABLE_WORDS];
            let rows = read(&packet, knowing, &mut table).unwrap();
            let walked = items(&packet, knowing).unwrap();
            assert!(walked.clone().eq(rows));
            assert_eq!(format!("{walked:?}"), format!("{rows:?}"));
        }
    }
}

#[test]
fn past_the_last_item_there_are_no_more() {
    let packet = sample("smallest");
    let mut left = items(&packet, Knowing::ALL).unwrap();
    let halfway = {
        left.next();
        left.clone()
    };
    assert_eq!(left.by_ref().count(), 2);
    for _ in 0..3 {
        assert_eq!(left.next(), None);
    }
    assert_eq!(format!("{left:?}"), "[]");
    assert_eq!(halfway.map(|row| row.tag).collect::<Vec<_>>(), [65, 1]);
}

#[test]
fn values_are_parts_of_the_packet() {
    let packet = sample("relayed");
    let values = items(&packet, Knowing::LEAST)
        .unwrap()
        .filter_map(|row| match row.content {
            Content::Carried(value) => Some(value),
            _ => None,
        });
    let values: Vec<&[u8]> = values.collect();
    assert_eq!(values.len(), 49);
    let mut from = packet.as_ptr_range().start;
    for value in values {
        let part = value.as_ptr_range();
        assert!(from < part.start && part.end <= packet.as_ptr_range().end);
        from = part.end;
    }
}
