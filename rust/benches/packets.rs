//! The packets that the benchmarks run on: made-up values in items as a small aircraft would send them.

use crate::rival::{checksum, KEY};

/// A tag beside its value.
pub type Item = (u64, Vec<u8>);

/// Tag 2, the first item of every packet.
const TIME: (u64, [u8; 8]) = (2, [0x00, 0x06, 0x52, 0x27, 0x48, 0x49, 0x9D, 0x10]);

/// The other catalogue tags but the checksum's; every eight of them are of much the same kind.
const KNOWN_TAGS: [u64; 62] = [
    65, 13, 14, 15, 5, 3, 6, 7, 18, 19, 20, 8, 16, 4, 17, 21, 22, 23, 24, 9, 25, 10, 26, 27, 82,
    83, 34, 36, 28, 11, 29, 30, 84, 85, 39, 55, 31, 12, 32, 33, 86, 87, 56, 35, 37, 59, 38, 64, 88,
    89, 63, 71, 75, 70, 78, 79, 80, 57, 67, 68, 90, 91,
];

/// The packet called small, typical, full, refused or roomy, or by its size: 1KB, 2KB, 4KB, 8KB.
pub fn named(name: &str) -> Option<Vec<u8>> {
    match name {
        "small" => Some(packet(&small(), false)),
        "typical" => Some(packet(&typical(), false)),
        "full" => Some(of_kilobytes(8)),
        "refused" => Some(wrong_checksum(packet(&typical(), false))),
        "roomy" => Some(packet(&typical(), true)),
        size => {
            let kilobytes = size.strip_suffix("KB")?.parse().ok()?;
            (1..=8)
                .contains(&kilobytes)
                .then(|| of_kilobytes(kilobytes))
        }
    }
}

fn wrong_checksum(mut packet: Vec<u8>) -> Vec<u8> {
    if let Some(last) = packet.last_mut() {
        *last ^= 1;
    }
    packet
}

/// 60 bytes: time, version, where the sensor is, heading and speeds.
fn small() -> Vec<Item> {
    let mut items = vec![(TIME.0, TIME.1.to_vec())];
    items.extend([65, 13, 14, 15, 5, 8, 9].map(made_up));
    items
}

/// 300 bytes, 40 items: what an aircraft sends with most pictures, three items of it outside the catalogue.
pub fn typical() -> Vec<Item> {
    let mut items = vec![(TIME.0, TIME.1.to_vec())];
    items.extend([65, 5, 6, 7].map(made_up));
    items.push((3, b"MISSION 12".to_vec()));
    items.push((10, b"AEROSONDE".to_vec()));
    items.push((11, b"EO NOSE".to_vec()));
    items.push((12, b"Geodetic WGS84".to_vec()));
    items.extend((13..=39).map(made_up));
    items.push((47, vec![0x31]));
    items.push((48, vec![0x5A; 40]));
    items.push((74, vec![0xC3; 36]));
    items
}

/// 16 items a kilobyte: eight of the catalogue and eight carried ones, every fourth of these with a tag of two bytes.
fn of_kilobytes(kilobytes: usize) -> Vec<u8> {
    let pairs = 8 * kilobytes - 2;
    let carried_tag = |n: u64| match 92 + n % 36 {
        _ if n % 4 == 3 => 128 + n,
        // Of the catalogue, and so not carried.
        tag @ 103..=105 => tag - 3,
        tag => tag,
    };
    let mut items = vec![(TIME.0, TIME.1.to_vec()), (92, vec![]), (93, vec![])];
    for (n, &tag) in (0..).zip(&KNOWN_TAGS[..pairs]) {
        items.extend([made_up(tag), (carried_tag(n), vec![])]);
    }
    fill_up(&mut items, 1024 * kilobytes);
    packet(&items, false)
}

/// Gives the empty values their even share of what is left of the size.
fn fill_up(items: &mut [Item], size: usize) {
    // The key and an outer length of three bytes stand before the items.
    let left = size - 19 - body(items, false).len();
    let empty = items.iter().filter(|item| item.1.is_empty()).count();
    let shares = (0..empty).map(|n| (left + n) / empty);
    let values = items.iter_mut().map(|item| &mut item.1);
    for (value, share) in values.filter(|value| value.is_empty()).zip(shares) {
        value.resize(share, 0x96);
    }
}

/// A catalogue item of the right length.
fn made_up(tag: u64) -> Item {
    let length = match tag {
        34 | 63 => return (tag, vec![1]),
        8 | 9 | 36 | 39 | 55 | 56 | 65 => 1,
        13 | 14 | 18..=21 | 23 | 24 | 57 | 67 | 68 | 82..=91 => 4,
        3 | 4 | 10..=12 | 59 | 70 => 20,
        _ => 2,
    };
    (tag, (0..length).map(|n| (tag * 5 + n * 77) as u8).collect())
}

/// The packet of these items and a right checksum, each length in its shortest form or with two bytes too many.
pub fn packet(items: &[Item], roomy: bool) -> Vec<u8> {
    let body = body(items, roomy);
    let mut packet = KEY.to_vec();
    put_length(&mut packet, body.len(), roomy);
    packet.extend(body);
    seal(&mut packet);
    packet
}

/// The bytes of these items and of a checksum that is still zero.
fn body(items: &[Item], roomy: bool) -> Vec<u8> {
    let mut body = Vec::new();
    for (tag, value) in items {
        put_tag(&mut body, *tag);
        put_length(&mut body, value.len(), roomy);
        body.extend(value);
    }
    body.extend([1, 2, 0, 0]);
    body
}

/// Puts the right checksum into the last two bytes.
pub fn seal(packet: &mut [u8]) {
    if let Some((summed, sum)) = packet.split_last_chunk_mut::<2>() {
        *sum = checksum(summed).to_be_bytes();
    }
}

fn put_tag(bytes: &mut Vec<u8>, tag: u64) {
    for shift in [14, 7] {
        if tag >> shift > 0 {
            bytes.push(0x80 | (tag >> shift) as u8);
        }
    }
    bytes.push((tag & 0x7F) as u8);
}

fn put_length(bytes: &mut Vec<u8>, length: usize, roomy: bool) {
    let [high, low] = (length as u16).to_be_bytes();
    match length {
        _ if roomy => bytes.extend([0x83, 0, high, low]),
        0..=0x7F => bytes.push(low),
        0x80..=0xFF => bytes.extend([0x81, low]),
        _ => bytes.extend([0x82, high, low]),
    }
}
