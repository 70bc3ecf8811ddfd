//! The packet that an input's rest is, repaired where asked: few changes of a packet would leave its checksum right.

use crate::catalogue::{form, Form};
use crate::input::Input;
use crate::wire::{checksum, length_at, put_length, put_number, put_tag, KEY};

/// The items that stand first; the checksum's, whose sum is put right later, stands last.
const FIRST: [u8; 13] = [2, 8, 0, 0, 0, 0, 0, 0, 0, 1, 65, 1, 17];
const LAST: [u8; 4] = [1, 2, 0, 0];

/// By its first byte the rest is a packet as it stands; one whose checksum is put right; one whose outer length is put right too; the
/// items alone, in front of which key and length are put; what stands among the items that no packet is without; or tags and values, of
/// which items are made to stand there.
pub fn packet(mut input: Input) -> Vec<u8> {
    match input.byte() % 8 {
        0 => input.rest().to_vec(),
        1 => with_checksum(input.rest().to_vec()),
        2 => with_checksum(with_outer_length(input.rest())),
        3 => with_checksum(framed(&KEY, input.rest(), 0)),
        4 => among(input.rest()),
        _ => among(&items(input)),
    }
}

/// A packet of these items among those that no packet is without.
fn among(items: &[u8]) -> Vec<u8> {
    with_checksum(framed(&KEY, &[&FIRST, items, &LAST].concat(), 0))
}

/// Each item is its tag and its value; where the catalogue does not fix a length, one byte of it stands between them. An empty item, by which
/// a known one is withdrawn, is 0 and its tag.
fn items(mut input: Input) -> Vec<u8> {
    let mut items = Vec::new();
    while !input.is_empty() {
        let first = input.byte();
        let is_empty = first == 0;
        let tag = u64::from(if is_empty { input.byte() } else { first });
        let length = match form(tag).and_then(Form::bytes) {
            _ if is_empty => 0,
            Some(fixed) => fixed,
            None => usize::from(input.byte()),
        };
        put_tag(&mut items, tag);
        put_length(&mut items, length, 0);
        items.extend((0..length).map(|_| input.byte()));
    }
    items
}

fn framed(key: &[u8], items: &[u8], length_bytes: usize) -> Vec<u8> {
    let mut packet = key.to_vec();
    put_length(&mut packet, items.len(), length_bytes);
    packet.extend_from_slice(items);
    packet
}

/// The outer length says what is left and keeps its form, where it has one.
fn with_outer_length(bytes: &[u8]) -> Vec<u8> {
    let (key, rest) = bytes.split_at(KEY.len().min(bytes.len()));
    match length_at(rest) {
        Some((_, size)) => framed(key, &rest[size..], size - 1),
        None => bytes.to_vec(),
    }
}

/// The last two bytes are the sum of all before them.
fn with_checksum(mut packet: Vec<u8>) -> Vec<u8> {
    if let Some(place) = packet.len().checked_sub(2) {
        packet.truncate(place);
        let sum = checksum(&packet);
        put_number(&mut packet, sum, 2);
    }
    packet
}
