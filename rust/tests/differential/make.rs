//! Seeded packets and knowing sets: good ones of every shape, damaged ones, noise.

use crate::catalogue::{form, knows, tags_of, Form, ALL, SMALLEST};
use crate::random::Random;
use crate::wire::{checksum, put_length, put_number, put_tag, KEY, LAST_TAG, MOST_BYTES};

/// An item in the making; its value stands in the maker's store.
#[derive(Clone, Copy)]
pub struct Part {
    pub tag: u64,
    /// At least so many bytes after the length's first one.
    pub length_bytes: usize,
    pub place: usize,
    pub length: usize,
}

/// Makes packets in buffers that it keeps.
pub struct Maker {
    pub random: Random,
    pub parts: Vec<Part>,
    pub store: Vec<u8>,
    pub body: Vec<u8>,
    catalogue: Vec<u64>,
}

/// The rows that heights and corners use.
const PLACES: [u64; 23] = [
    75, 15, 104, 78, 25, 23, 24, 26, 27, 28, 29, 30, 31, 32, 33, 82, 83, 84, 85, 86, 87, 88, 89,
];

/// Bits of a knowing set that are no tag of the catalogue.
const OUTSIDE: [u32; 11] = [0, 40, 54, 58, 66, 69, 81, 92, 102, 106, 127];

/// Unknown tags at the ends of the encodings, and ones that a careless shift takes for known ones.
const ODD_TAGS: [u64; 16] = [
    40, 41, 66, 127, 128, 129, 130, 193, 258, 321, 16_383, 16_384, 16_386, 2_097_090, 2_097_150,
    LAST_TAG,
];

/// A value as long as the longest text, and some more for lengths made wrong.
const SPARE: usize = 160;

impl Maker {
    pub fn new() -> Maker {
        Maker {
            random: Random::of_case(0, 0, 0),
            parts: Vec::new(),
            store: Vec::new(),
            body: Vec::new(),
            catalogue: tags_of(ALL & !SMALLEST).collect(),
        }
    }

    /// A packet that is good for a receiver of its tags, save where 34 or 63 has another code or an extended height is wrong. Some items are
    /// withdrawn.
    pub fn good_packet(&mut self, packet: &mut Vec<u8>) {
        self.make_parts();
        self.encode_parts();
        let outer = self.long_form();
        self.wrap(packet, outer);
        repair_checksum(packet);
    }

    pub fn make_parts(&mut self) {
        self.parts.clear();
        self.store.clear();
        self.add(2);
        // Small ones mostly, since the others take many times as long.
        match self.random.below(128) {
            0 => self.add_others(122, 127),
            1 => self.add_large(),
            2 => self.add_to_the_limit(),
            3 => self.add_catalogue(),
            4..=9 => self.add_others(9, 40),
            10..=29 => self.add_places(),
            _ => self.add_others(0, 8),
        }
        self.insert_65();
        self.add(1);
        let spare = self.random.next().to_le_bytes();
        self.store.extend(spare.iter().cycle().take(SPARE));
    }

    fn insert_65(&mut self) {
        self.add(65);
        let at = self.random.between(1, self.parts.len() - 1);
        self.parts[at..].rotate_right(1);
    }

    fn add_others(&mut self, fewest: usize, most: usize) {
        let mut used: u128 = SMALLEST;
        for _ in 0..self.random.between(fewest, most) {
            let tag = self.other_tag(used);
            if tag < 128 {
                used |= 1 << tag;
            }
            self.add(tag);
        }
    }

    /// Every item of the catalogue, from anywhere in it.
    fn add_catalogue(&mut self) {
        let first = self.random.below(self.catalogue.len());
        for n in 0..self.catalogue.len() {
            let tag = self.catalogue[(first + n) % self.catalogue.len()];
            self.add(tag);
        }
    }

    /// The rows that heights and corners use, the frame centre often where an offset leads past a pole or the 180th meridian.
    fn add_places(&mut self) {
        for tag in PLACES {
            if self.random.one_in(6) {
                continue;
            }
            if (tag == 23 || tag == 24) && self.random.one_in(2) {
                let code = self.end_code();
                self.push(tag, 4);
                put_number(&mut self.store, code, 4);
            } else {
                self.add(tag);
            }
        }
    }

    /// A code of four bytes no farther from the ends of its range than an offset leads; half way between them is the mark.
    fn end_code(&mut self) -> u64 {
        const OFFSET: usize = 1_789_570;
        0x8000_0000 - OFFSET as u64 + self.random.below(2 * OFFSET + 1) as u64
    }

    fn add_large(&mut self) {
        for _ in 0..self.random.between(1, 6) {
            let tag = self.unknown_tag();
            let length = self.random.between(120, 2_000);
            self.add_value(tag, length);
        }
    }

    /// Parts with which the whole packet has about the greatest length allowed.
    fn add_to_the_limit(&mut self) {
        self.add_others(0, 4);
        self.encode_parts();
        let tag = self.random.pick(&[40, 127]);
        let others = KEY.len() + 3 + self.body.len() + 3 + 4 + 4;
        let wanted = self.random.between(MOST_BYTES - 3, MOST_BYTES + 3);
        self.add_value(tag, wanted - others);
    }

    /// A tag of the catalogue that is not used yet, or an unknown one.
    fn other_tag(&mut self, used: u128) -> u64 {
        if self.random.one_in(3) {
            return self.unknown_tag();
        }
        let tag = self.catalogue_tag();
        if knows(used, tag) {
            self.unknown_tag()
        } else {
            tag
        }
    }

    /// A tag of the catalogue besides those of the smallest set.
    pub fn catalogue_tag(&mut self) -> u64 {
        self.random.pick(&self.catalogue)
    }

    pub fn unknown_tag(&mut self) -> u64 {
        let tag = match self.random.below(4) {
            0 => self.random.between(40, 127),
            1 => self.random.between(128, 16_383),
            2 => self.random.between(16_384, LAST_TAG as usize),
            _ => 0,
        } as u64;
        match (tag, self.parts.last()) {
            (0, Some(last)) if form(last.tag).is_none() => last.tag,
            _ if tag == 0 || form(tag).is_some() => self.random.pick(&ODD_TAGS),
            _ => tag,
        }
    }

    /// Mostly none: at least so many bytes after a length's first one.
    pub fn long_form(&mut self) -> usize {
        if self.random.one_in(8) {
            self.random.between(1, 4)
        } else {
            0
        }
    }

    /// An item of this tag with a value as the catalogue would have it, or withdrawn.
    pub fn add(&mut self, tag: u64) {
        if self.is_withdrawn(tag) {
            return self.push(tag, 0);
        }
        match form(tag) {
            Some(Form::Plain { bytes: 1, last }) if !self.random.one_in(16) => {
                let code = self.random.below(last as usize + 1) as u8;
                self.push(tag, 1);
                self.store.push(code);
            }
            Some(Form::Extended) => self.add_height(tag),
            Some(Form::Text) => {
                let length = self.length(1, 127);
                self.add_value(tag, length);
            }
            Some(form) => {
                let bytes = form.bytes().unwrap_or(0);
                let code = self.code(bytes);
                self.push(tag, bytes);
                put_number(&mut self.store, code, bytes);
            }
            None => {
                let length = self.length(0, 300);
                self.add_value(tag, length);
            }
        }
    }

    /// An extended height, now and then of a length that it may not have.
    fn add_height(&mut self, tag: u64) {
        if self.random.one_in(24) {
            let length = self.random.below(9);
            return self.add_value(tag, length);
        }
        let length = self.random.between(2, 4);
        let code = self.height_code(length);
        self.push(tag, length);
        put_number(&mut self.store, code, length);
    }

    /// The code of an extended height of 2, 3 or 4 bytes, mostly in the range: at its ends, about a tie, or any.
    pub fn height_code(&mut self, length: usize) -> u64 {
        let last = Form::Extended.last(length);
        // Now and then about the range below zero, which is a small part of the whole.
        let part = self.random.pick(&[1, 1, 1, 40]);
        let any = self.random.below(last as usize + 1) as u64 / part;
        // Ties are the odd multiples of this; with 2 bytes there are none.
        let half = (1_u64 << (8 * length)) >> 21;
        match self.random.below(32) {
            0 => 0,
            1 | 2 => last,
            3 => last + 1,
            4 => self.code(length),
            5..=12 if length > 2 => ((any | half) & !(half - 1)) + self.random.below(2) as u64,
            _ => any,
        }
    }

    /// A short length mostly, now and then one at or between the ends.
    fn length(&mut self, low: usize, high: usize) -> usize {
        match self.random.below(24) {
            0 => self.random.between(low, high),
            1 => self.random.pick(&[low, 126, 127, 127, high]),
            _ => self.random.between(low, 6),
        }
    }

    /// A code of so many bytes, often at an edge.
    pub fn code(&mut self, bytes: usize) -> u64 {
        let all_ones = u64::MAX >> (64 - 8 * bytes);
        let mark = all_ones / 2 + 1;
        match self.random.below(32) {
            0 => 0,
            1 => all_ones,
            2 => mark - 1,
            3 => mark + 1,
            4 | 5 => mark,
            _ => self.random.next() & all_ones,
        }
    }

    pub fn add_value(&mut self, tag: u64, length: usize) {
        self.push(tag, length);
        let mut left = length;
        while left > 0 {
            let some = left.min(8);
            let bytes = self.random.next().to_le_bytes();
            self.store.extend_from_slice(&bytes[..some]);
            left -= some;
        }
    }

    /// An item whose value is about to be stored.
    fn push(&mut self, tag: u64, length: usize) {
        let length_bytes = self.long_form();
        self.parts.push(Part {
            tag,
            length_bytes,
            place: self.store.len(),
            length,
        });
    }

    /// The items' bytes from the parts.
    pub fn encode_parts(&mut self) {
        self.body.clear();
        for part in &self.parts {
            put_tag(&mut self.body, part.tag);
            put_length(&mut self.body, part.length, part.length_bytes);
            let value = &self.store[part.place..part.place + part.length];
            self.body.extend_from_slice(value);
        }
    }

    /// Key and outer length before the items.
    pub fn wrap(&self, packet: &mut Vec<u8>, outer: usize) {
        packet.clear();
        packet.extend_from_slice(&KEY);
        put_length(packet, self.body.len(), outer);
        packet.extend_from_slice(&self.body);
    }

    /// A knowing set of any sort, mostly good.
    pub fn set(&mut self) -> u128 {
        match self.random.below(16) {
            0 => self.bad_set(),
            1..=6 => ALL,
            _ => self.good_set(),
        }
    }

    pub fn good_set(&mut self) -> u128 {
        let any = self.random.pair();
        match self.random.below(8) {
            0 => SMALLEST,
            1 => ALL,
            2..=4 => SMALLEST | (ALL & any),
            _ => {
                let removed = [0; 3].map(|_: u64| 1 << self.catalogue_tag());
                ALL & !removed.iter().fold(0, |all: u128, one: &u128| all | one)
            }
        }
    }

    pub fn bad_set(&mut self) -> u128 {
        let good = self.good_set();
        match self.random.below(6) {
            0 => 0,
            1 => u128::MAX,
            2 => self.random.pair(),
            3 => good | 1 << self.random.pick(&OUTSIDE),
            _ => good & !(1 << self.random.pick(&[1, 2, 65])),
        }
    }
}

/// The last two bytes made the checksum of those before them.
pub fn repair_checksum(packet: &mut [u8]) {
    if let Some(at) = packet.len().checked_sub(2) {
        let sum = checksum(&packet[..at]) as u16;
        packet[at..].copy_from_slice(&sum.to_be_bytes());
    }
}
