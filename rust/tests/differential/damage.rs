//! Packets damaged in a place or two, and noise.

use crate::make::{repair_checksum, Maker};
use crate::wire::{put_length, KEY};

/// More bytes than a length may have, by which 0x85 and above are written.
const FORBIDDEN_LENGTH_BYTES: [usize; 3] = [5, 6, 8];

impl Maker {
    /// Any packet: good, damaged or noise.
    pub fn packet(&mut self, packet: &mut Vec<u8>) {
        match self.random.below(16) {
            0..=4 => self.good_packet(packet),
            5..=8 => self.packet_of_damaged_parts(packet),
            9..=11 => self.packet_of_damaged_items(packet),
            12..=14 => {
                self.good_packet(packet);
                self.damage_bytes(packet);
            }
            _ => self.noise(packet),
        }
    }

    /// An item dropped, doubled, moved or of a wrong length, all else being right.
    fn packet_of_damaged_parts(&mut self, packet: &mut Vec<u8>) {
        self.make_parts();
        self.damage_parts();
        // A second fault shows which of two refusals comes first.
        if self.random.one_in(3) {
            self.damage_parts();
        }
        self.encode_parts();
        let outer = match self.random.below(32) {
            0 => self.random.pick(&FORBIDDEN_LENGTH_BYTES),
            _ => self.long_form(),
        };
        self.wrap(packet, outer);
        if !self.random.one_in(16) {
            repair_checksum(packet);
        }
    }

    fn damage_parts(&mut self) {
        if self.parts.is_empty() {
            return;
        }
        let n = self.random.below(self.parts.len());
        let to = self.random.below(self.parts.len());
        match self.random.below(9) {
            0 => {
                self.parts.remove(n);
            }
            1 => self.parts.insert(to, self.parts[n]),
            2 => {
                let mut doubled = self.parts[n];
                doubled.place = self.random.below(self.store.len() - doubled.length);
                // A tag stands once also where one of the two is withdrawn.
                if self.random.one_in(3) {
                    doubled.length = 0;
                }
                self.parts.insert(to, doubled);
            }
            3 => {
                let part = self.parts.remove(n);
                self.parts.insert(to, part);
            }
            4 => self.parts[n].tag = self.unknown_tag(),
            5 => self.parts[n].tag = self.parts[to].tag,
            6 if self.random.one_in(4) => self.parts.truncate(n),
            6 => self.parts[n].length_bytes = self.random.pick(&FORBIDDEN_LENGTH_BYTES),
            _ => self.wrong_length(n),
        }
    }

    fn wrong_length(&mut self, n: usize) {
        let part = &mut self.parts[n];
        part.length = match self.random.below(6) {
            0 => 0,
            1 => 128,
            2 => part.length / 2,
            3 => part.length + 1,
            4 => part.length + 2,
            _ => part.length.saturating_sub(1),
        };
        // A doubled item's value may stand near the store's end.
        part.length = part.length.min(self.store.len() - part.place);
    }

    /// The items' bytes damaged, then packed with a right outer length.
    fn packet_of_damaged_items(&mut self, packet: &mut Vec<u8>) {
        self.make_parts();
        self.encode_parts();
        let mut body = std::mem::take(&mut self.body);
        self.damage_bytes(&mut body);
        self.body = body;
        let outer = self.long_form();
        self.wrap(packet, outer);
        if !self.random.one_in(4) {
            repair_checksum(packet);
        }
    }

    /// A byte changed, bytes cut off or put in.
    fn damage_bytes(&mut self, bytes: &mut Vec<u8>) {
        let at = self.random.below(bytes.len());
        let near = self.random.below(bytes.len().min(24));
        match self.random.below(8) {
            0 => bytes.truncate(at),
            1 => {
                bytes.remove(at);
            }
            2 => {
                let byte = self.odd_byte();
                bytes.insert(at, byte);
            }
            3 => {
                for _ in 0..self.random.between(1, 4) {
                    let byte = self.odd_byte();
                    bytes.push(byte);
                }
            }
            4 => bytes[near] = self.odd_byte(),
            5 => bytes[at] ^= 1 << self.random.below(8),
            _ => bytes[at] = self.odd_byte(),
        }
    }

    fn odd_byte(&mut self) -> u8 {
        let any = self.random.next() as u8;
        let odd = [0, 1, 2, 65, 0x7F, 0x80, 0x81, 0x82, 0x84, 0x85, 0xFF];
        if self.random.one_in(2) {
            any
        } else {
            self.random.pick(&odd)
        }
    }

    /// Odd bytes, mostly after what a good packet begins with.
    fn noise(&mut self, packet: &mut Vec<u8>) {
        let length = match self.random.below(32) {
            0 => self.random.between(8_100, 8_300),
            1..=4 => self.random.between(16, 400),
            _ => self.random.below(40),
        };
        self.body.clear();
        for _ in 0..length {
            let byte = self.odd_byte();
            self.body.push(byte);
        }
        match self.random.below(6) {
            0 => packet.clone_from(&self.body),
            1 => {
                packet.clear();
                packet.extend_from_slice(&KEY);
                packet.extend_from_slice(&self.body);
            }
            2 | 3 => self.wrap(packet, 0),
            _ => self.noise_in_a_frame(packet),
        }
    }

    /// Noise between a first item, item 65 and the checksum.
    fn noise_in_a_frame(&mut self, packet: &mut Vec<u8>) {
        let noise = std::mem::take(&mut self.body);
        self.body
            .extend_from_slice(&[2, 8, 0, 0, 0, 0, 0, 0, 0, 1, 65, 1, 17]);
        if self.random.one_in(2) {
            put_tag_of_noise(&mut self.body, noise.len());
        }
        self.body.extend_from_slice(&noise);
        self.body.extend_from_slice(&[1, 2, 0, 0]);
        self.wrap(packet, 0);
        repair_checksum(packet);
    }
}

/// A head that makes an unknown item of the bytes after it.
fn put_tag_of_noise(body: &mut Vec<u8>, length: usize) {
    body.push(127);
    put_length(body, length, 0);
}
