//! Before times are compared, the library and the rival must give the same answers and leave the same memory.

mod conversions;
mod tables;

pub use conversions::compare_conversions;
pub use tables::compare_writers;

use crate::packets::{self, Item};
use crate::rival::{self, ground};
use oysterknoll::{Accepted, Corner, Knowing, Present, Refusal, LONGEST_PACKET, TABLE_WORDS};

/// Numbers that look random, the same in every run.
struct Dice(u64);

impl Dice {
    fn throw(&mut self, sides: usize) -> usize {
        self.0 = self.0.wrapping_add(0x9E37_79B9_7F4A_7C15);
        let mixed = (self.0 ^ (self.0 >> 30)).wrapping_mul(0xBF58_476D_1CE4_E5B9);
        ((mixed >> 32) as usize) % sides
    }
}

/// What is lent beside the packet.
#[derive(Debug)]
struct Lent {
    knowing: Knowing,
    table_words: usize,
    out_bytes: usize,
}

const PLENTY: Lent = Lent {
    knowing: Knowing::ALL,
    table_words: TABLE_WORDS + 8,
    out_bytes: LONGEST_PACKET,
};

/// How often each refusal was met, by its number; what was accepted at 0.
type Met = [usize; 23];

/// Compares on these packets and on so many damaged ones, and answers how often each refusal was met, accepted packets at 0.
pub fn compare_all<'a>(
    whole: impl Iterator<Item = &'a Vec<u8>>,
    damaged: usize,
) -> Result<Met, String> {
    let mut met = [0; 23];
    for packet in whole {
        met[compare(packet, &PLENTY)?] += 1;
    }
    let mut dice = Dice(601);
    for _ in 0..damaged {
        let packet = damaged_packet(&mut dice);
        met[compare(&packet, &lent(&mut dice))?] += 1;
    }
    Ok(met)
}

/// The number of the forwarder's refusal where all answers and all memory agree.
fn compare(packet: &[u8], lent: &Lent) -> Result<usize, String> {
    let knowing = lent.knowing;
    let (low, high) = knowing.words();
    let tables = [(); 2].map(|()| vec![0xA5A5; lent.table_words]);
    let outs = [(); 2].map(|()| vec![0xA5; lent.out_bytes]);
    let ([mut table, mut rival_table], [mut out, mut rival_out]) = (tables, outs);
    let check = oysterknoll::check(packet, knowing);
    let check = check.map(in_words);
    let read = oysterknoll::read(packet, knowing, &mut table);
    let read = read.map(|rows| {
        in_words(Accepted {
            count: rows.len(),
            present: rows.present(),
            withdrawn: rows.withdrawn(),
        })
    });
    let forward = oysterknoll::forward(packet, knowing, &mut out).map_err(in_numbers);
    let same_corner = |k| corner(packet, knowing, k) == rival::corner(packet, low, high, k);
    let agree = check.map_err(in_numbers) == rival::check(packet, low, high)
        && read.map_err(in_numbers) == rival::read(packet, low, high, &mut rival_table)
        && forward == rival::forward(packet, low, high, &mut rival_out)
        && table == rival_table
        && out == rival_out
        && (0..6).all(same_corner)
        && check.map_or(true, |accepted| same_answers(accepted.present));
    if agree {
        Ok(forward.map_or_else(|refusal| refusal.number as usize, |_| 0))
    } else {
        Err(format!(
            "the rival disagrees on {packet:02X?} with {lent:?}"
        ))
    }
}

/// What the library has of an accepted packet as the rival gives it.
fn in_words(accepted: Accepted) -> rival::Accepted {
    rival::Accepted {
        count: accepted.count,
        present: accepted.present.words().into(),
        withdrawn: accepted.withdrawn.words().into(),
    }
}

/// Whether both answer alike which items are there.
fn same_answers(words: [u64; 2]) -> bool {
    let present = Present::from_words(words[0], words[1]);
    let mut tags = (0..300).chain([1 << 32, u64::MAX]);
    tags.all(|tag| present.has(tag) == rival::has(words, tag))
}

/// The library's answer on a corner as the rival gives it.
fn corner(packet: &[u8], knowing: Knowing, k: u64) -> Result<ground::Corner, rival::Refusal> {
    let corner = oysterknoll::corner(packet, knowing, k).map_err(in_numbers)?;
    Ok(match corner {
        Corner::At(point) => ground::Corner::At(point.latitude, point.longitude),
        Corner::OffTheEarth => ground::Corner::OffTheEarth,
        Corner::Missing => ground::Corner::Missing,
    })
}

fn in_numbers(refusal: Refusal) -> rival::Refusal {
    rival::Refusal {
        number: refusal.number(),
        place: refusal.place,
        tag: refusal.tag,
    }
}

fn lent(dice: &mut Dice) -> Lent {
    let knowing = match dice.throw(8) {
        0 => Knowing::LEAST,
        1 => Knowing::ALL.with(dice.throw(128) as u64),
        2 => Knowing::ALL.without(103 + dice.throw(3) as u64),
        3 | 4 => (0..20).fold(Knowing::ALL, |set, _| {
            set.without(3 + dice.throw(62) as u64)
        }),
        _ => Knowing::ALL,
    };
    let table_words = TABLE_WORDS + 4 - dice.throw(6);
    let out_bytes = if dice.throw(8) == 0 {
        dice.throw(600)
    } else {
        LONGEST_PACKET
    };
    Lent {
        knowing,
        table_words,
        out_bytes,
    }
}

/// A typical packet with up to two faults in its items and up to two in its bytes, most often with a right checksum.
fn damaged_packet(dice: &mut Dice) -> Vec<u8> {
    let mut items = packets::typical();
    for _ in 0..dice.throw(3) {
        damage_items(&mut items, dice);
    }
    let mut packet = packets::packet(&items, dice.throw(4) == 0);
    for _ in 0..dice.throw(3) {
        damage_bytes(&mut packet, dice);
    }
    if dice.throw(8) > 0 {
        packets::seal(&mut packet);
    }
    packet
}

fn damage_items(items: &mut Vec<Item>, dice: &mut Dice) {
    let (n, m) = (dice.throw(items.len()), dice.throw(items.len()));
    match dice.throw(14) {
        0 => drop(items.remove(n)),
        1 => items.insert(m, items[n].clone()),
        2 => items.swap(n, m),
        3 => {
            items[n].0 = [1, 2, 5, 34, 63, 65, 127, 128, 16_383, 16_384, 2_097_151][dice.throw(11)]
        }
        4 => items[n]
            .1
            .resize([0, 1, 2, 3, 4, 5, 8, 127, 128, 256, 300][dice.throw(11)], 1),
        5 => items.extend((0..dice.throw(140)).map(|k| (100, vec![0; k % 3]))),
        6 => items.push(([34, 63][dice.throw(2)], vec![dice.throw(11) as u8])),
        7 => mark(&mut items[n].1),
        8 | 9 => items.insert(m, height(dice)),
        10 => {
            items.extend((82..82 + dice.throw(9) as u64).map(|tag| (tag, vec![tag as u8; 4])));
            let length = items.len();
            mark(&mut items[length - 1 - dice.throw(4)].1);
        }
        11 | 12 => items[n].1.clear(),
        _ => items.extend((0..dice.throw(60)).map(|k| (128 + k as u64, vec![k as u8; 200]))),
    }
}

/// An extended height, of a right length mostly, about its highest value or anywhere.
fn height(dice: &mut Dice) -> Item {
    let length = [2, 3, 4, 2, 3, 4, 0, 1, 5][dice.throw(9)];
    let highest = [0x4F, 0xE2, 0, 0, 0];
    let mut value = highest[..length].to_vec();
    if let Some(last) = value.last_mut() {
        *last += dice.throw(3) as u8;
    }
    if dice.throw(2) == 0 {
        value.fill_with(|| dice.throw(0x60) as u8);
    }
    (103 + dice.throw(3) as u64, value)
}

/// The top bit alone, which is a mark where the item has one.
fn mark(value: &mut [u8]) {
    value.fill(0);
    if let Some(first) = value.first_mut() {
        *first = 0x80;
    }
}

fn damage_bytes(packet: &mut Vec<u8>, dice: &mut Dice) {
    let place = dice.throw(packet.len());
    match dice.throw(16) {
        0 => packet.truncate(place),
        1 => packet.push(0),
        2..=7 => {
            packet[place] =
                [0, 1, 2, 0x7F, 0x80, 0x81, 0x82, 0x83, 0x84, 0x85, 0xFF][dice.throw(11)]
        }
        _ => packet[place] ^= 1 << dice.throw(8),
    }
    if packet.is_empty() {
        packet.push(0);
    }
}
