//! The writers on the rows of packets, and on damaged ones.

use super::{damaged_packet, in_numbers, lent, Dice, Lent, Met, PLENTY};
use crate::rival;
use oysterknoll::{Knowing, Present, LONGEST_PACKET, TABLE_WORDS};

/// What a writer is lent beside the set and the output.
#[derive(Debug)]
struct Table {
    words: Vec<u64>,
    count: usize,
    buffer: Vec<u8>,
}

impl Table {
    /// The words that a scan of the rows gives.
    fn present(&self) -> [u64; 2] {
        let mut present = [0; 2];
        for row in self.words.chunks_exact(4).take(self.count) {
            if row[0] < 128 && row[1] != 4 {
                present[(row[0] / 64) as usize] |= 1 << (row[0] % 64);
            }
        }
        present
    }
}

/// Compares the writers on the rows of these packets and on so many damaged tables, and answers how often each refusal was met by the
/// one that is handed words, written packets at 0.
pub fn compare_writers<'a>(
    whole: impl Iterator<Item = &'a Vec<u8>>,
    damaged: usize,
) -> Result<Met, String> {
    let mut met = [0; 23];
    for table in whole.filter_map(|packet| table_of(packet, Knowing::ALL)) {
        met[compare(&table, table.present(), &PLENTY)?] += 1;
    }
    let mut dice = Dice(601);
    let mut left = damaged;
    while left > 0 {
        let (packet, lent) = (damaged_packet(&mut dice), lent(&mut dice));
        let table = table_of(&packet, lent.knowing).or(table_of(&packet, Knowing::ALL));
        if let Some(mut table) = table {
            for _ in 0..dice.throw(3) {
                damage(&mut table, &mut dice);
            }
            let mut present = table.present();
            if dice.throw(4) == 0 {
                present[dice.throw(2)] ^= 1 << dice.throw(64);
            }
            met[compare(&table, present, &lent)?] += 1;
            left -= 1;
        }
    }
    Ok(met)
}

/// The rows of an accepted packet, in a buffer that is long enough for rows too long.
fn table_of(packet: &[u8], knowing: Knowing) -> Option<Table> {
    let (low, high) = knowing.words();
    let (mut words, mut buffer) = (vec![0; TABLE_WORDS], packet.to_vec());
    let count = rival::read(packet, low, high, &mut words).ok()?.count;
    buffer.resize(LONGEST_PACKET, 0x5A);
    Some(Table {
        words,
        count,
        buffer,
    })
}

/// The number of the refusal, with the words handed, where answers and outputs agree with and without them.
fn compare(table: &Table, present: [u64; 2], lent: &Lent) -> Result<usize, String> {
    let Table {
        words,
        count,
        buffer,
    } = table;
    let (low, high) = lent.knowing.words();
    let [mut out, mut rival_out, mut plain, mut rival_plain] =
        [(); 4].map(|()| vec![0xA5; lent.out_bytes]);
    let knowing = lent.knowing;
    let handed = Present::from_words(present[0], present[1]);
    let written = oysterknoll::write_with(words, *count, buffer, knowing, handed, &mut out);
    let unhanded = oysterknoll::write(words, *count, buffer, knowing, &mut plain);
    let answers = [written, unhanded].map(|answer| answer.map_err(in_numbers));
    let rival_answers = [
        rival::write_with(words, *count, buffer, low, high, present, &mut rival_out),
        rival::write(words, *count, buffer, low, high, &mut rival_plain),
    ];
    if answers == rival_answers && out == rival_out && plain == rival_plain {
        Ok(written.map_or_else(|refusal| refusal.number() as usize, |_| 0))
    } else {
        Err(format!(
            "the rival disagrees on {table:X?} with {lent:?}, {present:X?}: {answers:?}, {rival_answers:?}"
        ))
    }
}

/// A table whose count is wrong already is left as it is.
fn damage(table: &mut Table, dice: &mut Dice) {
    let room = table.words.len() / 4;
    if !(1..=room).contains(&table.count) {
        return;
    }
    let last = table.count - 1;
    let n = [0, 1, last, dice.throw(table.count)][dice.throw(4)].min(last);
    match dice.throw(16) {
        0 => table.count = [0, 1, 127, 128, 129, usize::MAX][dice.throw(6)],
        1 => table.words.truncate(dice.throw(TABLE_WORDS)),
        2 => table.buffer.truncate(dice.throw(400)),
        3..=5 => drop_row(table, n),
        6..=8 => copy_row(table, n, [1, 60][dice.throw(2)].min(room - table.count)),
        9..=11 => change_judged(table, dice),
        _ => damage_row(&mut table.words[4 * n..4 * n + 4], dice),
    }
}

fn drop_row(table: &mut Table, n: usize) {
    table.words.drain(4 * n..4 * n + 4);
    table.count -= 1;
}

/// Puts copies of a row before the last one.
fn copy_row(table: &mut Table, n: usize, copies: usize) {
    let rows = table.words[4 * n..4 * n + 4].repeat(copies);
    let (last, end) = (4 * table.count - 4, table.words.len());
    table.words.splice(last..last, rows);
    table.words.truncate(end);
    table.count += copies;
}

/// Gives texts other lengths, items of one byte other codes and extended heights those about the highest, so that 12 and 14 may come.
fn change_judged(table: &mut Table, dice: &mut Dice) {
    for row in table.words.chunks_exact_mut(4) {
        match (row[1], row[3] % 0x1_0000) {
            (3, _) if dice.throw(4) == 0 => {
                row[3] = [0, 1, 127, 128, 255, 256][dice.throw(6)];
            }
            (1, 1) => row[2] = dice.throw(10) as u64,
            (1, length @ 2..=4) if (103..=105).contains(&row[0]) => {
                row[2] = (0x4FE2_0000 >> (32 - 8 * length)) + dice.throw(3) as u64;
            }
            _ => {}
        }
    }
}

/// Changes a word of a row.
fn damage_row(row: &mut [u64], dice: &mut Dice) {
    let bit = 1 << dice.throw(64);
    let tags = [
        0, 1, 2, 34, 65, 104, 128, 16_383, 16_384, 2_097_151, 2_097_152,
    ];
    let bits = [0, 1, 3, 7, 8, 15, 16, 31, 32, 63];
    let lengths = [0, 1, 2, 3, 4, 5, 127, 128, 255, 256, 8_000];
    let (place, length) = (row[3] >> 16, row[3] & 0xFFFF);
    match dice.throw(8) {
        0 => row[0] = tags[dice.throw(11)],
        1 => row[1] = dice.throw(7) as u64,
        2 => row[1..3].copy_from_slice(&[1 + dice.throw(2) as u64, 1 << bits[dice.throw(10)]]),
        3 => row[3] = place << 16 | lengths[dice.throw(11)],
        4 => row[3] = (dice.throw(9_000) as u64) << 16 | length,
        5 => row[1] = 5,
        6 => row[1..].copy_from_slice(&[5, 0, (dice.throw(9_000) as u64) << 16]),
        _ => row[dice.throw(4)] ^= bit,
    }
}
