//! The words and the buffer that an input lends to the writer, what it is handed beside them, and the records that they are.

use crate::input::Input;
use crate::packet::packet;
use crate::twin::{Row, Twin, CARRIED, MARK, READING, TEXT, WITHDRAWN};
use crate::twin_records::Record;
use crate::twin_write::Rows;

/// More than the rows of a table can have.
const MOST_WORDS: u64 = 640;

/// By its first byte the rest is words and then the buffer, or else a packet, whose rows are the words and which is the buffer, after up
/// to three changes of single words.
pub fn words_and_buffer(mut input: Input, set: u128) -> (Vec<u64>, Vec<u8>) {
    match input.byte() % 5 {
        0 => {
            let length = input.number().min(MOST_WORDS);
            let words = (0..length).map(|_| input.word()).collect();
            (words, input.rest().to_vec())
        }
        after => words_of_packet(input, after - 1, set),
    }
}

fn words_of_packet(mut input: Input, changes: u8, set: u128) -> (Vec<u64>, Vec<u8>) {
    let changes: Vec<(u64, u64)> = (0..changes)
        .map(|_| (input.number(), input.word()))
        .collect();
    let packet = packet(input);
    let rows = Twin::TRUE.read(&packet, set, None).unwrap_or_default();
    let mut words: Vec<u64> = rows.iter().flat_map(|row| row.words()).collect();
    for (place, more) in changes {
        if let Some(word) = words.get_mut(place as usize) {
            *word = word.wrapping_add(more);
        }
    }
    (words, packet)
}

/// Which items are said to be there: for 0 those of the rows, up to 128 with one bit wrong, else by the number alone.
pub fn handed(lent: Rows, number: usize) -> u128 {
    let right = Twin::TRUE.words_of(&lent.rows());
    match number {
        0 => right,
        1..=128 => right ^ 1 << (number - 1),
        _ => number as u128 | (number as u128) << 64,
    }
}

/// A record for every row in the words. What no record can be is the next best: a kind is taken modulo 5, and a part beyond the buffer is
/// empty.
pub fn records<'a>(words: &[u64], buffer: &'a [u8]) -> Vec<Record<'a>> {
    let rows = words.chunks_exact(4).map(Row::from_words);
    rows.map(|row| record(&row, buffer)).collect()
}

fn record<'a>(row: &Row, buffer: &'a [u8]) -> Record<'a> {
    let part = buffer
        .get(row.place..)
        .and_then(|rest| rest.get(..row.length));
    Record {
        tag: row.tag,
        kind: [WITHDRAWN, READING, MARK, TEXT, CARRIED][(row.kind % 5) as usize],
        code: row.code,
        length: row.length,
        value: part.unwrap_or_default(),
    }
}
