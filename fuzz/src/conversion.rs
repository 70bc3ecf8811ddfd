//! The lengths, codes and values that numbers are for a tag. Few words as they stand are codes of an item, and hardly any is a tie.

use crate::twin::Twin;
use crate::twin_answers::Scale;

/// The length as it is, and one that an extended height may have.
pub fn lengths(length: u64) -> [usize; 2] {
    [length as usize, 2 + (length % 3) as usize]
}

/// The word, what is left of it in as many bits as the item has, and what is left of it up to the item's last code and at its ties.
pub fn codes(tag: u64, length: usize, word: u64) -> [u64; 4] {
    let last = Scale::of(tag, length).map_or(word, |scale| scale.last);
    let within = word % last.saturating_add(1);
    [
        word,
        narrow(tag, length, word),
        within,
        at_a_tie(tag, length, within),
    ]
}

/// The word, what it is within the item's range, the value midway between two codes, and what a code stands for.
pub fn values(tag: u64, length: usize, word: u64) -> [i64; 4] {
    let code = narrow(tag, length, word);
    [
        word as i64,
        within(tag, length, word),
        midway(tag, length, code),
        Twin::TRUE.to_house(tag, length, code).unwrap_or(0),
    ]
}

fn narrow(tag: u64, length: usize, word: u64) -> u64 {
    Scale::of(tag, length).map_or(word, |scale| word % (1 << scale.bits))
}

/// The code near this one of which an extended height's value is half way between two units; with 2 bytes there is none.
fn at_a_tie(tag: u64, length: usize, code: u64) -> u64 {
    match Scale::of(tag, length) {
        Some(scale) if scale.extended && length > 2 => {
            let half = 1 << (8 * length - 21);
            (code | half) & !(half - 1)
        }
        _ => code,
    }
}

fn within(tag: u64, length: usize, word: u64) -> i64 {
    Scale::of(tag, length).map_or(0, |scale| {
        let values = scale.high.abs_diff(scale.low) + 1;
        scale.low + (word % values) as i64
    })
}

/// Midway between the values of this code and the next; 0 where one of them has none.
fn midway(tag: u64, length: usize, code: u64) -> i64 {
    let house = |code| Twin::TRUE.to_house(tag, length, code);
    match (house(code), house(code.wrapping_add(1))) {
        (Ok(this), Ok(next)) => (this + next) / 2,
        _ => 0,
    }
}
