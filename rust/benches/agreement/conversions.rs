//! The conversions at the edges of every scale, at random, and beside the ties between two codes.

use super::{in_numbers, Dice};
use crate::rival;

/// Compares all tags, so many codes and values of each, and answers how many conversions agreed.
pub fn compare_conversions(rounds: usize) -> Result<usize, String> {
    let mut dice = Dice(601);
    let mut compared = 0;
    for tag in (0..130).chain([u64::MAX]) {
        for length in LENGTHS {
            for code in edges() {
                compared += compare_code(tag, length, code)?;
            }
        }
        for _ in 0..rounds {
            let length = LENGTHS[dice.throw(LENGTHS.len())];
            let number = (dice.throw(1 << 32) as u64) << 32 | dice.throw(1 << 32) as u64;
            let code = number >> (8 * dice.throw(8));
            compared += compare_code(tag, length, code)?;
            compared += compare_value(tag, length, number as i64 >> 29)?;
        }
    }
    Ok(compared)
}

/// Those of the extended heights and some more; at every other tag none is asked.
const LENGTHS: [usize; 8] = [2, 3, 4, 0, 1, 5, 8, usize::MAX];

/// Powers of two, the highest codes of the extended heights, and what is beside them.
fn edges() -> impl Iterator<Item = u64> {
    let powers = (0..64).map(|bits| 1 << bits);
    let codes = powers.chain([0x4FE2, 0x4F_E200, 0x4FE2_0000]);
    codes.flat_map(|code: u64| [code - 1, code, code + 1])
}

/// A code, the values about what it stands for, and those about the middle between it and the next code.
fn compare_code(tag: u64, length: usize, code: u64) -> Result<usize, String> {
    let house = |code| oysterknoll::to_house(tag, length, code).map_err(in_numbers);
    let value = house(code);
    let rival_value = rival::to_house(tag, length, code);
    if value != rival_value {
        return Err(format!(
            "the rival disagrees on code {code} of tag {tag}, {length} bytes: {value:?}, {rival_value:?}"
        ));
    }
    let mut compared = 1;
    if let (Ok(value), Ok(next)) = (value, house(code.wrapping_add(1))) {
        for value in (-2..=2).flat_map(|by| [value + by, (value + next) / 2 + by]) {
            compared += compare_value(tag, length, value)?;
        }
    }
    Ok(compared)
}

fn compare_value(tag: u64, length: usize, value: i64) -> Result<usize, String> {
    let code = oysterknoll::to_code(tag, length, value).map_err(in_numbers);
    let rival_code = rival::to_code(tag, length, value);
    if code == rival_code {
        Ok(1)
    } else {
        Err(format!(
            "the rival disagrees on value {value} of tag {tag}, {length} bytes: {code:?}, {rival_code:?}"
        ))
    }
}
