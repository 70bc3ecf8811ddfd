//! The rival's conversions: a table by tag, and a multiplication where the rule has a division; shifts for the extended heights.

use super::{catalogue, refusal, Refusal, HIGHEST, NUMBER_OR_MARK};

const DEGREE: i64 = 10_000_000;
/// A metre, a metre a second, a millibar, a percent and a degree C.
const WHOLE: i64 = 1_000;

/// Tags beside the lowest and the highest value of their scale, in house units.
const RANGES: [(&[usize], i64, i64); 16] = [
    (&[5, 18, 20, 35, 64, 71], 0, 360 * DEGREE),
    (&[6], -20 * DEGREE, 20 * DEGREE),
    (&[7], -50 * DEGREE, 50 * DEGREE),
    (&[8, 9, 56], 0, 255 * WHOLE),
    (
        &[13, 23, 67, 82, 84, 86, 88, 90, 91],
        -90 * DEGREE,
        90 * DEGREE,
    ),
    (
        &[14, 19, 24, 68, 83, 85, 87, 89],
        -180 * DEGREE,
        180 * DEGREE,
    ),
    (&[15, 25, 38, 75, 78], -900 * WHOLE, 19_000 * WHOLE),
    (&[16, 17], 0, 180 * DEGREE),
    (&[21, 57], 0, 5_000_000 * WHOLE),
    (&[22], 0, 10_000 * WHOLE),
    (
        &[26, 27, 28, 29, 30, 31, 32, 33],
        -75 * DEGREE / 1_000,
        75 * DEGREE / 1_000,
    ),
    (&[36], 0, 100 * WHOLE),
    (&[55], 0, 100 * WHOLE),
    (&[37], 0, 5_000 * WHOLE),
    (&[39], -128 * WHOLE, 127 * WHOLE),
    (&[79, 80], -327 * WHOLE, 327 * WHOLE),
];

/// A fraction as its whole part and the rest in parts of 2^64, rounded up.
#[derive(Clone, Copy)]
struct Ratio {
    whole: u64,
    rest: u64,
}

impl Ratio {
    /// The fraction by which numbers up to `most` are to be multiplied. What rounding adds to a product is then less than any
    /// product lacks to a tie, so that the nearest whole number stays right.
    const fn new(top: u64, bottom: u64, most: u64) -> Ratio {
        let (mut a, mut common) = (top, bottom);
        while a > 0 {
            (a, common) = (common % a, a);
        }
        assert!(2 * most as u128 * (bottom / common) as u128 <= 1 << 64);
        let rest = ((top % bottom) as u128) << 64;
        Ratio {
            whole: top / bottom,
            rest: rest.div_ceil(bottom as u128) as u64,
        }
    }

    /// The nearest whole number to the product, a tie going up.
    fn times(self, n: u64) -> u64 {
        let rest = u128::from(n) * u128::from(self.rest);
        n * self.whole + ((rest + (1 << 63)) >> 64) as u64
    }
}

/// An item's scale: codes are below a limit, which is 0 where there is no scale; values are counted from the origin. Without a
/// mark the limit stands for it.
#[derive(Clone, Copy)]
struct Scale {
    limit: u64,
    mark: u64,
    shift: u32,
    low: i64,
    high: i64,
    origin: i64,
    units: Ratio,
    codes: Ratio,
}

static SCALES: [Scale; 128] = scales();

const NONE: Scale = Scale {
    limit: 0,
    mark: 0,
    shift: 0,
    low: 0,
    high: 0,
    origin: 0,
    units: Ratio { whole: 0, rest: 0 },
    codes: Ratio { whole: 0, rest: 0 },
};

const fn scales() -> [Scale; 128] {
    let rules = catalogue();
    let mut scales = [NONE; 128];
    let mut range = 0;
    while range < RANGES.len() {
        let (tags, low, high) = RANGES[range];
        let mut n = 0;
        while n < tags.len() {
            let rule = rules[tags[n]];
            let has_mark = rule.form == NUMBER_OR_MARK;
            let is_signed = has_mark || tags[n] == 39;
            scales[tags[n]] = scale(8 * rule.least as u32, is_signed, has_mark, low, high);
            n += 1;
        }
        range += 1;
    }
    scales
}

const fn scale(bits: u32, is_signed: bool, has_mark: bool, low: i64, high: i64) -> Scale {
    let limit = 1 << bits;
    let (origin, steps) = if is_signed {
        (0, limit / 2 - 1)
    } else {
        (low, limit - 1)
    };
    let reach = (high - origin) as u64;
    Scale {
        limit,
        mark: if has_mark { limit / 2 } else { limit },
        // An unsigned code has one bit more, which is never set.
        shift: 64 - bits - !is_signed as u32,
        low,
        high,
        origin,
        units: Ratio::new(reach, steps, steps + 1),
        codes: Ratio::new(steps, reach, reach + reach / steps),
    }
}

/// The scale of a tag, if it has one that goes by the tag alone.
fn scale_of(tag: u64) -> Option<&'static Scale> {
    SCALES.get(tag as usize).filter(|scale| scale.limit > 0)
}

const LOW: i64 = -900 * WHOLE;
const HIGH: i64 = 40_000 * WHOLE;

/// How many bits a code of this length lacks to one of four bytes, of which 2^15 are a metre.
fn bits_lacking(tag: u64, length: usize) -> Result<u32, Refusal> {
    match (tag, length) {
        (103..=105, 2..=4) => Ok(32 - 8 * length as u32),
        _ => Err(refusal(19, 0, tag)),
    }
}

/// What the code of an extended height stands for: a unit is 2^12 / 125 codes of four bytes.
#[inline(never)]
fn extended_to_house(tag: u64, length: usize, code: u64) -> Result<i64, Refusal> {
    let lacking = bits_lacking(tag, length)?;
    if code > u64::from(u32::from_be_bytes(HIGHEST) >> lacking) {
        return Err(refusal(20, 0, tag));
    }
    let units = ((code << lacking) * 125 + (1 << 11)) >> 12;
    Ok(LOW + units as i64)
}

/// The code of an extended height at or below a value.
#[inline(never)]
fn extended_to_code(tag: u64, length: usize, value: i64) -> Result<u64, Refusal> {
    let lacking = bits_lacking(tag, length)?;
    if !(LOW..=HIGH).contains(&value) {
        return Err(refusal(21, 0, tag));
    }
    let codes = (value.abs_diff(LOW) << 12) / 125;
    Ok(codes >> lacking)
}

fn with_sign(far: u64, is_below: bool) -> i64 {
    if is_below {
        -(far as i64)
    } else {
        far as i64
    }
}

impl Scale {
    /// What a code that is a number stands for.
    #[inline(always)]
    fn house(&self, code: u64) -> i64 {
        let number = (code << self.shift) as i64 >> self.shift;
        self.origin + with_sign(self.units.times(number.unsigned_abs()), number < 0)
    }
}

/// What a code of so many bytes stands for, in house units.
#[inline(never)]
pub fn to_house(tag: u64, length: usize, code: u64) -> Result<i64, Refusal> {
    let Some(scale) = scale_of(tag) else {
        return extended_to_house(tag, length, code);
    };
    if code >= scale.limit || code == scale.mark {
        return Err(refusal(20, 0, tag));
    }
    Ok(scale.house(code))
}

/// The code of so many bytes nearest to a value in house units, or at or below it.
#[inline(never)]
pub fn to_code(tag: u64, length: usize, value: i64) -> Result<u64, Refusal> {
    let Some(scale) = scale_of(tag) else {
        return extended_to_code(tag, length, value);
    };
    if value < scale.low || value > scale.high {
        return Err(refusal(21, 0, tag));
    }
    let far = value - scale.origin;
    let code = with_sign(scale.codes.times(far.unsigned_abs()), far < 0);
    Ok(code as u64 & (scale.limit - 1))
}

/// What the code of an item that is a number stands for, or nothing for a mark.
#[inline(always)]
pub fn house_or_mark(tag: usize, code: u64) -> Option<i64> {
    let scale = &SCALES[tag];
    (code != scale.mark).then(|| scale.house(code))
}
