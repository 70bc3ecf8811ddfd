//! Codes and house units: edges, samples and all short codes, with the laws of nearness.

use crate::bench::Bench;
use crate::catalogue::{form, tags_of, Form, ALL};
use crate::compare::{holds, Comparer, Verdict};
use crate::make::Maker;
use crate::twin_answers::Scale;

/// Tags without scale, and none of the catalogue's.
const NO_SCALE: [u64; 16] = [
    0,
    1,
    2,
    3,
    34,
    40,
    63,
    65,
    70,
    127,
    128,
    133,
    154,
    1 << 32 | 5,
    1 << 63 | 26,
    u64::MAX,
];

/// Lengths that say nothing at most tags, and at an extended height are wrong but for three of them.
const LENGTHS: [usize; 12] = [
    0,
    1,
    2,
    3,
    4,
    5,
    7,
    8,
    127,
    65_536 + 3,
    1 << 32 | 2,
    usize::MAX,
];

/// A tag and a length, as a conversion is told them, and the scale that they have.
#[derive(Clone, Copy)]
pub struct Told {
    pub tag: u64,
    pub length: usize,
    pub scale: Scale,
}

impl Told {
    pub fn of(tag: u64, length: usize) -> Option<Told> {
        let scale = Scale::of(tag, length)?;
        Some(Told { tag, length, scale })
    }
}

/// The scales of so many bits at most, each told with its own length: an extended height has three.
pub fn scaled(most_bits: u32) -> impl Iterator<Item = Told> {
    let scaled = tags_of(ALL).flat_map(|tag| {
        let bytes = form(tag).and_then(Form::bytes);
        let lengths = bytes.map_or(2..=4, |bytes| bytes..=bytes);
        lengths.filter_map(move |length| Told::of(tag, length))
    });
    scaled.filter(move |told| told.scale.bits <= most_bits)
}

/// A code in product, twin and law.
pub fn code_agrees(comparer: &mut Comparer, told: Told, code: u64) -> Verdict {
    comparer.house_of(told.tag, told.length, code)?;
    house_law(told, code)
}

/// A value in product, twin and law.
pub fn value_agrees(comparer: &mut Comparer, told: Told, value: i64) -> Verdict {
    comparer.code_of(told.tag, told.length, value)?;
    code_law(told, value)
}

/// Codes at the edges of an item's width and of its last value, and too wide ones.
pub fn edge_codes(scale: Scale) -> [u64; 15] {
    let too_wide = 1 << scale.bits;
    let mark = too_wide / 2;
    [
        0,
        1,
        mark - 1,
        mark,
        mark + 1,
        too_wide - 2,
        too_wide - 1,
        too_wide,
        too_wide + 1,
        too_wide + mark,
        mark.wrapping_neg(),
        u64::MAX,
        scale.last - 1,
        scale.last,
        scale.last + 1,
    ]
}

/// Values at the edges of an item's range, and outside.
pub fn edge_values(scale: Scale) -> [i64; 11] {
    let Scale { low, high, .. } = scale;
    [
        i64::MIN,
        low - 1,
        low,
        low + 1,
        -1,
        0,
        1,
        high - 1,
        high,
        high + 1,
        i64::MAX,
    ]
}

/// The values half-way between two codes, both signs of signed ones.
pub fn ties(scale: Scale) -> impl Iterator<Item = i64> {
    let (mut divisor, mut rest) = (scale.range, scale.steps);
    while rest != 0 {
        (divisor, rest) = (rest, divisor % rest);
    }
    // With all common divisors out of range / steps, ties are the odd multiples of half its range.
    let half = scale.range / divisor / 2;
    let signs = if scale.signed { &[1, -1][..] } else { &[1] };
    let odd = move |j: i128| signs.iter().map(move |sign| sign * (2 * j + 1) * half);
    let ties = (0..).flat_map(odd).map(move |tie| scale.origin + tie);
    let far = i128::from(scale.high.max(-scale.low));
    ties.take_while(move |tie| tie.abs() <= far)
        .map(|tie| tie as i64)
}

/// One tag in each direction, over edges and samples.
pub fn conversions(bench: &mut Bench) -> Verdict {
    let maker = &mut bench.maker;
    let mut tag = maker.catalogue_tag();
    let length = maker.told_length(tag);
    let Some(told) = Told::of(tag, length) else {
        if form(tag) != Some(Form::Extended) {
            tag = maker.random.pick(&NO_SCALE);
        }
        let any = maker.random.next();
        bench.comparer.house_of(tag, length, any)?;
        bench.comparer.house_of(tag, length, any & 3)?;
        bench.comparer.code_of(tag, length, any as i64)?;
        return bench.comparer.code_of(tag, length, 0);
    };
    for _ in 0..4 {
        let any_code = maker.any_code(told.scale);
        code_agrees(&mut bench.comparer, told, any_code)?;
        let any_value = maker.any_value(told.scale);
        value_agrees(&mut bench.comparer, told, any_value)?;
    }
    Ok(())
}

impl Maker {
    /// Mostly a right length of an extended height; any for another tag.
    fn told_length(&mut self, tag: u64) -> usize {
        if form(tag) == Some(Form::Extended) && !self.random.one_in(6) {
            self.random.between(2, 4)
        } else {
            self.random.pick(&LENGTHS)
        }
    }

    /// A code of the scale's width.
    fn scaled_code(&mut self, scale: Scale) -> u64 {
        if scale.extended {
            self.height_code(scale.length())
        } else {
            self.code(scale.length())
        }
    }

    /// A code of the item's width mostly, else one too wide.
    fn any_code(&mut self, scale: Scale) -> u64 {
        let code = self.scaled_code(scale);
        match self.random.below(12) {
            0 => code | 1 << self.random.between(scale.bits as usize, 63),
            1 => scale.number(code) as i64 as u64,
            2 => u64::MAX - self.random.below(4) as u64,
            3 => code & 7,
            _ => code,
        }
    }

    /// A value in the range mostly: any, at an end, about a tie between two codes or about a code; else one outside.
    fn any_value(&mut self, scale: Scale) -> i64 {
        let about = self.random.below(5) as i64 - 2;
        match self.random.below(12) {
            0 => scale.low.saturating_add(about),
            1 => scale.high.saturating_add(about),
            2 => about,
            3 => self
                .random
                .pick(&[i64::MIN, i64::MIN + 1, i64::MAX, i64::MAX - 1]),
            4 => self.random.next() as i64,
            5..=8 => {
                let code = self.scaled_code(scale);
                let twice = 2 * scale.number(code) + self.random.below(2) as i128;
                let tie = scale.origin + twice * scale.range / (2 * scale.steps);
                tie as i64 + about
            }
            _ => scale.low + self.random.below((scale.high - scale.low) as usize + 1) as i64,
        }
    }
}

/// The value answered is nearer than half a unit, since a tie never occurs; but for extended heights, of which a tie goes upward.
fn house_law(told: Told, code: u64) -> Verdict {
    let Told { tag, length, scale } = told;
    let Ok(value) = oysterknoll::to_house(tag, length, code) else {
        return refused_rightly(is_code(tag, scale, code), || {
            format!("code {code} of {tag}, {length} bytes")
        });
    };
    let distance =
        (i128::from(value) - scale.origin) * scale.steps - scale.number(code) * scale.range;
    let is_nearest =
        2 * distance.abs() < scale.steps || (scale.extended && 2 * distance == scale.steps);
    // Where a step exceeds a house unit the code comes back; of an extended height rounded down the one below.
    let back = oysterknoll::to_code(tag, length, value).map_err(|refusal| refusal.to_string())?;
    let lower = u64::from(scale.extended && distance < 0);
    let comes_back = scale.range <= scale.steps || back + lower == code;
    holds(
        is_code(tag, scale, code) && is_nearest && scale.holds(value) && comes_back,
        || format!("code {code} of {tag}, {length} bytes, to {value} and back to {back}"),
    )
}

/// The code answered is nearest, and at a tie the one away from the low end, or from zero if signed; of an extended height it is the one
/// at or below.
fn code_law(told: Told, value: i64) -> Verdict {
    let Told { tag, length, scale } = told;
    let Ok(code) = oysterknoll::to_code(tag, length, value) else {
        return refused_rightly(scale.holds(value), || {
            format!("value {value} of {tag}, {length} bytes")
        });
    };
    let answered = scale.number(code) * scale.range;
    let exact = (i128::from(value) - scale.origin) * scale.steps;
    let twice = 2 * (answered - exact).abs();
    let is_nearest = twice < scale.range || (twice == scale.range && answered.abs() > exact.abs());
    let is_below = (0..scale.range).contains(&(exact - answered));
    let is_right = if scale.extended { is_below } else { is_nearest };
    let back = oysterknoll::to_house(tag, length, code).map_err(|refusal| refusal.to_string())?;
    // Half a step plus half a unit, in units of 1 / (2 × steps); of an extended height a whole step.
    let apart = 2 * (i128::from(back) - i128::from(value)).abs() * scale.steps;
    let step = scale.range * if scale.extended { 2 } else { 1 };
    let is_near = apart <= step + scale.steps;
    let comes_back = scale.range >= scale.steps || back == value;
    let is_number = scale.holds(value) && is_code(tag, scale, code);
    holds(is_number && is_right && is_near && comes_back, || {
        format!("value {value} of {tag}, {length} bytes, to code {code} and back to {back}")
    })
}

/// Whether a code is neither above the last nor a mark.
fn is_code(tag: u64, scale: Scale, code: u64) -> bool {
    code <= scale.last && form(tag).and_then(|form| form.mark()) != Some(code)
}

fn refused_rightly(acceptable: bool, what: impl FnOnce() -> String) -> Verdict {
    holds(!acceptable, || what() + " refused")
}
