//! The twin's word on an item, its conversions, heights, corners and listing.

use crate::catalogue::{
    form, unit, Form, Unit, ALL, DEGREE, DEGREE_CELSIUS, EXTENDED_HIGH, EXTENDED_LOW, METRE,
};
use crate::twin::{refused, Altered, Refused, Row, Twin, CARRIED, MARK, TEXT, WITHDRAWN};

/// As far as a latitude goes either way, and half a turn of longitude.
pub const POLE: i64 = 90 * DEGREE;
pub const HALF_TURN: i64 = 180 * DEGREE;

/// A scale: the value is `origin` + number × `range` / `steps`, exactly. No code is above `last`.
#[derive(Clone, Copy)]
pub struct Scale {
    pub bits: u32,
    pub signed: bool,
    pub extended: bool,
    pub last: u64,
    pub low: i64,
    pub high: i64,
    pub origin: i128,
    pub range: i128,
    pub steps: i128,
}

impl Scale {
    /// The scale of a tag; its value's length is asked at the extended heights alone.
    pub fn of(tag: u64, length: usize) -> Option<Scale> {
        Scale::of_form(form(tag)?, length)
    }

    fn of_form(form: Form, length: usize) -> Option<Scale> {
        match form {
            Form::Unsigned { bytes, low, high } => Some(Scale {
                origin: i128::from(low),
                range: i128::from(high - low),
                steps: (1 << (8 * bytes)) - 1,
                ..Scale::plain(bytes, low, high)
            }),
            Form::Signed { bytes, high } => Some(Scale {
                signed: true,
                range: i128::from(high),
                steps: (1 << (8 * bytes - 1)) - 1,
                ..Scale::plain(bytes, -high, high)
            }),
            Form::Celsius => Some(Scale {
                signed: true,
                range: i128::from(DEGREE_CELSIUS),
                ..Scale::plain(1, -128 * DEGREE_CELSIUS, 127 * DEGREE_CELSIUS)
            }),
            Form::Extended => form.allows(length).then(|| Scale::extended(length)),
            Form::Plain { .. } | Form::Text => None,
        }
    }

    /// Unsigned, from zero on, one a code.
    fn plain(bytes: usize, low: i64, high: i64) -> Scale {
        Scale {
            bits: 8 * bytes as u32,
            signed: false,
            extended: false,
            last: u64::MAX >> (64 - 8 * bytes),
            low,
            high,
            origin: 0,
            range: 1,
            steps: 1,
        }
    }

    /// -900 m plus the code divided by 2^(8 × length - 17) per metre; both are taken 2^17 times, so that 2 bytes need no fraction.
    fn extended(length: usize) -> Scale {
        let [low, high] = [EXTENDED_LOW, EXTENDED_HIGH].map(|metres| metres * METRE);
        Scale {
            extended: true,
            last: Form::Extended.last(length),
            origin: i128::from(low),
            range: i128::from(METRE) << 17,
            steps: 1 << (8 * length),
            ..Scale::plain(length, low, high)
        }
    }

    /// How many bytes its codes have.
    pub fn length(self) -> usize {
        self.bits as usize / 8
    }

    /// Whether a value is in the range.
    pub fn holds(self, value: i64) -> bool {
        (self.low..=self.high).contains(&value)
    }

    /// The number that a stored code is.
    pub fn number(self, code: u64) -> i128 {
        let negative = self.signed && code >> (self.bits - 1) == 1;
        i128::from(code) - if negative { 1 << self.bits } else { 0 }
    }
}

/// What the catalogue has for a tag: a text and an extended height have no one length, and what has no scale no range.
#[derive(Clone, Copy, PartialEq, Eq, Debug)]
pub struct TwinItem {
    pub signed: bool,
    pub extended: bool,
    pub bytes: Option<usize>,
    pub range: Option<(i64, i64)>,
    pub unit: Option<Unit>,
    pub marked: bool,
}

#[derive(Clone, Copy, PartialEq, Eq, Debug)]
pub enum TwinHeight {
    OverEllipsoid(i64),
    OverSeaLevel(i64),
    Missing,
}

#[derive(Clone, Copy, PartialEq, Eq, Debug)]
pub enum TwinCorner {
    At(i64, i64),
    OffTheEarth,
    Missing,
}

/// The nearest whole number to a fraction; a tie goes away from zero.
fn nearest(numerator: i128, denominator: i128) -> i128 {
    let below = numerator.div_euclid(denominator);
    let to_below = numerator - below * denominator;
    let to_above = denominator - to_below;
    if to_below < to_above || (to_below == to_above && numerator < 0) {
        below
    } else {
        below + 1
    }
}

impl Twin {
    pub fn item(self, tag: u64) -> Option<TwinItem> {
        let form = self.form(tag)?;
        let unit_of = match tag {
            36 | 55 if self.is(Altered::Units36And55Swapped) => 36 + 55 - tag,
            _ => tag,
        };
        // The range of an extended height is the same for each of its lengths.
        let scale = Scale::of_form(form, 2);
        Some(TwinItem {
            signed: matches!(form, Form::Signed { .. } | Form::Celsius),
            extended: form == Form::Extended,
            bytes: form.bytes(),
            range: scale.map(|scale| (scale.low, scale.high)),
            unit: unit(unit_of),
            marked: self.mark(tag, form).is_some(),
        })
    }

    /// The scale that a conversion goes by; without one it is refused by 19.
    fn scale(self, tag: u64, length: usize) -> Result<Scale, Refused> {
        let none = refused(19, 0, tag);
        let form = self.form(tag).ok_or(none)?;
        let is_asked = form == Form::Extended || self.is(Altered::LengthAskedOfEveryTag);
        if is_asked && !form.allows(length) {
            return Err(none);
        }
        let scale = Scale::of_form(form, length).ok_or(none)?;
        let steps = match form {
            Form::Extended if self.is(Altered::ExtendedScaleOfThreeBytes) => 1 << 24,
            _ => scale.steps,
        };
        Ok(Scale { steps, ..scale })
    }

    pub fn to_house(self, tag: u64, length: usize, code: u64) -> Result<i64, Refused> {
        let scale = self.scale(tag, length)?;
        let mark = self.form(tag).and_then(|form| self.mark(tag, form));
        if code > self.last_code(scale) || mark == Some(code) {
            return Err(refused(20, 0, tag));
        }
        let all_ones = scale.signed && self.is(Altered::SignedDividedByAllOnes);
        let steps = scale.steps * if all_ones { 2 } else { 1 } + i128::from(all_ones);
        let numerator = scale.number(code) * scale.range;
        // Counted from the low end, so a tie of an extended height goes upward, also below zero.
        let value = scale.origin + nearest(numerator, steps);
        let is_tie = 2 * numerator.rem_euclid(steps) == steps;
        let down = self.is(Altered::ExtendedTiesDown)
            || (self.is(Altered::ExtendedTiesAwayFromZero) && value <= 0);
        Ok(value as i64 - i64::from(is_tie && down))
    }

    fn last_code(self, scale: Scale) -> u64 {
        let without = scale.extended && self.is(Altered::HighestHeightIsOutside);
        scale.last - u64::from(without)
    }

    pub fn to_code(self, tag: u64, length: usize, value: i64) -> Result<u64, Refused> {
        let early = self.is(Altered::RangeBeforeLength);
        let scale = match Scale::of(tag, 2) {
            Some(scale) if early && !scale.holds(value) => scale,
            _ => self.scale(tag, length)?,
        };
        if !scale.holds(value) {
            return Err(refused(21, 0, tag));
        }
        // Measured from the low end if unsigned and from zero if signed, so a tie goes away from it.
        let numerator = (i128::from(value) - scale.origin) * scale.steps;
        if scale.extended && !self.is(Altered::ExtendedCodeIsNearest) {
            return Ok(numerator.div_euclid(scale.range) as u64);
        }
        let mut number = nearest(numerator, scale.range);
        let tie = 2 * (number * scale.range - numerator).abs() == scale.range;
        if tie && self.is(Altered::TiesTowardsZero) {
            number -= number.signum();
        }
        Ok(number.rem_euclid(1 << scale.bits) as u64)
    }

    pub fn sensor_height(self, packet: &[u8], set: u128) -> Result<TwinHeight, Refused> {
        let over_ellipsoid = if self.is(Altered::Item75Before104) {
            [75, 104]
        } else {
            [104, 75]
        };
        self.height(packet, set, &over_ellipsoid, 15)
    }

    pub fn frame_centre_height(self, packet: &[u8], set: u128) -> Result<TwinHeight, Refused> {
        self.height(packet, set, &[78], 25)
    }

    /// The first of the rows over the ellipsoid that is present, else the one over mean sea level.
    fn height(
        self,
        packet: &[u8],
        set: u128,
        over_ellipsoid: &[u64],
        over_sea_level: u64,
    ) -> Result<TwinHeight, Refused> {
        let rows = self.read(packet, set, None)?;
        let mut in_order = over_ellipsoid.iter();
        let ellipsoid = in_order.find_map(|&tag| self.house(&rows, tag));
        let sea_level = self.house(&rows, over_sea_level);
        Ok(match (ellipsoid, sea_level) {
            (Some(_), Some(Some(height))) if self.is(Altered::SeaLevelFirst) => {
                TwinHeight::OverSeaLevel(height)
            }
            (Some(Some(height)), _) => TwinHeight::OverEllipsoid(height),
            (None, Some(Some(height))) => TwinHeight::OverSeaLevel(height),
            _ => TwinHeight::Missing,
        })
    }

    /// A present row in house units; inside it, nothing for a mark.
    fn house(self, rows: &[Row], tag: u64) -> Option<Option<i64>> {
        let row = rows
            .iter()
            .find(|row| row.tag == tag && row.kind != CARRIED)?;
        if row.kind == WITHDRAWN {
            return self.house_of_withdrawn(tag);
        }
        Some(self.to_house(row.tag, row.length, row.code).ok())
    }

    pub fn corner(self, packet: &[u8], set: u128, k: u64) -> Result<TwinCorner, Refused> {
        let rows = self.read(packet, set, None)?;
        if !(1..=4).contains(&k) {
            return Ok(TwinCorner::Missing);
        }
        let full = [80 + 2 * k, 81 + 2 * k].map(|tag| self.house(&rows, tag));
        let full_is_a_mark = full.contains(&Some(None));
        if full_is_a_mark && self.is(Altered::OneFullCornerRowDecides) {
            return Ok(TwinCorner::OffTheEarth);
        }
        let decides = full.iter().all(Option::is_some)
            && !(full_is_a_mark && self.is(Altered::OffsetsWhenAFullCornerIsAMark));
        Ok(if decides {
            self.on_earth(full, self.is(Altered::FullCornerAt180Stays))
        } else {
            let sums = [[23, 24 + 2 * k], [24, 25 + 2 * k]].map(|tags| self.sum(&rows, tags));
            self.on_earth(sums, false)
        })
    }

    /// The sum of a centre and an offset, each of them in house units; nothing if one is not there, nothing inside if one is a mark.
    fn sum(self, rows: &[Row], [centre, offset]: [u64; 2]) -> Option<Option<i64>> {
        let sum = [self.house(rows, centre)?, self.house(rows, offset)?]
            .into_iter()
            .sum::<Option<i64>>();
        if sum.is_some() && self.is(Altered::SumRoundedOnce) {
            return Some(exact_sum(rows, [centre, offset]));
        }
        Some(sum)
    }

    /// Where two sums are on the Earth (W-203): not beyond a pole, and in -180 to below 180 degrees.
    fn on_earth(self, sums: [Option<Option<i64>>; 2], stays: bool) -> TwinCorner {
        let latitude = match sums[0] {
            Some(Some(latitude)) if self.is(Altered::LatitudeHeldAtThePole) => {
                Some(Some(latitude.clamp(-POLE, POLE)))
            }
            latitude => latitude,
        };
        let pole = POLE - i64::from(self.is(Altered::PoleIsOffTheEarth));
        let is_beyond = matches!(latitude, Some(Some(latitude)) if latitude.abs() > pole);
        if is_beyond && self.is(Altered::PoleBeforeMissing) {
            return TwinCorner::OffTheEarth;
        }
        let (Some(latitude), Some(longitude)) = (latitude, sums[1]) else {
            return TwinCorner::Missing;
        };
        match latitude.zip(longitude) {
            Some((latitude, longitude)) if !is_beyond => {
                let longitude = if stays {
                    longitude
                } else {
                    self.brought_back(longitude)
                };
                TwinCorner::At(latitude, longitude)
            }
            _ => TwinCorner::OffTheEarth,
        }
    }

    /// The longitude in -180 to below 180 degrees that is the same modulo a turn.
    fn brought_back(self, longitude: i64) -> i64 {
        let turn = 2 * HALF_TURN;
        if self.is(Altered::LongitudePast180Stays) {
            return longitude;
        }
        if self.is(Altered::LongitudeOf180Stays) {
            return HALF_TURN - (HALF_TURN - longitude).rem_euclid(turn);
        }
        (longitude + HALF_TURN).rem_euclid(turn) - HALF_TURN
    }

    /// The listing of a packet; it knows the whole catalogue.
    pub fn listing(self, packet: &[u8]) -> Result<String, Refused> {
        let rows = self.read(packet, ALL, None)?;
        let mut listing = String::from("place\ttag\tkind\tvalue\n");
        for row in &rows {
            self.list_row(&mut listing, row, packet);
        }
        Ok(listing)
    }

    fn list_row(self, listing: &mut String, row: &Row, packet: &[u8]) {
        let kind = match row.kind {
            MARK if !self.is(Altered::MarkListedAsANumber) => "mark",
            TEXT => "text",
            CARRIED => "carried",
            WITHDRAWN => "withdrawn",
            _ => "number",
        };
        *listing += &format!("{}\t{}\t{}\t", row.place, row.tag, kind);
        match row.kind {
            MARK => listing.push('-'),
            WITHDRAWN if self.is(Altered::WithdrawnListedAsAMark) => listing.push('-'),
            WITHDRAWN => {}
            TEXT | CARRIED => push_hex(listing, &packet[row.place..row.place + row.length]),
            _ => match self.to_house(row.tag, row.length, row.code) {
                Ok(value) => *listing += &value.to_string(),
                Err(_) => *listing += &row.code.to_string(),
            },
        }
        listing.push('\n');
    }
}

/// The exact sum of two signed rows, then its nearest house unit.
fn exact_sum(rows: &[Row], tags: [u64; 2]) -> Option<i64> {
    let fraction = |tag| {
        let row = rows.iter().find(|row| row.tag == tag)?;
        let scale = Scale::of(tag, row.length)?;
        Some((scale.number(row.code) * scale.range, scale.steps))
    };
    let [(centre, centre_steps), (offset, offset_steps)] = [fraction(tags[0])?, fraction(tags[1])?];
    let numerator = centre * offset_steps + offset * centre_steps;
    Some(nearest(numerator, centre_steps * offset_steps) as i64)
}

fn push_hex(listing: &mut String, bytes: &[u8]) {
    for &byte in bytes {
        for digit in [byte >> 4, byte & 15] {
            listing.push(char::from(b"0123456789ABCDEF"[usize::from(digit)]));
        }
    }
}
