//! The rival's corners.

use super::{content, good, refusal, scale, walk, Refusal, CATALOGUE};

/// A corner in house units: latitude and longitude.
#[derive(Clone, Copy, PartialEq, Eq, Debug)]
pub enum Corner {
    At(i64, i64),
    OffTheEarth,
    Missing,
}

/// The values of an accepted packet: the place of each by its tag, 0 where there is none or where it is withdrawn.
struct Values<'a> {
    packet: &'a [u8],
    knowing: [u64; 2],
    places: [u16; 128],
}

impl Values<'_> {
    /// A known number in house units, where it is present; inside it, nothing if it is a mark.
    #[inline(always)]
    fn value(&self, tag: usize) -> Option<Option<i64>> {
        let place = u32::from(self.places[tag]);
        let is_known = self.knowing[tag / 64] >> (tag % 64) & 1 == 1;
        if place == 0 || !is_known {
            return None;
        }
        let span = place << 16 | u32::from(CATALOGUE[tag].least);
        let (_, code) = content(self.packet, &self.knowing, tag as u32, span);
        Some(scale::house_or_mark(tag, code))
    }

    /// Latitude and longitude by two tags that follow each other, where both are present; nothing inside if either is a mark.
    #[inline(always)]
    fn point(&self, tag: usize) -> Option<Option<(i64, i64)>> {
        let (north, east) = (self.value(tag)?, self.value(tag + 1)?);
        Some(north.zip(east))
    }

    /// The full rows decide where both are present, else the offsets from the frame centre.
    fn corner(&self, k: usize) -> Corner {
        if let Some(full) = self.point(80 + 2 * k) {
            return full.map_or(Corner::OffTheEarth, on_earth);
        }
        match (self.point(23), self.point(24 + 2 * k)) {
            (Some(Some(centre)), Some(Some(offset))) => {
                on_earth((centre.0 + offset.0, centre.1 + offset.1))
            }
            (Some(_), Some(_)) => Corner::OffTheEarth,
            _ => Corner::Missing,
        }
    }
}

/// Beyond a pole there is no place, and a longitude comes back by one turn.
fn on_earth((north, east): (i64, i64)) -> Corner {
    const HALF_TURN: i64 = 1_800_000_000;
    if north.abs() > 900_000_000 {
        return Corner::OffTheEarth;
    }
    if east >= HALF_TURN {
        return Corner::At(north, east - 2 * HALF_TURN);
    }
    if east < -HALF_TURN {
        return Corner::At(north, east + 2 * HALF_TURN);
    }
    Corner::At(north, east)
}

/// Corner k of the picture on the ground.
#[inline(never)]
pub fn corner(packet: &[u8], low: u64, high: u64, k: u64) -> Result<Corner, Refusal> {
    if !good(low, high) {
        return Err(refusal(1, 0, 0));
    }
    let mut values = Values {
        packet,
        knowing: [low, high],
        places: [0; 128],
    };
    walk(packet, low, high, |_, item| {
        let place = values.places.get_mut(item.tag as usize);
        if let Some(place) = place.filter(|_| item.length > 0) {
            *place = item.place as u16;
        }
    })?;
    Ok(match k {
        1..=4 => values.corner(k as usize),
        _ => Corner::Missing,
    })
}
