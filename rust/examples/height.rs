//! Prints how high the sensor and the frame centre are, each height with its kind, as receivers of three ages have it: one that knows the
//! whole catalogue, one that is older than the extended heights, and one that is older than all heights over the ellipsoid. The packet is
//! in the file named, or on standard input.
//! It ends with 0, with 1 where the packet is refused, and with 2 where there is no packet to read or the output is broken.

mod common;

use oysterknoll::catalogue::{Unit, Value};
use oysterknoll::{frame_centre_height, sensor_height, EllipsoidHeight, Height, Knowing};
use oysterknoll::{Refusal, SeaLevelHeight};
use std::process::ExitCode;

/// What a receiver is called, and which items of the catalogue it does not know.
const RECEIVERS: [(&str, &[u64]); 3] = [
    ("the whole catalogue", &[]),
    ("without 103 to 105", &[103, 104, 105]),
    ("without 75, 78 and 103 to 105", &[75, 78, 103, 104, 105]),
];

fn main() -> ExitCode {
    common::run("height", heights)
}

/// What the first receiver accepts, those that know less accept too.
fn heights(packet: &[u8]) -> Result<String, Refusal> {
    let line = |(name, unknown): (&str, &[u64])| {
        let knowing = unknown
            .iter()
            .fold(Knowing::ALL, |set, tag| set.without(*tag));
        let sensor = words(sensor_height(packet, knowing)?);
        let frame_centre = words(frame_centre_height(packet, knowing)?);
        Ok(format!(
            "{name}: sensor {sensor}, frame centre {frame_centre}\n"
        ))
    };
    RECEIVERS.into_iter().map(line).collect()
}

/// The two kinds are two types: a match without `_` has to say what is done with each.
fn words(height: Height) -> String {
    match height {
        Height::OverEllipsoid(EllipsoidHeight(mm)) => format!("{} over the ellipsoid", metres(mm)),
        Height::OverSeaLevel(SeaLevelHeight(mm)) => format!("{} over mean sea level", metres(mm)),
        Height::Missing => "missing".to_string(),
    }
}

fn metres(value: i64) -> Value {
    let unit = Some(Unit::Metre);
    Value { value, unit }
}
