//! Prints where the four corners of a packet's picture are, in degrees: the packet is in the file named, or on standard input.
//! It ends with 0, with 1 where the packet is refused, and with 2 where there is no packet to read or the output is broken.

mod common;

use oysterknoll::{corner, Corner, Knowing, Point, Refusal};
use std::process::ExitCode;

fn main() -> ExitCode {
    common::run("corner", corners)
}

fn corners(packet: &[u8]) -> Result<String, Refusal> {
    let line = |k| {
        let corner = corner(packet, Knowing::ALL, k)?;
        Ok(format!("corner {k}: {}\n", words(corner)))
    };
    (1..=4).map(line).collect()
}

fn words(corner: Corner) -> String {
    match corner {
        Corner::At(Point {
            latitude,
            longitude,
        }) => format!("{}, {}", degrees(latitude), degrees(longitude)),
        Corner::OffTheEarth => "off the Earth".to_string(),
        Corner::Missing => "missing".to_string(),
    }
}

/// Ten-millionths of a degree as degrees. The sign goes apart: -0.5 has no whole number that could carry it.
fn degrees(value: i64) -> String {
    let sign = if value < 0 { "-" } else { "" };
    let size = value.unsigned_abs();
    format!("{sign}{}.{:07}", size / 10_000_000, size % 10_000_000)
}
