//! Shows a packet to a person: every item with its tag, name, kind and value, then the corners of the picture and the heights. The
//! packet is in the file named, or on standard input.
//! It ends with 0, with 1 where the packet is refused, and with 2 where there is no packet to read or the output is broken.

use oysterknoll::catalogue::{self, Unit, Value};
use oysterknoll::{
    corner, frame_centre_height, items, sensor_height, Content, Corner, EllipsoidHeight, Height,
    Knowing, Refusal, Row, SeaLevelHeight, LONGEST_PACKET,
};
use std::array::from_fn;
use std::env::args_os;
use std::fs::File;
use std::io::{self, stdin, stdout, Read, Write};
use std::iter::zip;
use std::process::ExitCode;

/// One byte over the longest packet shows that it is too long; what comes after cannot change the answer.
const ROOM: u64 = LONGEST_PACKET as u64 + 1;

/// How many bytes of a carried value are shown: with these the line of the longest name fits 80 columns.
const BYTES_SHOWN: usize = 6;

fn main() -> ExitCode {
    match read_packet().and_then(|packet| print(shown(&packet))) {
        Ok(ended) => ended,
        Err(why) => {
            eprintln!("show: {why}");
            ExitCode::from(2)
        }
    }
}

fn read_packet() -> io::Result<Vec<u8>> {
    let mut packet = Vec::new();
    let mut names = args_os().skip(1);
    match (names.next(), names.next()) {
        (None, _) => stdin().take(ROOM).read_to_end(&mut packet)?,
        (Some(name), None) => File::open(name)?.take(ROOM).read_to_end(&mut packet)?,
        _ => return Err(io::Error::other("one file, or none for standard input")),
    };
    Ok(packet)
}

/// Prints what is shown, or the refusal.
fn print(shown: Result<String, Refusal>) -> io::Result<ExitCode> {
    let (text, ended) = match shown {
        Ok(text) => (text, ExitCode::SUCCESS),
        Err(refusal) => (format!("{refusal}\n"), ExitCode::from(1)),
    };
    stdout().write_all(text.as_bytes())?;
    Ok(ended)
}

fn shown(packet: &[u8]) -> Result<String, Refusal> {
    let mut lines = vec![["tag", "name", "kind", "value"].map(String::from)];
    lines.extend(items(packet, Knowing::ALL)?.map(item_line));
    let longest = lines.iter().map(|[tag, ..]| tag.len()).max().unwrap_or(0);
    for [tag, ..] in &mut lines {
        *tag = format!("{tag:>longest$}");
    }
    Ok(aligned(&lines) + "\n" + &aligned(&ground_lines(packet)?))
}

/// The lines with their fields below each other.
fn aligned<const N: usize>(lines: &[[String; N]]) -> String {
    let longest = |n: usize| lines.iter().map(|line| line[n].chars().count()).max();
    // The last field may have any length, and is not filled up.
    let width = |n| if n + 1 < N { longest(n) } else { None };
    let widths: [usize; N] = from_fn(|n| width(n).unwrap_or(0));
    let line = |line: &[String; N]| {
        let fields = zip(line, widths).map(|(field, width)| format!("{field:width$}"));
        fields.collect::<Vec<_>>().join("  ") + "\n"
    };
    lines.iter().map(line).collect()
}

/// Tag, name, kind and value.
fn item_line(row: Row) -> [String; 4] {
    let name = catalogue::item(row.tag).map_or("not in the catalogue", |item| item.name);
    let (kind, value) = match row.content {
        Content::Reading { code, .. } => ("number", number(row, code)),
        Content::Mark => ("mark", mark(row.tag).to_string()),
        Content::Text(bytes) => ("text", printable(bytes)),
        Content::Carried(bytes) => ("carried", first_bytes(bytes)),
        Content::Withdrawn => ("withdrawn", "-".to_string()),
    };
    let tag = row.tag.to_string();
    [tag, name.to_string(), kind.to_string(), value]
}

/// A number in the unit that people read, or its code where there is no scale. That of the time stamp counts microseconds.
fn number(row: Row, code: u64) -> String {
    let unit = catalogue::item(row.tag).and_then(|item| item.unit);
    match (row.value(), unit) {
        (Some(value), _) => Value { value, unit }.to_string(),
        (None, Some(unit)) => format!("{code} {unit}"),
        (None, None) => code.to_string(),
    }
}

/// What a mark says: plain words for what a corner is reckoned by.
fn mark(tag: u64) -> &'static str {
    match tag {
        23 | 24 | 26..=33 | 82..=89 => "off the Earth",
        _ => "-",
    }
}

/// A text, of which every byte that is no printable character is escaped: none that a terminal obeys comes through.
fn printable(bytes: &[u8]) -> String {
    let mut text = String::new();
    for chunk in bytes.utf8_chunks() {
        for letter in chunk.valid().chars() {
            match letter {
                '\\' => text += "\\\\",
                _ if is_seen(letter) => text.push(letter),
                _ => text += &hexadecimal(letter.encode_utf8(&mut [0; 4]).as_bytes(), "\\x"),
            }
        }
        text += &hexadecimal(chunk.invalid(), "\\x");
    }
    text
}

/// Whether a letter is neither a control nor one of those that end lines, turn the direction of writing or are not seen.
fn is_seen(letter: char) -> bool {
    let unseen = matches!(letter, '\u{ad}' | '\u{61c}' | '\u{180e}' | '\u{200b}'..='\u{200f}' | '\u{2028}'..='\u{202e}'
        | '\u{2060}'..='\u{206f}' | '\u{feff}' | '\u{fff9}'..='\u{fffb}' | '\u{e0000}'..='\u{e007f}');
    !letter.is_control() && !unseen
}

/// The bytes in hexadecimal, each behind the sign.
fn hexadecimal(bytes: &[u8], sign: &str) -> String {
    let byte = |byte: &u8| format!("{sign}{byte:02X}");
    bytes.iter().map(byte).collect()
}

/// How many bytes there are, and the first of them.
fn first_bytes(bytes: &[u8]) -> String {
    let count = bytes.len();
    let first = hexadecimal(&bytes[..count.min(BYTES_SHOWN)], "");
    let rest = if count > BYTES_SHOWN { "..." } else { "" };
    match count {
        0 => "0 bytes".to_string(),
        1 => format!("1 byte: {first}"),
        _ => format!("{count} bytes: {first}{rest}"),
    }
}

/// The corners and the heights.
fn ground_lines(packet: &[u8]) -> Result<Vec<[String; 2]>, Refusal> {
    let mut lines = Vec::new();
    for (k, name) in zip(
        1..,
        ["upper left", "upper right", "lower right", "lower left"],
    ) {
        let said = corner_said(corner(packet, Knowing::ALL, k)?);
        lines.push([format!("corner {k}, {name}"), said]);
    }
    let sensor = height_said(sensor_height(packet, Knowing::ALL)?);
    let frame_centre = height_said(frame_centre_height(packet, Knowing::ALL)?);
    lines.push(["sensor height".to_string(), sensor]);
    lines.push(["frame centre height".to_string(), frame_centre]);
    Ok(lines)
}

fn corner_said(corner: Corner) -> String {
    let degrees = |value| Value {
        value,
        unit: Some(Unit::Degree),
    };
    match corner {
        Corner::At(point) => format!("{}, {}", degrees(point.latitude), degrees(point.longitude)),
        Corner::OffTheEarth => "off the Earth".to_string(),
        Corner::Missing => "missing".to_string(),
    }
}

fn height_said(height: Height) -> String {
    let metres = |value| Value {
        value,
        unit: Some(Unit::Metre),
    };
    match height {
        Height::OverEllipsoid(EllipsoidHeight(mm)) => format!("{} over the ellipsoid", metres(mm)),
        Height::OverSeaLevel(SeaLevelHeight(mm)) => format!("{} over mean sea level", metres(mm)),
        Height::Missing => "missing".to_string(),
    }
}
