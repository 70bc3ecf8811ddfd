//! The catalogue: what each of the 67 items is called, how it is stored, and what its values are.
//!
//! The names are those of ST 0601. All else is asked of the library.
//!
//! ```
//! use oysterknoll::{catalogue, items, Knowing};
//!
//! let packet = include_bytes!("../../samples/tower.klv");
//! let mut lines = Vec::new();
//! for row in items(packet, Knowing::ALL)? {
//!     if let (Some(item), Some(value)) = (catalogue::item(row.tag), row.value()) {
//!         lines.push(format!("{}: {}", item.name, item.value(value)));
//!     }
//! }
//! assert_eq!(lines[0], "Platform Heading Angle: 33.2011902°");
//! assert_eq!(lines[lines.len() - 1], "Outside Air Temperature: -4.000 °C");
//! # Ok::<(), oysterknoll::Refusal>(())
//! ```

use crate::raw;
use core::fmt::{self, Write};

/// An item of the catalogue.
///
/// ```
/// use oysterknoll::catalogue::{self, Range, Stored, Unit};
///
/// let offset = catalogue::item(26).unwrap();
/// assert_eq!(offset.name, "Offset Corner Latitude Point 1");
/// assert_eq!(offset.stored, Stored::Signed { width: 2 });
/// assert_eq!(offset.unit, Some(Unit::Degree));
/// assert_eq!(offset.range, Some(Range { low: -750_000, high: 750_000 }));
/// assert!(offset.marked); // 0x8000 is no number
/// ```
#[derive(Clone, Copy, Debug, PartialEq, Eq, Hash)]
pub struct Item {
    /// The tag.
    pub tag: u64,
    /// The name that ST 0601 has for it.
    pub name: &'static str,
    /// How it is stored.
    pub stored: Stored,
    /// What its values count; none for a text, and for a number whose code is all there is.
    pub unit: Option<Unit>,
    /// The least and the greatest value; none where there is no scale.
    pub range: Option<Range>,
    /// Whether the lowest code, only the top bit set, is a mark and no number.
    pub marked: bool,
}

/// How the value of an item is stored. One that is withdrawn has none, and length 0.
///
/// ```
/// use oysterknoll::catalogue::{self, Stored};
///
/// let bytes = |tag| match catalogue::item(tag)?.stored {
///     Stored::Unsigned { width } | Stored::Signed { width } => Some(width..=width),
///     Stored::Extended => Some(2..=4),
///     Stored::Text => Some(1..=127),
/// };
/// assert_eq!((bytes(2), bytes(104), bytes(3)), (Some(8..=8), Some(2..=4), Some(1..=127)));
/// assert_eq!(bytes(40), None);
/// ```
#[derive(Clone, Copy, Debug, PartialEq, Eq, Hash)]
pub enum Stored {
    /// As an unsigned number.
    Unsigned {
        /// Of so many bytes.
        width: usize,
    },
    /// As a number in two's complement.
    Signed {
        /// Of so many bytes.
        width: usize,
    },
    /// As an extended height: an unsigned number of 2, 3 or 4 bytes, whose scale goes by its length.
    Extended,
    /// As a text of 1 to 127 bytes, which may be any.
    Text,
}

/// The values that an item may have, in house units. Both ends are inside.
///
/// ```
/// use oysterknoll::{catalogue, to_code};
///
/// let range = catalogue::item(15).unwrap().range.unwrap();
/// assert_eq!((range.low, range.high), (-900_000, 19_000_000)); // in mm
/// assert!(to_code(15, 2, range.high).is_ok() && to_code(15, 2, range.high + 1).is_err());
/// ```
#[derive(Clone, Copy, Debug, PartialEq, Eq, Hash)]
pub struct Range {
    /// The least value.
    pub low: i64,
    /// The greatest value.
    pub high: i64,
}

/// What a value counts: house units are 10^-7 of a degree, whole microseconds, and 0.001 of all others.
///
/// ```
/// use oysterknoll::catalogue::{self, Unit};
///
/// assert_eq!(catalogue::item(37).unwrap().unit, Some(Unit::Millibar));
/// assert_eq!(Unit::Millibar.to_string(), "mbar");
/// ```
#[derive(Clone, Copy, Debug, PartialEq, Eq, Hash)]
pub enum Unit {
    /// Degrees of an angle.
    Degree,
    /// Metres.
    Metre,
    /// Metres a second.
    MetrePerSecond,
    /// Millibars.
    Millibar,
    /// Hundredths of a whole.
    Percent,
    /// Degrees Celsius.
    Celsius,
    /// Microseconds, of the time stamp.
    Microsecond,
}

/// A value in house units with its unit. It is shown as people write it, with every digit.
///
/// Width, fill and alignment are honoured; like a number it stands at the right where no alignment is said.
///
/// ```
/// use oysterknoll::catalogue::{Unit, Value};
///
/// let height = Value { value: 641_958, unit: Some(Unit::Metre) };
/// assert_eq!(height.to_string(), "641.958 m");
/// assert_eq!(format!("[{height:>12}] [{height:<12}]"), "[   641.958 m] [641.958 m   ]");
/// let near_the_equator = Value { value: -750_000, unit: Some(Unit::Degree) };
/// assert_eq!(near_the_equator.to_string(), "-0.0750000°");
/// ```
#[derive(Clone, Copy, Debug, PartialEq, Eq, Hash)]
pub struct Value {
    /// In house units.
    pub value: i64,
    /// What it counts.
    pub unit: Option<Unit>,
}

/// The item with this tag, if the catalogue has one.
///
/// ```
/// use oysterknoll::catalogue;
///
/// assert_eq!(catalogue::item(59).map(|item| item.name), Some("Platform Call Sign"));
/// assert_eq!(catalogue::item(40), None);
/// ```
pub fn item(tag: u64) -> Option<Item> {
    let at = NAMES.binary_search_by_key(&tag, |(named, _)| *named).ok()?;
    NAMES.get(at).and_then(|(_, name)| listed(tag, name))
}

/// All items, in the order of the tags.
///
/// ```
/// use oysterknoll::catalogue::{self, Stored};
///
/// assert_eq!(catalogue::all().count(), 67);
/// let texts = catalogue::all().filter(|item| item.stored == Stored::Text);
/// assert!(texts.map(|item| item.tag).eq([3, 4, 10, 11, 12, 59, 70]));
/// ```
pub fn all() -> impl Iterator<Item = Item> + Clone {
    NAMES.iter().filter_map(|(tag, name)| listed(*tag, name))
}

/// What the library says of the tag, with its name.
fn listed(tag: u64, name: &'static str) -> Option<Item> {
    let answer = raw::item(tag);
    let (width, low, high) = (answer.width, answer.low, answer.high);
    let stored = match answer.stored {
        raw::STORED_UNSIGNED => Stored::Unsigned { width },
        raw::STORED_SIGNED => Stored::Signed { width },
        raw::STORED_TEXT => Stored::Text,
        raw::STORED_EXTENDED => Stored::Extended,
        _ => return None,
    };
    Some(Item {
        tag,
        name,
        stored,
        unit: Unit::numbered(answer.unit),
        range: (low != high).then_some(Range { low, high }),
        marked: answer.marked != 0,
    })
}

impl Item {
    /// A value in house units with the item's unit, as it is shown to people.
    ///
    /// ```
    /// use oysterknoll::{catalogue, to_house};
    ///
    /// let latitude = catalogue::item(13).unwrap();
    /// let value = latitude.value(to_house(13, 4, 0x42b3_963b)?);
    /// assert_eq!(value.to_string(), "46.8995000°");
    /// # Ok::<(), oysterknoll::Refusal>(())
    /// ```
    pub const fn value(&self, value: i64) -> Value {
        let unit = self.unit;
        Value { value, unit }
    }
}

impl Unit {
    fn numbered(number: u64) -> Option<Unit> {
        match number {
            raw::UNIT_DEGREE => Some(Unit::Degree),
            raw::UNIT_METRE => Some(Unit::Metre),
            raw::UNIT_METRE_PER_SECOND => Some(Unit::MetrePerSecond),
            raw::UNIT_MILLIBAR => Some(Unit::Millibar),
            raw::UNIT_PERCENT => Some(Unit::Percent),
            raw::UNIT_CELSIUS => Some(Unit::Celsius),
            raw::UNIT_MICROSECOND => Some(Unit::Microsecond),
            _ => None,
        }
    }
}

/// The sign that people write behind a number.
impl fmt::Display for Unit {
    fn fmt(&self, f: &mut fmt::Formatter<'_>) -> fmt::Result {
        f.pad(match self {
            Unit::Degree => "°",
            Unit::Metre => "m",
            Unit::MetrePerSecond => "m/s",
            Unit::Millibar => "mbar",
            Unit::Percent => "%",
            Unit::Celsius => "°C",
            Unit::Microsecond => "µs",
        })
    }
}

impl Value {
    /// The text without padding. The sign goes apart: -0.5 has no whole number that could carry it.
    fn put(self, out: &mut impl Write) -> fmt::Result {
        let sign = if self.value < 0 { "-" } else { "" };
        let size = self.value.unsigned_abs();
        match self.unit {
            None => write!(out, "{sign}{size}"),
            Some(unit @ Unit::Microsecond) => write!(out, "{sign}{size} {unit}"),
            Some(unit @ Unit::Degree) => {
                let (whole, part) = (size / 10_000_000, size % 10_000_000);
                write!(out, "{sign}{whole}.{part:07}{unit}")
            }
            Some(unit) => {
                let (whole, part) = (size / 1_000, size % 1_000);
                write!(out, "{sign}{whole}.{part:03} {unit}")
            }
        }
    }
}

impl fmt::Display for Value {
    fn fmt(&self, f: &mut fmt::Formatter<'_>) -> fmt::Result {
        let mut letters = Letters(0);
        self.put(&mut letters)?;
        let missing = f.width().unwrap_or(0).saturating_sub(letters.0);
        let before = match f.align() {
            Some(fmt::Alignment::Left) => 0,
            Some(fmt::Alignment::Center) => missing / 2,
            Some(fmt::Alignment::Right) | None => missing,
        };
        fill(f, before)?;
        self.put(f)?;
        fill(f, missing.saturating_sub(before))
    }
}

/// Counts the letters that are written to it.
struct Letters(usize);

impl Write for Letters {
    fn write_str(&mut self, text: &str) -> fmt::Result {
        self.0 = self.0.saturating_add(text.chars().count());
        Ok(())
    }
}

fn fill(f: &mut fmt::Formatter<'_>, times: usize) -> fmt::Result {
    (0..times).try_for_each(|_| f.write_char(f.fill()))
}

/// The names, in the order of the tags.
const NAMES: [(u64, &str); 67] = [
    (1, "Checksum"),
    (2, "Precision Time Stamp"),
    (3, "Mission ID"),
    (4, "Platform Tail Number"),
    (5, "Platform Heading Angle"),
    (6, "Platform Pitch Angle"),
    (7, "Platform Roll Angle"),
    (8, "Platform True Airspeed"),
    (9, "Platform Indicated Airspeed"),
    (10, "Platform Designation"),
    (11, "Image Source Sensor"),
    (12, "Image Coordinate System"),
    (13, "Sensor Latitude"),
    (14, "Sensor Longitude"),
    (15, "Sensor True Altitude"),
    (16, "Sensor Horizontal Field of View"),
    (17, "Sensor Vertical Field of View"),
    (18, "Sensor Relative Azimuth Angle"),
    (19, "Sensor Relative Elevation Angle"),
    (20, "Sensor Relative Roll Angle"),
    (21, "Slant Range"),
    (22, "Target Width"),
    (23, "Frame Center Latitude"),
    (24, "Frame Center Longitude"),
    (25, "Frame Center Elevation"),
    (26, "Offset Corner Latitude Point 1"),
    (27, "Offset Corner Longitude Point 1"),
    (28, "Offset Corner Latitude Point 2"),
    (29, "Offset Corner Longitude Point 2"),
    (30, "Offset Corner Latitude Point 3"),
    (31, "Offset Corner Longitude Point 3"),
    (32, "Offset Corner Latitude Point 4"),
    (33, "Offset Corner Longitude Point 4"),
    (34, "Icing Detected"),
    (35, "Wind Direction"),
    (36, "Wind Speed"),
    (37, "Static Pressure"),
    (38, "Density Altitude"),
    (39, "Outside Air Temperature"),
    (55, "Relative Humidity"),
    (56, "Platform Ground Speed"),
    (57, "Ground Range"),
    (59, "Platform Call Sign"),
    (63, "Sensor Field of View Name"),
    (64, "Platform Magnetic Heading"),
    (65, "UAS Datalink LS Version Number"),
    (67, "Alternate Platform Latitude"),
    (68, "Alternate Platform Longitude"),
    (70, "Alternate Platform Name"),
    (71, "Alternate Platform Heading"),
    (75, "Sensor Ellipsoid Height"),
    (78, "Frame Center Height Above Ellipsoid"),
    (79, "Sensor North Velocity"),
    (80, "Sensor East Velocity"),
    (82, "Corner Latitude Point 1 (Full)"),
    (83, "Corner Longitude Point 1 (Full)"),
    (84, "Corner Latitude Point 2 (Full)"),
    (85, "Corner Longitude Point 2 (Full)"),
    (86, "Corner Latitude Point 3 (Full)"),
    (87, "Corner Longitude Point 3 (Full)"),
    (88, "Corner Latitude Point 4 (Full)"),
    (89, "Corner Longitude Point 4 (Full)"),
    (90, "Platform Pitch Angle (Full)"),
    (91, "Platform Roll Angle (Full)"),
    (103, "Density Altitude Extended"),
    (104, "Sensor Ellipsoid Height Extended"),
    (105, "Alternate Platform Ellipsoid Height Extended"),
];
