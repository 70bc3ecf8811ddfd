use crate::raw;
use crate::{Knowing, Refusal};

/// A height over the ellipsoid, in millimetres.
///
/// ```
/// use oysterknoll::EllipsoidHeight;
///
/// let EllipsoidHeight(mm) = EllipsoidHeight(689_935);
/// assert_eq!(mm, 689_935);
/// ```
#[derive(Clone, Copy, Debug, PartialEq, Eq, PartialOrd, Ord, Hash)]
pub struct EllipsoidHeight(pub i64);

/// A height over mean sea level, in millimetres. It is no [`EllipsoidHeight`], and the compiler says so:
///
/// ```compile_fail
/// use oysterknoll::{EllipsoidHeight, SeaLevelHeight};
///
/// let lower = SeaLevelHeight(641_958) < EllipsoidHeight(689_935);
/// ```
///
/// ```
/// use oysterknoll::SeaLevelHeight;
///
/// assert!(SeaLevelHeight(601_572) < SeaLevelHeight(641_958));
/// ```
#[derive(Clone, Copy, Debug, PartialEq, Eq, PartialOrd, Ord, Hash)]
pub struct SeaLevelHeight(pub i64);

/// A height with the kind that it was. Nothing here turns one kind into the other: the difference depends on the place.
///
/// ```
/// use oysterknoll::{sensor_height, EllipsoidHeight, Height, Knowing, SeaLevelHeight};
///
/// let packet = include_bytes!("../../samples/tower.klv");
/// let said = match sensor_height(packet, Knowing::ALL)? {
///     Height::OverEllipsoid(EllipsoidHeight(mm)) => format!("{mm} mm over the ellipsoid"),
///     Height::OverSeaLevel(SeaLevelHeight(mm)) => format!("{mm} mm over mean sea level"),
///     Height::Missing => "missing".to_string(),
/// };
/// assert_eq!(said, "689935 mm over the ellipsoid");
/// # Ok::<(), oysterknoll::Refusal>(())
/// ```
#[derive(Clone, Copy, Debug, PartialEq, Eq, Hash)]
pub enum Height {
    /// Over the ellipsoid.
    OverEllipsoid(EllipsoidHeight),
    /// Over mean sea level.
    OverSeaLevel(SeaLevelHeight),
    /// The packet has none that the receiver knows and that is not withdrawn.
    Missing,
}

/// A point on the ground, in ten-millionths of a degree.
///
/// ```
/// use oysterknoll::catalogue::{Unit, Value};
/// use oysterknoll::Point;
///
/// let point = Point { latitude: 469_001_577, longitude: 83_008_305 };
/// let degrees = |value| Value { value, unit: Some(Unit::Degree) }.to_string();
/// assert_eq!(degrees(point.latitude), "46.9001577°");
/// assert_eq!(degrees(point.longitude), "8.3008305°");
/// ```
#[derive(Clone, Copy, Debug, PartialEq, Eq, Hash)]
pub struct Point {
    /// North of the equator, negative to the south.
    pub latitude: i64,
    /// East of Greenwich, negative to the west.
    pub longitude: i64,
}

/// A corner of the picture on the ground. A match without `_` has to say what is done with one that is off the Earth, as it is if the drone
/// marked it or if frame centre and offset lead past a pole.
///
/// ```
/// use oysterknoll::{corner, Corner, Knowing};
///
/// // Corner 2 of the tower looks above the horizon, whatever its offsets say.
/// let packet = include_bytes!("../../samples/tower.klv");
/// let (pin, why) = match corner(packet, Knowing::ALL, 2)? {
///     Corner::At(point) => (Some(point), "seen"),
///     Corner::OffTheEarth => (None, "above the horizon"),
///     Corner::Missing => (None, "not said"),
/// };
/// assert_eq!((pin, why), (None, "above the horizon"));
/// # Ok::<(), oysterknoll::Refusal>(())
/// ```
#[derive(Clone, Copy, Debug, PartialEq, Eq, Hash)]
pub enum Corner {
    /// At this point, which a map can draw: the latitude is from -90 to 90 degrees, the longitude from -180 to below 180.
    At(Point),
    /// The drone said that this corner looks above the horizon, or it is past a pole: there is no pin to draw.
    OffTheEarth,
    /// The packet has none that the receiver knows and that is not withdrawn.
    Missing,
}

/// How high the sensor is: by item 104, over the ellipsoid, if the packet has it, else by item 75, over the ellipsoid too, else by item 15,
/// over mean sea level.
///
/// Only items that the receiver knows count: of a newer drone's packet an older receiver answers by 75 or 15 where a newer one answers by
/// 104, with another number or even another kind. An item that is withdrawn is as if it were not there.
///
/// # Errors
///
/// The reader's refusals, but for 2: those with numbers 1 and 3 to 15.
///
/// # Example
///
/// ```
/// use oysterknoll::{sensor_height, EllipsoidHeight, Height, Knowing, SeaLevelHeight};
///
/// let packet = include_bytes!("../../samples/tower_extended.klv");
/// let height = sensor_height(packet, Knowing::ALL)?;
/// assert_eq!(height, Height::OverEllipsoid(EllipsoidHeight(690_063)));
///
/// // A receiver that does not know item 104, and one that does not know item 75 either.
/// let older = Knowing::ALL.without(104);
/// let height = sensor_height(packet, older)?;
/// assert_eq!(height, Height::OverEllipsoid(EllipsoidHeight(689_935)));
/// let height = sensor_height(packet, older.without(75))?;
/// assert_eq!(height, Height::OverSeaLevel(SeaLevelHeight(641_958)));
///
/// // A drone that has withdrawn item 104: item 75 decides.
/// let fleet = include_bytes!("../../samples/fleet.klv");
/// let height = sensor_height(fleet, Knowing::ALL)?;
/// assert_eq!(height, Height::OverEllipsoid(EllipsoidHeight(702_992)));
/// # Ok::<(), oysterknoll::Refusal>(())
/// ```
pub fn sensor_height(packet: &[u8], knowing: Knowing) -> Result<Height, Refusal> {
    height_of(raw::sensor_height(packet, knowing))
}

/// How high the frame centre is: by item 78, over the ellipsoid, if the packet has it, else by item 25, over mean sea level.
///
/// An item that is withdrawn is as if it were not there.
///
/// # Errors
///
/// The reader's refusals, but for 2: those with numbers 1 and 3 to 15.
///
/// # Example
///
/// ```
/// use oysterknoll::{frame_centre_height, EllipsoidHeight, Height, Knowing};
///
/// let packet = include_bytes!("../../samples/tower.klv");
/// let height = frame_centre_height(packet, Knowing::ALL)?;
/// assert_eq!(height, Height::OverEllipsoid(EllipsoidHeight(649_549)));
///
/// let least = frame_centre_height(packet, Knowing::LEAST)?;
/// assert_eq!(least, Height::Missing);
/// # Ok::<(), oysterknoll::Refusal>(())
/// ```
pub fn frame_centre_height(packet: &[u8], knowing: Knowing) -> Result<Height, Refusal> {
    height_of(raw::frame_centre_height(packet, knowing))
}

/// Where corner k of the picture is, k from 1 to 4 (upper left, upper right, lower right, lower left). Any other k is missing.
///
/// By the full items 80 + 2k and 81 + 2k if both are there, else by the frame centre (23 and 24) plus the offsets 24 + 2k and
/// 25 + 2k if all four are there. A mark in any row used is off the Earth; an item that is withdrawn is as if it were not there.
///
/// A longitude of 180 degrees or more comes back by one turn of 360 degrees, and so does one below -180; the 180th meridian is -180. A
/// latitude above 90 or below -90 degrees is off the Earth. Rows, conversions and listing say what was sent.
///
/// # Errors
///
/// The reader's refusals, but for 2: those with numbers 1 and 3 to 15.
///
/// # Example
///
/// ```
/// use oysterknoll::{corner, Corner, Knowing, Point};
///
/// let packet = include_bytes!("../../samples/tower.klv");
/// assert_eq!(corner(packet, Knowing::ALL, 1)?, Corner::OffTheEarth);
/// assert_eq!(
///     corner(packet, Knowing::ALL, 3)?,
///     Corner::At(Point { latitude: 469_001_577, longitude: 83_008_305 }),
/// );
/// assert_eq!(corner(packet, Knowing::ALL, 5)?, Corner::Missing);
///
/// // A picture across the 180th meridian: by the offset this corner is at 180.0300011 degrees.
/// let island = include_bytes!("../../samples/island.klv");
/// assert_eq!(
///     corner(island, Knowing::ALL, 2)?,
///     Corner::At(Point { latitude: -167_950_009, longitude: -1_799_699_989 }),
/// );
///
/// // A corner whose full latitude is withdrawn: its offsets decide.
/// let fleet = include_bytes!("../../samples/fleet.klv");
/// assert_eq!(
///     corner(fleet, Knowing::ALL, 3)?,
///     Corner::At(Point { latitude: 469_032_904, longitude: 83_066_053 }),
/// );
/// # Ok::<(), oysterknoll::Refusal>(())
/// ```
pub fn corner(packet: &[u8], knowing: Knowing, k: u64) -> Result<Corner, Refusal> {
    let answer = raw::corner(packet, knowing, k);
    // Kind 0 is missing, and a kind that the library does not have would be missing too; so of a height.
    let corner = match answer.kind {
        raw::POINT => Corner::At(Point {
            latitude: answer.latitude,
            longitude: answer.longitude,
        }),
        raw::OFF_THE_EARTH => Corner::OffTheEarth,
        _ => Corner::Missing,
    };
    answer.refusal.or(corner)
}

/// The height of an answer, with its kind.
fn height_of(answer: raw::HeightAnswer) -> Result<Height, Refusal> {
    let height = match answer.kind {
        raw::OVER_ELLIPSOID => Height::OverEllipsoid(EllipsoidHeight(answer.height)),
        raw::OVER_SEA_LEVEL => Height::OverSeaLevel(SeaLevelHeight(answer.height)),
        _ => Height::Missing,
    };
    answer.refusal.or(height)
}
