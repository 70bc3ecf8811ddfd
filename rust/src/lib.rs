//! MISB ST 0601 packets, the metadata that travels with drone video, read, judged, written and sent on.
//!
//! The work is done by a proved library: what each function answers is defined in the project's scope paper ("document 01") and its
//! change requests ("document 02"), and proved of the library's code. This crate is a thin safe cover over its C functions. It adds no
//! rule of its own, allocates nothing and needs nothing but `core`.
//!
//! Every input gets an answer: an accepted packet its values, any other bytes a [`Refusal`] by reason, place and tag. No function
//! has to be told anything true first, none panics, and a refusal leaves all memory lent as it was.
//!
//! ```
//! use oysterknoll::{corner, Corner, Knowing, Point};
//!
//! let packet = include_bytes!("../../samples/tower.klv");
//! match corner(packet, Knowing::ALL, 3) {
//!     Ok(Corner::At(Point { latitude, longitude })) => {
//!         assert_eq!((latitude, longitude), (469_001_577, 83_008_305)); // in ten-millionths of a degree
//!     }
//!     Ok(Corner::OffTheEarth) => println!("above the horizon or past a pole"),
//!     Ok(Corner::Missing) => println!("the packet has no such corner"),
//!     Err(refusal) => println!("{refusal}"),
//! }
//! ```
//!
//! # Linking
//!
//! The library is an archive of machine code for Linux on x86-64 or Arm; on another target the build stops and says so. At the root of
//! the repository `rt staticlib oysterknoll` makes the first, `scripts/archive` both, and the crate finds the one for its target there. An
//! archive that stands elsewhere is named by its folder in `OYSTERKNOLL_LIB_DIR`.
//!
//! # House units
//!
//! Values are whole numbers of 10^-7 degree, mm, mm/s, 0.001 mbar, 0.001 percent or 0.001 degree C. [`catalogue`] has the unit and the
//! range of each item, and shows a value in degrees, metres and so on.

#![no_std]
#![deny(missing_docs)]
#![deny(unsafe_code)]
#![deny(unsafe_op_in_unsafe_fn)]
#![deny(clippy::arithmetic_side_effects)]
#![deny(clippy::indexing_slicing)]
#![deny(clippy::expect_used, clippy::panic, clippy::unwrap_used)]

pub mod catalogue;
mod ground;
mod items;
mod knowing;
mod present;
mod raw;
mod refusal;
mod rows;
mod writing;

pub use ground::{
    corner, frame_centre_height, sensor_height, Corner, EllipsoidHeight, Height, Point,
    SeaLevelHeight,
};
pub use items::{items, Items};
pub use knowing::Knowing;
pub use present::{Present, Tags};
pub use refusal::{Reason, Refusal};
pub use rows::{read, take_row, Content, Row, Rows, RowsIter};
pub use writing::{write, write_rows, write_with};

/// The examples of the README are run too.
#[cfg(doctest)]
#[doc = include_str!("../README.md")]
struct Readme;

/// The version of what this crate and an archive say to each other: an archive that goes with the crate answers it to [`version`].
///
/// ```
/// assert_eq!(oysterknoll::VERSION, 4);
/// ```
pub const VERSION: u64 = 4;

/// The words of a table that [`read`] fills: four for each of at most 128 rows.
///
/// ```
/// use oysterknoll::{read, Knowing, Reason, TABLE_WORDS};
///
/// let packet = include_bytes!("../../samples/smallest.klv");
/// assert!(read(packet, Knowing::ALL, &mut [0; TABLE_WORDS]).is_ok());
/// let refusal = read(packet, Knowing::ALL, &mut [0; TABLE_WORDS - 1]).unwrap_err();
/// assert_eq!(refusal.reason, Reason::TableTooShort);
/// ```
pub const TABLE_WORDS: usize = 512;

/// The bytes of the longest packet; an output of so many is never too short for [`forward`] and the writers.
///
/// ```
/// use oysterknoll::{check, Knowing, Reason, LONGEST_PACKET};
///
/// let refusal = check(&[0; LONGEST_PACKET + 1], Knowing::ALL).unwrap_err();
/// assert_eq!(refusal.reason, Reason::PacketTooLong);
/// ```
pub const LONGEST_PACKET: usize = 8192;

/// No listing has more bytes; an output of so many is never too short for [`list`].
///
/// ```
/// use oysterknoll::{list, LONGEST_LISTING};
///
/// let packet = include_bytes!("../../samples/tower.klv");
/// assert!(list(packet, &mut [0; LONGEST_LISTING]).is_ok());
/// ```
pub const LONGEST_LISTING: usize = 21781;

/// The version that the linked archive was made for. It goes with this crate where that is [`VERSION`].
///
/// ```
/// assert_eq!(oysterknoll::version(), oysterknoll::VERSION);
/// ```
pub fn version() -> u64 {
    raw::version()
}

/// What an accepted packet has, by [`check`].
///
/// ```
/// use oysterknoll::{check, Accepted, Knowing, Present};
///
/// let packet = include_bytes!("../../samples/smallest.klv");
/// let present = Present::from_words(0b110, 0b10); // 1, 2 and 65
/// let withdrawn = Present::default();
/// assert_eq!(check(packet, Knowing::ALL), Ok(Accepted { count: 3, present, withdrawn }));
/// ```
#[derive(Clone, Copy, Debug, PartialEq, Eq, Hash)]
pub struct Accepted {
    /// How many items there are, those that the receiver does not know among them.
    pub count: usize,
    /// Which of those that the receiver knows are there, with a value or [withdrawn](Content::Withdrawn).
    pub present: Present,
    /// Which of these are withdrawn.
    pub withdrawn: Present,
}

impl Accepted {
    /// Whether an item of this tag is there with a value: it is present and not withdrawn. Of the tags from 128 on none is.
    ///
    /// This is what a planner's screen asks, at every picture: an item that the sender has withdrawn is present, though there is nothing to
    /// draw of it, and heights and corners treat it as absent. A mark is a value.
    ///
    /// ```
    /// use oysterknoll::{check, Knowing};
    ///
    /// let packet = include_bytes!("../../samples/fleet.klv");
    /// let accepted = check(packet, Knowing::ALL)?;
    /// assert!(accepted.has_value(23) && accepted.has_value(24)); // the frame centre
    /// assert!(!accepted.has_value(38)); // no density altitude
    ///
    /// // The sender has withdrawn the mission.
    /// assert!(accepted.present.has(3) && accepted.withdrawn.has(3));
    /// assert!(!accepted.has_value(3));
    /// # Ok::<(), oysterknoll::Refusal>(())
    /// ```
    pub fn has_value(&self, tag: u64) -> bool {
        self.present.has(tag) && !self.withdrawn.has(tag)
    }
}

impl raw::CountAnswer {
    /// What the packet has where nothing is refused, else the refusal.
    pub(crate) fn accepted(self) -> Result<Accepted, Refusal> {
        let [present, withdrawn] = [self.present, self.withdrawn]
            .map(|raw::Present { low, high }| Present::from_words(low, high));
        self.refusal.or(Accepted {
            count: self.count,
            present,
            withdrawn,
        })
    }
}

/// Judges a packet, and answers how many items it has, which of those that the receiver knows, and which of these are withdrawn.
///
/// # Errors
///
/// The reader's refusals, but for 2: those with numbers 1 and 3 to 15.
///
/// # Example
///
/// ```
/// use oysterknoll::{check, Knowing};
///
/// let packet = [
///     0x06, 0x0e, 0x2b, 0x34, 0x02, 0x0b, 0x01, 0x01, 0x0e, 0x01, 0x03, 0x01, 0x01, 0x00, 0x00, 0x00, // key
///     17, // bytes to come
///     2, 8, 0, 0, 0, 0, 0, 0, 0, 1, // time stamp
///     65, 1, 17, // version
///     1, 2, 0x62, 0xa6, // checksum
/// ];
/// let accepted = check(&packet, Knowing::ALL)?;
/// assert_eq!(accepted.count, 3);
/// assert!(accepted.has_value(65) && !accepted.has_value(23)); // a version, and no frame centre
/// # Ok::<(), oysterknoll::Refusal>(())
/// ```
pub fn check(packet: &[u8], knowing: Knowing) -> Result<Accepted, Refusal> {
    raw::check(packet, knowing).accepted()
}

/// Sends a packet on: reads it, and writes all its rows at the front of `out`. Answers the number of bytes written.
///
/// What the receiver does not know is handed on unharmed. Lengths take their shortest form; bytes after the packet stay; a refusal
/// changes nothing.
///
/// # Errors
///
/// The reader's refusals, but for 2, and then the writer's; of these only 18 is left, since a packet that was read can be written.
///
/// # Example
///
/// ```
/// use oysterknoll::{forward, Knowing, LONGEST_PACKET};
///
/// let packet = include_bytes!("../../samples/tower.klv");
/// let mut out = [0; LONGEST_PACKET];
/// let size = forward(packet, Knowing::LEAST, &mut out)?;
/// assert_eq!(&out[..size], packet);
/// # Ok::<(), oysterknoll::Refusal>(())
/// ```
pub fn forward(packet: &[u8], knowing: Knowing, out: &mut [u8]) -> Result<usize, Refusal> {
    let answer = raw::forward(packet, knowing, out);
    answer.refusal.or(answer.size)
}

/// Turns a stored code of so many bytes into house units, to the nearest; [`Row::value`] does it for a row.
///
/// The scale of an extended height (103 to 105) goes by the length, and half way between two units its value is the upper one. At every
/// other tag the length is not asked, whatever it is, and a value is never half way.
///
/// # Errors
///
/// 19 for a tag without scale, and for an extended height of another length than 2, 3 or 4; 20 for a code that is a mark or too wide, and
/// for an extended height beyond 40,000 m. The tag is the one given.
///
/// # Example
///
/// ```
/// use oysterknoll::{to_house, Reason};
///
/// assert_eq!(to_house(64, 2, 0xddc5), Ok(3_118_681_621)); // magnetic heading, 311.8681621 degrees
/// assert_eq!(to_house(26, 2, 0x8000).unwrap_err().reason, Reason::NotANumber); // a mark
///
/// // The height of the sensor over the ellipsoid: a code of two bytes counts 2 m, one of three 7.8125 mm.
/// assert_eq!(to_house(104, 2, 0x2f92), Ok(23_456_000));
/// assert_eq!(to_house(104, 3, 0x2f_921e), Ok(23_456_234));
/// assert_eq!(to_house(104, 5, 0x2f_921e).unwrap_err().reason, Reason::NoScale);
/// ```
pub fn to_house(tag: u64, length: usize, code: u64) -> Result<i64, Refusal> {
    let answer = raw::to_house(tag, length, code);
    answer.refusal.or(answer.value)
}

/// Turns a value in house units into a code of so many bytes: the nearest, and of an extended height (103 to 105) the one at or below.
///
/// At every other tag than those three the length is not asked, whatever it is.
///
/// # Errors
///
/// 19 for a tag without scale, and for an extended height of another length than 2, 3 or 4; 21 for a value outside the range. The tag is
/// the one given.
///
/// # Example
///
/// ```
/// use oysterknoll::{to_code, Reason};
///
/// assert_eq!(to_code(36, 1, 10_000), Ok(26)); // wind speed, 10 m/s
/// assert_eq!(to_code(36, 1, 9_999), Ok(25));
/// assert_eq!(to_code(36, 1, 100_001).unwrap_err().reason, Reason::ValueOutOfRange);
///
/// assert_eq!(to_code(104, 3, 23_456_240), Ok(0x2f_921e));
/// assert_eq!(to_code(104, 3, 23_456_234), Ok(0x2f_921d)); // 2f921e is 23,456,234.375 mm, which is above
/// ```
pub fn to_code(tag: u64, length: usize, value: i64) -> Result<u64, Refusal> {
    let answer = raw::to_code(tag, length, value);
    answer.refusal.or(answer.code)
}

/// Lists a packet as text at the front of `out`, one line an item, and answers the number of bytes.
///
/// The whole catalogue is known. Fields are parted by tabs, and every line ends with a newline byte. Of a withdrawn item nothing follows the
/// last tab. A refusal changes nothing.
///
/// # Errors
///
/// The reader's refusals, but for 2, and 18 for an output that is shorter than the listing.
///
/// # Example
///
/// ```
/// use oysterknoll::{list, LONGEST_LISTING};
///
/// let packet = include_bytes!("../../samples/smallest.klv");
/// let mut out = [0; LONGEST_LISTING];
/// let size = list(packet, &mut out)?;
/// let listing = "place\ttag\tkind\tvalue\n19\t2\tnumber\t1\n29\t65\tnumber\t17\n32\t1\tnumber\t25254\n";
/// assert_eq!(&out[..size], listing.as_bytes());
/// # Ok::<(), oysterknoll::Refusal>(())
/// ```
pub fn list(packet: &[u8], out: &mut [u8]) -> Result<usize, Refusal> {
    let answer = raw::list(packet, out);
    answer.refusal.or(answer.size)
}
