//! Document 01's catalogue, typed from its table, the extended heights of document 02's W-202, and the corners' pattern of its W-205.

use Unit::{Degree, DegreeCelsius, Metre, MetreASecond, Microsecond, Millibar, Percent};

/// How an item of the catalogue is stored; scales are in house units.
#[derive(Clone, Copy, PartialEq, Eq, Debug)]
pub enum Form {
    /// A number without scale; codes above `last` are refused by 14.
    Plain {
        bytes: usize,
        last: u64,
    },
    Unsigned {
        bytes: usize,
        low: i64,
        high: i64,
    },
    /// From minus `high` to `high`; the lowest code is a mark.
    Signed {
        bytes: usize,
        high: i64,
    },
    /// Item 39: one degree a code, no mark.
    Celsius,
    /// Items 103 to 105: unsigned, of 2, 3 or 4 bytes, the scale going by the length; no mark.
    Extended,
    Text,
}

/// What a value of an item counts.
#[derive(Clone, Copy, PartialEq, Eq, Debug)]
pub enum Unit {
    Degree,
    Metre,
    MetreASecond,
    Millibar,
    Percent,
    DegreeCelsius,
    Microsecond,
}

pub const DEGREE: i64 = 10_000_000;
pub const METRE: i64 = 1_000;
const METRE_A_SECOND: i64 = 1_000;
const MILLIBAR: i64 = 1_000;
const PERCENT: i64 = 1_000;
pub const DEGREE_CELSIUS: i64 = 1_000;

/// The ends of the extended heights, in metres; both are inside.
pub const EXTENDED_LOW: i64 = -900;
pub const EXTENDED_HIGH: i64 = 40_000;

const fn plain(bytes: usize, last: u64) -> Form {
    Form::Plain { bytes, last }
}

const fn unsigned(bytes: usize, low: i64, high: i64) -> Form {
    Form::Unsigned { bytes, low, high }
}

const fn signed(bytes: usize, high: i64) -> Form {
    Form::Signed { bytes, high }
}

const GROUPS: [(&[u64], Option<Unit>, Form); 24] = [
    (&[5, 35, 64, 71], Some(Degree), unsigned(2, 0, 360 * DEGREE)),
    (&[6], Some(Degree), signed(2, 20 * DEGREE)),
    (&[7], Some(Degree), signed(2, 50 * DEGREE)),
    (
        &[8, 9, 56],
        Some(MetreASecond),
        unsigned(1, 0, 255 * METRE_A_SECOND),
    ),
    (
        &[13, 23, 67, 82, 84, 86, 88, 90, 91],
        Some(Degree),
        signed(4, 90 * DEGREE),
    ),
    (
        &[14, 19, 24, 68, 83, 85, 87, 89],
        Some(Degree),
        signed(4, 180 * DEGREE),
    ),
    (
        &[15, 25, 38, 75, 78],
        Some(Metre),
        unsigned(2, -900 * METRE, 19_000 * METRE),
    ),
    (&[16, 17], Some(Degree), unsigned(2, 0, 180 * DEGREE)),
    (&[18, 20], Some(Degree), unsigned(4, 0, 360 * DEGREE)),
    (&[21, 57], Some(Metre), unsigned(4, 0, 5_000_000 * METRE)),
    (&[22], Some(Metre), unsigned(2, 0, 10_000 * METRE)),
    (
        &[26, 27, 28, 29, 30, 31, 32, 33],
        Some(Degree),
        signed(2, 75 * DEGREE / 1_000),
    ),
    (
        &[36],
        Some(MetreASecond),
        unsigned(1, 0, 100 * METRE_A_SECOND),
    ),
    (&[55], Some(Percent), unsigned(1, 0, 100 * PERCENT)),
    (&[37], Some(Millibar), unsigned(2, 0, 5_000 * MILLIBAR)),
    (&[39], Some(DegreeCelsius), Form::Celsius),
    (
        &[79, 80],
        Some(MetreASecond),
        signed(2, 327 * METRE_A_SECOND),
    ),
    (&[103, 104, 105], Some(Metre), Form::Extended),
    (&[1], None, plain(2, u16::MAX as u64)),
    (&[2], Some(Microsecond), plain(8, u64::MAX)),
    (&[65], None, plain(1, u8::MAX as u64)),
    (&[34], None, plain(1, 2)),
    (&[63], None, plain(1, 8)),
    (&[3, 4, 10, 11, 12, 59, 70], None, Form::Text),
];

static BY_TAG: [Option<(Form, Option<Unit>)>; 128] = by_tag();

const fn by_tag() -> [Option<(Form, Option<Unit>)>; 128] {
    let mut items = [None; 128];
    let mut group = 0;
    while group < GROUPS.len() {
        let (tags, unit, form) = GROUPS[group];
        let mut n = 0;
        while n < tags.len() {
            assert!(items[tags[n] as usize].is_none());
            items[tags[n] as usize] = Some((form, unit));
            n += 1;
        }
        group += 1;
    }
    items
}

/// The catalogue's word on a tag, if it has one.
pub fn form(tag: u64) -> Option<Form> {
    Some(item(tag)?.0)
}

/// The unit of an item, if it has one.
pub fn unit(tag: u64) -> Option<Unit> {
    item(tag)?.1
}

fn item(tag: u64) -> Option<(Form, Option<Unit>)> {
    BY_TAG.get(usize::try_from(tag).ok()?).copied().flatten()
}

/// The corners by their pattern, said beside the table: a block of offsets and one of full rows, of which even is latitude, odd longitude.
pub fn corner_form(tag: u64) -> Option<Form> {
    match tag {
        26..=33 => Some(signed(2, 75 * DEGREE / 1_000)),
        82..=89 if tag % 2 == 0 => Some(signed(4, 90 * DEGREE)),
        82..=89 => Some(signed(4, 180 * DEGREE)),
        _ => None,
    }
}

/// All tags of the catalogue, as a knowing set.
pub const ALL: u128 = all();

const fn all() -> u128 {
    let items = by_tag();
    let mut set = 0;
    let mut tag = 0;
    while tag < 128 {
        if items[tag].is_some() {
            set |= 1 << tag;
        }
        tag += 1;
    }
    set
}

/// The smallest good knowing set: tags 1, 2 and 65.
pub const SMALLEST: u128 = 1 << 1 | 1 << 2 | 1 << 65;

pub fn knows(set: u128, tag: u64) -> bool {
    tag < 128 && set >> tag & 1 == 1
}

pub fn tags_of(set: u128) -> impl Iterator<Item = u64> {
    (0..128).filter(move |&tag| knows(set, tag))
}

impl Form {
    /// The bytes of a number that has one length; nothing for an extended height and for text.
    pub fn bytes(self) -> Option<usize> {
        match self {
            Form::Plain { bytes, .. } => Some(bytes),
            Form::Unsigned { bytes, .. } => Some(bytes),
            Form::Signed { bytes, .. } => Some(bytes),
            Form::Celsius => Some(1),
            Form::Extended | Form::Text => None,
        }
    }

    /// Whether an item of this form may have so many bytes.
    pub fn allows(self, length: usize) -> bool {
        match self {
            Form::Extended => (2..=4).contains(&length),
            Form::Text => (1..=127).contains(&length),
            _ => self.bytes() == Some(length),
        }
    }

    /// The highest code of so many bytes that stands for a value the item may have: for an extended height the one of 40,000 m, which is
    /// this many metres over the low end, each of 2^(8 × length - 17) codes.
    pub fn last(self, length: usize) -> u64 {
        match self {
            Form::Extended => ((EXTENDED_HIGH - EXTENDED_LOW) as u64) << (8 * length) >> 17,
            Form::Plain { last, .. } => last,
            _ => u64::MAX,
        }
    }

    /// The code that is a mark, not a number.
    pub fn mark(self) -> Option<u64> {
        match self {
            Form::Signed { bytes, .. } => Some(1 << (8 * bytes - 1)),
            _ => None,
        }
    }
}
