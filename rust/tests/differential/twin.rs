//! The twin: what documents 01 and 02 say, in plain Rust, written from those documents alone.
//!
//! It takes a packet apart first and then asks one judgement after the other, in the document's order.

use crate::catalogue::{form, knows, Form, ALL, SMALLEST};
use crate::wire::{checksum, length_at, number, tag_at, KEY, MOST_BYTES, MOST_ITEMS};

macro_rules! alterations {
    ($($name:ident,)*) => {
        /// One rule told wrongly, to see that the comparison notices.
        #[derive(Clone, Copy, PartialEq, Eq, Debug)]
        pub enum Altered {
            $($name,)*
        }

        /// Every alteration.
        pub const ALTERATIONS: &[Altered] = &[$(Altered::$name,)*];
    };
}

alterations! {
    MarkOfOffsetsIsANumber,
    LowestCelsiusIsAMark,
    SignedDividedByAllOnes,
    TiesTowardsZero,
    OffsetsWhenAFullCornerIsAMark,
    OneFullCornerRowDecides,
    SeaLevelFirst,
    UnknownItemDropped,
    UnknownItemRefused,
    ChecksumToTheEnd,
    TagsKnownModulo128,
    LongFormKept,
    LongFormRefused,
    LastItemByTagOnly,
    SecondBeforeLength,
    Item65NotAsked,
    OneItemMore,
    Item63UpTo7,
    ChecksumRowsCodeAsked,
    EmptyTextRowGets12,
    RestOfTheTableStays,
    PlaceOfNumbersAsked,
    BadRowsTagAlwaysNamed,
    ExactRoomIsTooShort,
    MarkListedAsANumber,
    WalkStopsBeforeTheLast,
    CarriedWalkedAsText,
    OneRecordMore,
    LongRecordWrapped,
    MarkForAnyNumber,
    Units36And55Swapped,
    CarriedSetsItsBit,
    SecondClearsTheBit,
    AskedModulo128,
    BitTooManyIsTaken,
    WordsBeforeRows,
    WordsAfterSize,
    ExtendedCodeIsNearest,
    ExtendedTiesDown,
    ExtendedTiesAwayFromZero,
    ExtendedScaleOfThreeBytes,
    FiveBytesOfHeight,
    HighestHeightIsOutside,
    HeightBeyondIsABadRow,
    Item75Before104,
    LengthAskedOfEveryTag,
    RangeBeforeLength,
    SumRoundedOnce,
    LongitudePast180Stays,
    LongitudeOf180Stays,
    FullCornerAt180Stays,
    LatitudeHeldAtThePole,
    PoleIsOffTheEarth,
    PoleBeforeMissing,
    Item65MayBeWithdrawn,
    ExtendedIsNeverWithdrawn,
    LongFormOfZeroGets12,
    EmptyTextStaysText,
    EmptyUnknownIsWithdrawn,
    WithdrawnMayStandTwice,
    WithdrawnSetsNoBit,
    CodeZeroIsWithdrawn,
    PlaceOfWithdrawnAsked,
    CodeOfWithdrawnIgnored,
    WithdrawnOfALengthGets12,
    WithdrawnHeightDecides,
    WithdrawnCornerIsAMark,
    WithdrawnListedAsAMark,
    CornerParitiesSwapped,
    OffsetsEndAt32,
    FullCornersEndAt88,
}

/// The twin, with at most one rule told wrongly.
#[derive(Clone, Copy)]
pub struct Twin {
    altered: Option<Altered>,
}

/// A refusal: number, place and tag as the documents have them.
#[derive(Clone, Copy, PartialEq, Eq, Debug)]
pub struct Refused {
    pub number: u64,
    pub place: usize,
    pub tag: u64,
}

pub fn refused(number: u64, place: usize, tag: u64) -> Refused {
    Refused { number, place, tag }
}

pub const READING: u64 = 1;
pub const MARK: u64 = 2;
pub const TEXT: u64 = 3;
pub const CARRIED: u64 = 4;
pub const WITHDRAWN: u64 = 5;

/// A row; its fourth word is taken apart.
#[derive(Clone, Copy, PartialEq, Eq, Debug)]
pub struct Row {
    pub tag: u64,
    pub kind: u64,
    pub code: u64,
    pub place: usize,
    pub length: usize,
}

impl Row {
    pub fn words(self) -> [u64; 4] {
        let last = self.place as u64 * 65_536 + self.length as u64;
        [self.tag, self.kind, self.code, last]
    }

    pub fn from_words(words: &[u64]) -> Row {
        Row {
            tag: words[0],
            kind: words[1],
            code: words[2],
            place: (words[3] / 65_536) as usize,
            length: (words[3] % 65_536) as usize,
        }
    }
}

/// An item where it stands in the packet.
#[derive(Clone, Copy)]
struct Item {
    start: usize,
    tag: u64,
    place: usize,
    length: usize,
}

/// A packet taken apart as far as it goes, with all that the reader was lent.
struct Case<'a> {
    twin: Twin,
    packet: &'a [u8],
    set: u128,
    table_words: Option<usize>,
    outer: Option<usize>,
    items: Vec<Item>,
    stopped: Option<Refused>,
}

/// The reader's judgements, in document 01's order.
const JUDGEMENTS: [fn(&Case) -> Option<Refused>; 11] = [
    |case| (!is_good(case.set)).then(|| refused(1, 0, 0)),
    |case| (case.table_words? < 512).then(|| refused(2, 0, 0)),
    |case| (case.packet.len() > MOST_BYTES).then(|| refused(3, 0, 0)),
    |case| (!case.packet.starts_with(&KEY)).then(|| refused(4, 0, 0)),
    |case| case.outer.is_none().then(|| refused(5, 16, 0)),
    |case| case.stopped,
    |case| case.first_item(),
    |case| case.last_item(),
    |case| case.checksum(),
    |case| case.known_items(),
    |case| case.item_65(),
];

/// Whether a knowing set holds 1, 2 and 65 and nothing outside the catalogue.
pub fn is_good(set: u128) -> bool {
    set & SMALLEST == SMALLEST && set & !ALL == 0
}

impl Twin {
    pub const TRUE: Twin = Twin { altered: None };

    pub fn altered(alteration: Altered) -> Twin {
        Twin {
            altered: Some(alteration),
        }
    }

    pub fn is(self, alteration: Altered) -> bool {
        self.altered == Some(alteration)
    }

    pub fn knows(self, set: u128, tag: u64) -> bool {
        let wrapped = self.is(Altered::TagsKnownModulo128);
        knows(set, if wrapped { tag % 128 } else { tag })
    }

    /// The catalogue's word on a tag. The corners' pattern told wrongly (W-205) leaves the good sets as they are.
    pub fn form(self, tag: u64) -> Option<Form> {
        match tag {
            // The other row of the same corner.
            82..=89 if self.is(Altered::CornerParitiesSwapped) => form(tag ^ 1),
            33 if self.is(Altered::OffsetsEndAt32) => None,
            89 if self.is(Altered::FullCornersEndAt88) => None,
            _ => form(tag),
        }
    }

    /// The mark of a known item's form.
    pub fn mark(self, tag: u64, form: Form) -> Option<u64> {
        match tag {
            39 if self.is(Altered::LowestCelsiusIsAMark) => Some(0x80),
            26..=33 if self.is(Altered::MarkOfOffsetsIsANumber) => None,
            _ => form.mark(),
        }
    }

    /// The catalogue's word on a tag that this receiver knows.
    pub fn known_form(self, set: u128, tag: u64) -> Option<Form> {
        let wrapped = self.is(Altered::TagsKnownModulo128);
        let known = self.knows(set, tag);
        let tag = if wrapped { tag % 128 } else { tag };
        self.form(tag).filter(|_| known)
    }

    /// The rows of a packet; without a table there is no refusal 2.
    pub fn read(
        self,
        packet: &[u8],
        set: u128,
        table_words: Option<usize>,
    ) -> Result<Vec<Row>, Refused> {
        let case = Case::new(self, packet, set, table_words);
        match JUDGEMENTS.iter().find_map(|judgement| judgement(&case)) {
            Some(refusal) => Err(refusal),
            None => Ok(case.items.iter().map(|item| case.row(item)).collect()),
        }
    }

    /// The words that an accepted packet puts at the table's beginning.
    pub fn put_table(self, rows: &[Row], words: &mut Vec<u64>) {
        words.extend(rows.iter().flat_map(|row| row.words()));
        if !self.is(Altered::RestOfTheTableStays) {
            words.resize(512, 0);
        }
    }

    /// Whether a known item of this form may have so many bytes.
    pub fn allows(self, form: Form, length: usize) -> bool {
        let one_more = form == Form::Extended && self.is(Altered::FiveBytesOfHeight);
        form.allows(length) || (one_more && length == 5)
    }

    /// Whether a code of so many bytes is one that 14 is given for.
    pub fn is_outside_its_codes(self, tag: u64, form: Form, length: usize, code: u64) -> bool {
        let last = form.last(length);
        match form {
            Form::Plain { .. } if tag == 63 && self.is(Altered::Item63UpTo7) => code > 7,
            Form::Extended if self.is(Altered::HighestHeightIsOutside) => code >= last,
            _ => code > last,
        }
    }
}

impl<'a> Case<'a> {
    fn new(twin: Twin, packet: &'a [u8], set: u128, table_words: Option<usize>) -> Case<'a> {
        let mut case = Case {
            twin,
            packet,
            set,
            table_words,
            outer: None,
            items: Vec::new(),
            stopped: None,
        };
        case.outer = case.items_start();
        if let Some(start) = case.outer {
            case.stopped = case.walk(start).err();
        }
        case
    }

    /// Where the items begin, if the outer length is good.
    fn items_start(&self) -> Option<usize> {
        let rest = self.packet.get(16..)?;
        let (length, size) = length_at(rest)?;
        (length == rest.len() - size).then_some(16 + size)
    }

    fn walk(&mut self, mut start: usize) -> Result<(), Refused> {
        let most = MOST_ITEMS + usize::from(self.twin.is(Altered::OneItemMore));
        while start < self.packet.len() {
            if self.items.len() == most {
                // The next item's tag is not read yet, so there is none to give.
                return Err(refused(6, start, 0));
            }
            let item = self.item(start)?;
            self.items.push(item);
            start = item.place + item.length;
        }
        Ok(())
    }

    fn item(&self, start: usize) -> Result<Item, Refused> {
        let (tag, size) = tag_at(&self.packet[start..]).ok_or(refused(7, start, 0))?;
        let after_tag = &self.packet[start + size..];
        let (length, length_size) = length_at(after_tag)
            .filter(|&(length, length_size)| length <= after_tag.len() - length_size)
            .ok_or(refused(8, start, tag))?;
        if self.twin.is(Altered::LongFormRefused) && length < 128 && length_size > 1 {
            return Err(refused(8, start, tag));
        }
        Ok(Item {
            start,
            tag,
            place: start + size + length_size,
            length,
        })
    }

    /// The tag alone is asked here; a wrong length is left to 12. With no item there is no tag.
    fn first_item(&self) -> Option<Refused> {
        match self.items.first() {
            None => Some(refused(9, self.packet.len(), 0)),
            Some(first) => (first.tag != 2).then(|| refused(9, first.start, first.tag)),
        }
    }

    fn last_item(&self) -> Option<Refused> {
        let last = self.items.last()?;
        let right_length = last.length == 2 || self.twin.is(Altered::LastItemByTagOnly);
        (last.tag != 1 || !right_length).then(|| refused(10, last.start, last.tag))
    }

    /// Summed is all before the value, which is the same where its length has a long form.
    fn checksum(&self) -> Option<Refused> {
        let place = self.items.last()?.place;
        let summed = if self.twin.is(Altered::ChecksumToTheEnd) {
            self.packet
        } else {
            &self.packet[..place]
        };
        (number(&self.packet[place..]) != checksum(summed)).then(|| refused(11, place, 1))
    }

    fn known_items(&self) -> Option<Refused> {
        let mut seen: u128 = 0;
        self.items.iter().find_map(|item| {
            let Some(form) = self.twin.known_form(self.set, item.tag) else {
                let fault = self.twin.is(Altered::UnknownItemRefused);
                return fault.then(|| refused(12, item.start, item.tag));
            };
            let once = self.twin.stands_once(self.is_withdrawn(item));
            let second = once && knows(seen, item.tag);
            seen |= u128::from(once) << (item.tag % 128);
            let number = self.known_item(item, form, second)?;
            Some(refused(number, item.start, item.tag))
        })
    }

    /// The number of the refusal of one known item: 12, 13 and 14 are asked item by item. What is withdrawn has no code.
    fn known_item(&self, item: &Item, form: Form, second: bool) -> Option<u64> {
        let withdrawn = self.is_withdrawn(item);
        let right_length = withdrawn || self.twin.allows(form, item.length);
        let outside = right_length
            && !withdrawn
            && self
                .twin
                .is_outside_its_codes(item.tag, form, item.length, self.code(item));
        let mut judgements = [(!right_length, 12), (second, 13), (outside, 14)];
        if self.twin.is(Altered::SecondBeforeLength) {
            judgements.swap(0, 1);
        }
        let (_, number) = judgements.into_iter().find(|&(given, _)| given)?;
        Some(number)
    }

    fn item_65(&self) -> Option<Refused> {
        let asked = !self.twin.is(Altered::Item65NotAsked);
        let absent = self.items.iter().all(|item| item.tag != 65);
        (asked && absent).then(|| refused(15, 0, 0))
    }

    /// Whether a known item is withdrawn: it has no bytes, in whatever form its length says so.
    fn is_withdrawn(&self, item: &Item) -> bool {
        // A known tag and a length in its shortest form have a byte each.
        let is_long = item.place - item.start > 2;
        let is_refused = is_long && self.twin.is(Altered::LongFormOfZeroGets12);
        item.length == 0 && !is_refused && self.twin.may_be_withdrawn(item.tag)
    }

    fn code(&self, item: &Item) -> u64 {
        number(&self.packet[item.place..item.place + item.length])
    }

    fn row(&self, item: &Item) -> Row {
        let withdrawn = self.is_withdrawn(item);
        let (kind, code) = match self.twin.known_form(self.set, item.tag) {
            None if withdrawn && self.twin.takes_for_withdrawn(item.tag) => (WITHDRAWN, 0),
            None => (CARRIED, 0),
            Some(Form::Text) if self.twin.is(Altered::EmptyTextStaysText) => (TEXT, 0),
            Some(_) if withdrawn => (WITHDRAWN, 0),
            Some(Form::Text) => (TEXT, 0),
            Some(form) => {
                let code = self.code(item);
                let is_mark = self.twin.mark(item.tag, form) == Some(code);
                (if is_mark { MARK } else { READING }, code)
            }
        };
        Row {
            tag: item.tag,
            kind,
            code,
            place: item.place,
            length: item.length,
        }
    }
}
