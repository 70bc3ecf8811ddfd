use crate::raw;
use core::fmt;

/// Makes [`Reason`] out of one list of names, numbers and words.
macro_rules! reasons {
    ($($name:ident = $number:literal, $words:literal;)*) => {
        /// Why an answer is a refusal: the reasons of document 01, and from 22 on those of its change requests, with their numbers.
        ///
        /// ```
        /// use oysterknoll::Reason;
        ///
        /// assert_eq!(Reason::ChecksumDiffers.number(), 11);
        /// assert_eq!(Reason::from_number(11), Some(Reason::ChecksumDiffers));
        /// assert_eq!(Reason::ChecksumDiffers.to_string(), "checksum differs");
        /// ```
        #[derive(Clone, Copy, Debug, PartialEq, Eq, Hash)]
        #[non_exhaustive]
        pub enum Reason {
            $(
                #[doc = concat!($number, ": ", $words, ".")]
                $name,
            )*
            /// A number outside the list. The library of this version gives none; one from a later archive would be kept here.
            #[non_exhaustive]
            Unlisted(u64),
        }

        impl Reason {
            /// Every reason of the list, in the order of the numbers.
            ///
            /// ```
            /// use oysterknoll::Reason;
            ///
            /// assert!(Reason::ALL.iter().map(|reason| reason.number()).eq(1..=22));
            /// ```
            pub const ALL: &'static [Reason] = &[$(Reason::$name),*];

            /// The reason's number.
            ///
            /// ```
            /// assert_eq!(oysterknoll::Reason::KnownTagTwice.number(), 13);
            /// ```
            pub const fn number(self) -> u64 {
                match self {
                    $(Reason::$name => $number,)*
                    Reason::Unlisted(number) => number,
                }
            }

            /// The reason of the list with this number, if there is one.
            ///
            /// ```
            /// use oysterknoll::Reason;
            ///
            /// assert_eq!(Reason::from_number(18), Some(Reason::OutputTooShort));
            /// assert_eq!(Reason::from_number(0), None);
            /// ```
            pub const fn from_number(number: u64) -> Option<Reason> {
                match number {
                    $($number => Some(Reason::$name),)*
                    _ => None,
                }
            }
        }

        /// The words that the documents have for it.
        impl fmt::Display for Reason {
            fn fmt(&self, f: &mut fmt::Formatter<'_>) -> fmt::Result {
                f.write_str(match self {
                    $(Reason::$name => $words,)*
                    Reason::Unlisted(_) => "reason not listed",
                })
            }
        }
    };
}

reasons! {
    SetNotGood = 1, "knowing set not good";
    TableTooShort = 2, "lent table under 512 words";
    PacketTooLong = 3, "packet over 8,192 bytes";
    KeyDiffers = 4, "under 16 bytes or another key";
    OuterLengthWrong = 5, "outer length cut, forbidden or unequal to the rest";
    TooManyItems = 6, "bytes remain after 128 items";
    TagBroken = 7, "tag cut or forbidden";
    LengthBroken = 8, "item length cut, forbidden or past the end";
    FirstNotTimeStamp = 9, "first item absent or not tag 2";
    LastNotChecksum = 10, "last item not tag 1 of length 2";
    ChecksumDiffers = 11, "checksum differs";
    LengthNotAllowed = 12, "known item of wrong length";
    KnownTagTwice = 13, "known tag a second time";
    CodeNotAllowed = 14, "item 34 or 63 outside its codes, or an extended height beyond 40,000 m";
    VersionMissing = 15, "no item 65";
    RowCountTooLarge = 16, "row count over 128 or four times it over the words lent";
    RowBad = 17, "bad row";
    OutputTooShort = 18, "output too short";
    NoScale = 19, "tag has no scale, or an extended height has another length than 2, 3 or 4";
    NotANumber = 20, "code is a mark or too wide, or an extended height beyond 40,000 m";
    ValueOutOfRange = 21, "value outside the range";
    WordsDisagree = 22, "words disagree";
}

/// A refusal: why, where, and of which tag. Nothing that was lent is changed by one.
///
/// ```
/// use oysterknoll::{check, Knowing, Reason};
///
/// let refusal = check(b"no packet", Knowing::ALL).unwrap_err();
/// assert_eq!(refusal.reason, Reason::KeyDiffers);
/// assert_eq!((refusal.number(), refusal.place, refusal.tag), (4, 0, 0));
/// assert_eq!(refusal.to_string(), "refused by 4, place 0, tag 0: under 16 bytes or another key");
/// ```
#[derive(Clone, Copy, Debug, PartialEq, Eq, Hash)]
pub struct Refusal {
    /// Why.
    pub reason: Reason,
    /// A place in the packet, or for what is refused of rows the row number from 0; 0 where there is none.
    pub place: usize,
    /// The tag, 0 where there is none.
    pub tag: u64,
}

impl Refusal {
    /// The number of the reason.
    ///
    /// ```
    /// let refusal = oysterknoll::to_house(2, 8, 0).unwrap_err();
    /// assert_eq!(refusal.number(), 19);
    /// ```
    pub const fn number(&self) -> u64 {
        self.reason.number()
    }
}

impl fmt::Display for Refusal {
    fn fmt(&self, f: &mut fmt::Formatter<'_>) -> fmt::Result {
        let Refusal { reason, place, tag } = self;
        write!(
            f,
            "refused by {}, place {place}, tag {tag}: {reason}",
            self.number()
        )
    }
}

impl core::error::Error for Refusal {}

impl raw::Refusal {
    /// What was asked for where nothing is refused, else the refusal.
    pub(crate) fn or<T>(self, asked: T) -> Result<T, Refusal> {
        match self.number {
            0 => Ok(asked),
            number => Err(Refusal {
                reason: Reason::from_number(number).unwrap_or(Reason::Unlisted(number)),
                place: self.place,
                tag: self.tag,
            }),
        }
    }
}
