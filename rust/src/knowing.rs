/// The set of catalogue tags that a receiver knows, as two words: tag t is bit t of the pair.
///
/// A set is good when it holds 1, 2 and 65 and nothing outside the catalogue. Any set may be made; every function that is given
/// one that is not good refuses it by [`Reason::SetNotGood`](crate::Reason::SetNotGood).
///
/// ```
/// use oysterknoll::Knowing;
///
/// // A receiver that is older than the extended heights.
/// let old = Knowing::ALL.without(103).without(104).without(105);
/// assert!(old.knows(75) && !old.knows(104));
///
/// // One that wants times and positions and carries the rest.
/// let positions = Knowing::LEAST.with(13).with(14);
/// assert_eq!(positions.words(), (0x6006, 0x2));
/// ```
#[derive(Clone, Copy, Debug, PartialEq, Eq, Hash)]
pub struct Knowing {
    low: u64,
    high: u64,
}

impl Knowing {
    /// The whole catalogue: 67 tags.
    ///
    /// ```
    /// use oysterknoll::{catalogue, Knowing};
    ///
    /// assert!(catalogue::all().all(|item| Knowing::ALL.knows(item.tag)));
    /// ```
    pub const ALL: Knowing = Knowing::from_words(0x8b80_00ff_ffff_fffe, 0x0000_0380_0ffd_c8db);

    /// The smallest good set: the checksum, the time stamp and the version (1, 2 and 65).
    ///
    /// ```
    /// use oysterknoll::Knowing;
    ///
    /// let known: Vec<u64> = (0..128).filter(|tag| Knowing::LEAST.knows(*tag)).collect();
    /// assert_eq!(known, [1, 2, 65]);
    /// ```
    pub const LEAST: Knowing = Knowing::from_words(0, 0).with(1).with(2).with(65);

    /// The set of these two words: `low` has tags 0 to 63, `high` tags 64 to 127.
    ///
    /// ```
    /// use oysterknoll::Knowing;
    ///
    /// assert_eq!(Knowing::from_words(0b110, 0b10), Knowing::LEAST);
    /// ```
    pub const fn from_words(low: u64, high: u64) -> Knowing {
        Knowing { low, high }
    }

    /// The two words, the one with tags 0 to 63 first.
    ///
    /// ```
    /// assert_eq!(oysterknoll::Knowing::LEAST.words(), (0b110, 0b10));
    /// ```
    pub const fn words(self) -> (u64, u64) {
        (self.low, self.high)
    }

    /// Whether the tag is in the set. Tags from 128 on are in none.
    ///
    /// ```
    /// use oysterknoll::Knowing;
    ///
    /// assert!(Knowing::ALL.knows(75));
    /// assert!(!Knowing::ALL.knows(40) && !Knowing::ALL.knows(128));
    /// ```
    pub const fn knows(self, tag: u64) -> bool {
        let one = Knowing::only(tag);
        (self.low & one.low) | (self.high & one.high) != 0
    }

    /// This set and the tag. A tag from 128 on changes nothing.
    ///
    /// ```
    /// use oysterknoll::Knowing;
    ///
    /// let sensor = Knowing::LEAST.with(13).with(14);
    /// assert!(sensor.knows(13) && sensor.knows(14) && !sensor.knows(15));
    /// ```
    #[must_use]
    pub const fn with(self, tag: u64) -> Knowing {
        let one = Knowing::only(tag);
        Knowing::from_words(self.low | one.low, self.high | one.high)
    }

    /// This set without the tag.
    ///
    /// ```
    /// use oysterknoll::Knowing;
    ///
    /// assert!(!Knowing::ALL.without(75).knows(75));
    /// ```
    #[must_use]
    pub const fn without(self, tag: u64) -> Knowing {
        let one = Knowing::only(tag);
        Knowing::from_words(self.low & !one.low, self.high & !one.high)
    }

    /// The set of one tag, empty from 128 on.
    const fn only(tag: u64) -> Knowing {
        match tag {
            0..=63 => Knowing::from_words(1 << tag, 0),
            64..=127 => Knowing::from_words(0, 1 << (tag & 63)),
            _ => Knowing::from_words(0, 0),
        }
    }
}

/// The whole catalogue.
impl Default for Knowing {
    fn default() -> Knowing {
        Knowing::ALL
    }
}
