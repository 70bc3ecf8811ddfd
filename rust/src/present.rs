use crate::raw;
use core::fmt;
use core::iter::FusedIterator;

/// Which items of a packet are there, as two words: bit t of the pair is set where a row of tag t is not carried. A second pair says
/// which of them are withdrawn.
///
/// [`check`](crate::check) answers both, and [`Rows`](crate::Rows) keeps them. What is asked is answered from the words alone, as a
/// scan of all rows would answer it: a screen that asks at every picture whether there is a frame centre needs neither table nor packet.
/// An item that the sender has [withdrawn](crate::Content::Withdrawn) is there in the first pair too, so such a screen asks
/// [`Accepted::has_value`](crate::Accepted::has_value).
///
/// ```
/// use oysterknoll::{check, Knowing};
///
/// let packet = include_bytes!("../../samples/tower.klv");
/// let present = check(packet, Knowing::ALL)?.present;
/// assert!(present.has(23) && present.has(24)); // the frame centre
/// assert!(!present.has(38)); // no density altitude
/// assert_eq!(present.count(), 49); // of 52 items three are not in the catalogue
///
/// // A carried item is none that is known to be there: an older receiver's words lack it.
/// let old = check(packet, Knowing::ALL.without(23))?.present;
/// assert!(!old.has(23) && old.has(24));
/// # Ok::<(), oysterknoll::Refusal>(())
/// ```
///
/// By default no item is there:
///
/// ```
/// assert_eq!(oysterknoll::Present::default().count(), 0);
/// ```
#[derive(Clone, Copy, Default, PartialEq, Eq, Hash)]
pub struct Present {
    low: u64,
    high: u64,
}

impl Present {
    /// What these two words say: `low` has tags 0 to 63, `high` tags 64 to 127.
    ///
    /// ```
    /// use oysterknoll::Present;
    ///
    /// assert!(Present::from_words(0b110, 0b10).tags().eq([1, 2, 65]));
    /// ```
    pub const fn from_words(low: u64, high: u64) -> Present {
        Present { low, high }
    }

    /// The two words, the one with tags 0 to 63 first.
    ///
    /// ```
    /// use oysterknoll::{check, Knowing};
    ///
    /// let packet = include_bytes!("../../samples/smallest.klv");
    /// assert_eq!(check(packet, Knowing::ALL)?.present.words(), (0b110, 0b10));
    /// # Ok::<(), oysterknoll::Refusal>(())
    /// ```
    pub const fn words(self) -> (u64, u64) {
        (self.low, self.high)
    }

    /// Whether an item of this tag is there. Of the tags from 128 on none is.
    ///
    /// ```
    /// use oysterknoll::Present;
    ///
    /// let present = Present::from_words(1 << 23, 0);
    /// assert!(present.has(23));
    /// assert!(!present.has(24) && !present.has(128 + 23) && !present.has(u64::MAX));
    /// ```
    pub fn has(self, tag: u64) -> bool {
        raw::has(self, tag) != 0
    }

    /// How many items are there: the number of set bits, which is that of the rows that are not carried. Of the words for what is withdrawn
    /// it is that of the withdrawn rows.
    ///
    /// ```
    /// use oysterknoll::{read, Content, Knowing, TABLE_WORDS};
    ///
    /// let packet = include_bytes!("../../samples/tower.klv");
    /// let mut table = [0; TABLE_WORDS];
    /// let rows = read(packet, Knowing::ALL, &mut table)?;
    /// let carried = rows.iter().filter(|row| matches!(row.content, Content::Carried(_)));
    /// assert_eq!(rows.present().count(), rows.len() - carried.count());
    /// # Ok::<(), oysterknoll::Refusal>(())
    /// ```
    pub const fn count(self) -> usize {
        self.pair().count_ones() as usize
    }

    /// The tags of the items that are there, in their order.
    ///
    /// ```
    /// use oysterknoll::{check, Knowing};
    ///
    /// let packet = include_bytes!("../../samples/smallest.klv");
    /// let present = check(packet, Knowing::ALL)?.present;
    /// assert_eq!(present.tags().collect::<Vec<u64>>(), [1, 2, 65]); // the packet has 2, 65, 1
    /// # Ok::<(), oysterknoll::Refusal>(())
    /// ```
    pub const fn tags(self) -> Tags {
        Tags { left: self.pair() }
    }

    const fn pair(self) -> u128 {
        (self.high as u128) << 64 | self.low as u128
    }
}

/// The tags.
impl fmt::Debug for Present {
    fn fmt(&self, f: &mut fmt::Formatter<'_>) -> fmt::Result {
        f.debug_set().entries(self).finish()
    }
}

impl IntoIterator for Present {
    type Item = u64;
    type IntoIter = Tags;

    fn into_iter(self) -> Tags {
        self.tags()
    }
}

impl IntoIterator for &Present {
    type Item = u64;
    type IntoIter = Tags;

    fn into_iter(self) -> Tags {
        self.tags()
    }
}

/// The tags of the items that are there, from either end, by [`Present::tags`].
///
/// ```
/// use oysterknoll::Present;
///
/// let mut tags = Present::from_words(0b110, 0b10).tags();
/// assert_eq!(tags.next_back(), Some(65));
/// assert_eq!(tags.len(), 2);
/// assert_eq!(tags.next(), Some(1));
/// ```
#[derive(Clone, Debug)]
pub struct Tags {
    left: u128,
}

impl Tags {
    /// Hands out a tag that is left, once.
    fn hand_out(&mut self, tag: u32) -> u64 {
        self.left &= !1_u128.wrapping_shl(tag);
        u64::from(tag)
    }
}

impl Iterator for Tags {
    type Item = u64;

    fn next(&mut self) -> Option<u64> {
        let first = self.left.trailing_zeros();
        (self.left != 0).then(|| self.hand_out(first))
    }

    fn size_hint(&self) -> (usize, Option<usize>) {
        let left = self.left.count_ones() as usize;
        (left, Some(left))
    }
}

impl DoubleEndedIterator for Tags {
    fn next_back(&mut self) -> Option<u64> {
        let last = self.left.checked_ilog2()?;
        Some(self.hand_out(last))
    }
}

impl ExactSizeIterator for Tags {}

impl FusedIterator for Tags {}
