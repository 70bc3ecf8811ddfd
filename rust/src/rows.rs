use crate::raw;
use crate::{to_house, Accepted, Knowing, Present, Reason, Refusal};
use core::fmt;
use core::iter::FusedIterator;
use core::ops::Range;

/// How many words a row has in a table.
pub(crate) const WORDS_A_ROW: usize = 4;

/// One row: its tag beside one of five kinds of content.
///
/// ```
/// use oysterknoll::{items, Content, Knowing, Row};
///
/// let packet = include_bytes!("../../samples/smallest.klv");
/// let version = Row { tag: 65, content: Content::Reading { code: 17, length: 1 } };
/// assert_eq!(items(packet, Knowing::ALL)?.nth(1), Some(version));
/// # Ok::<(), oysterknoll::Refusal>(())
/// ```
#[derive(Clone, Copy, Debug, PartialEq, Eq, Hash)]
pub struct Row<'a> {
    /// The item's tag.
    pub tag: u64,
    /// What the item holds.
    pub content: Content<'a>,
}

impl<'a> Row<'a> {
    /// What a reading says, in house units; none for any other content, for an item without scale, and for a code that is no number of the
    /// item.
    ///
    /// ```
    /// use oysterknoll::{items, Knowing};
    ///
    /// let packet = include_bytes!("../../samples/tower_extended.klv");
    /// let value = |tag| items(packet, Knowing::ALL).ok()?.find(|row| row.tag == tag)?.value();
    /// // Extended heights of two, three and four bytes, in mm.
    /// assert_eq!([103, 104, 105].map(value), [Some(76_000), Some(690_063), Some(1_249_999)]);
    /// assert_eq!(value(65), None); // the version has no scale
    /// assert_eq!(value(82), None); // a mark
    /// ```
    pub fn value(&self) -> Option<i64> {
        match self.content {
            Content::Reading { code, length } => to_house(self.tag, length, code).ok(),
            Content::Mark | Content::Text(_) | Content::Carried(_) | Content::Withdrawn => None,
        }
    }

    /// The row that the library answers, its text or carried bytes as a part of the buffer. There is none for a kind that the library
    /// does not have, and none for a part outside the buffer.
    pub(crate) fn in_buffer(row: raw::Row, buffer: &'a [u8]) -> Option<Row<'a>> {
        let part = || buffer.get(row.place..)?.get(..row.length);
        let content = match row.kind {
            raw::READING => Content::Reading {
                code: row.code,
                length: row.length,
            },
            raw::MARK => Content::Mark,
            raw::TEXT => Content::Text(part()?),
            raw::CARRIED => Content::Carried(part()?),
            raw::WITHDRAWN => Content::Withdrawn,
            _ => return None,
        };
        let tag = row.tag;
        Some(Row { tag, content })
    }
}

/// What an item holds, as the receiver sees it.
///
/// ```
/// use oysterknoll::{Content, Row};
///
/// fn say(row: Row) -> String {
///     match row.content {
///         Content::Reading { code, .. } => match row.value() {
///             Some(value) => format!("item {}: {value}", row.tag),
///             None => format!("item {}: code {code}, which has no scale", row.tag),
///         },
///         Content::Mark => format!("item {}: marked", row.tag),
///         Content::Text(bytes) => format!("item {}: {}", row.tag, String::from_utf8_lossy(bytes)),
///         Content::Carried(bytes) => format!("item {}: {} bytes, not known here", row.tag, bytes.len()),
///         Content::Withdrawn => format!("item {}: the earlier value no longer holds", row.tag),
///     }
/// }
///
/// let temperature = Content::Reading { code: 0x80, length: 1 };
/// assert_eq!(say(Row { tag: 39, content: temperature }), "item 39: -128000");
/// assert_eq!(say(Row { tag: 11, content: Content::Text(b"EO") }), "item 11: EO");
/// assert_eq!(say(Row { tag: 13, content: Content::Withdrawn }), "item 13: the earlier value no longer holds");
/// ```
#[derive(Clone, Copy, Debug, PartialEq, Eq, Hash)]
pub enum Content<'a> {
    /// A number; [`Row::value`] has it in house units where the tag has a scale.
    Reading {
        /// The stored code.
        code: u64,
        /// How many bytes it has: the catalogue's width, or 2, 3 or 4 for an extended height, whose scale goes by it.
        length: usize,
    },
    /// The mark that stands in place of a number: what it means depends on the tag, as "off the Earth" does for corners.
    Mark,
    /// A text, by its bytes, which may be any.
    Text(&'a [u8]),
    /// The bytes of an item that the receiver does not know.
    Carried(&'a [u8]),
    /// Nothing: the sender gives a known item, any but 1, 2 and 65, with length 0 to say that its earlier value no longer holds. Heights and
    /// corners treat it as absent.
    Withdrawn,
}

/// The rows of a packet that was read, by [`read`], in the words of the lent table.
///
/// ```
/// use oysterknoll::{read, Content, Knowing, TABLE_WORDS};
///
/// let packet = include_bytes!("../../samples/smallest.klv");
/// let mut table = [0; TABLE_WORDS];
/// let rows = read(packet, Knowing::ALL, &mut table)?;
/// assert_eq!(rows.len(), 3);
/// assert_eq!(rows.get(1).map(|row| row.content), Some(Content::Reading { code: 17, length: 1 }));
/// let tags: Vec<u64> = rows.iter().map(|row| row.tag).collect();
/// assert_eq!(tags, [2, 65, 1]);
/// # Ok::<(), oysterknoll::Refusal>(())
/// ```
///
/// Each value is a part of the packet, not of the table, which may be used again while a value is kept:
///
/// ```
/// use oysterknoll::{read, Content, Knowing, TABLE_WORDS};
///
/// let (tower, smallest) = (include_bytes!("../../samples/tower.klv"), include_bytes!("../../samples/smallest.klv"));
/// let mut table = [0; TABLE_WORDS];
/// let mission = read(tower, Knowing::ALL, &mut table)?.into_iter().find(|row| row.tag == 3);
/// let rows = read(smallest, Knowing::ALL, &mut table)?;
/// assert_eq!(rows.len(), 3);
/// assert_eq!(mission.map(|row| row.content), Some(Content::Text(b"TOWER 17 NORTH")));
/// # Ok::<(), oysterknoll::Refusal>(())
/// ```
#[derive(Clone, Copy)]
pub struct Rows<'p, 't> {
    packet: &'p [u8],
    knowing: Knowing,
    words: &'t [u64],
    accepted: Accepted,
}

/// Reads a packet into the lent table, which has at least [`TABLE_WORDS`](crate::TABLE_WORDS) words.
///
/// An accepted packet fills the table row after row and sets the rest of the first 512 words to zero; words beyond stay. A refusal
/// changes nothing.
///
/// # Errors
///
/// The reader's refusals: those with numbers 1 to 15.
///
/// # Example
///
/// ```
/// use oysterknoll::{read, Content, Knowing, TABLE_WORDS};
///
/// let packet = include_bytes!("../../samples/tower.klv");
/// let mut table = [0; TABLE_WORDS];
/// let rows = read(packet, Knowing::ALL, &mut table)?;
/// let mission = rows.iter().find(|row| row.tag == 3).map(|row| row.content);
/// assert_eq!(mission, Some(Content::Text(b"TOWER 17 NORTH")));
/// # Ok::<(), oysterknoll::Refusal>(())
/// ```
pub fn read<'p, 't>(
    packet: &'p [u8],
    knowing: Knowing,
    table: &'t mut [u64],
) -> Result<Rows<'p, 't>, Refusal> {
    let accepted = raw::read(packet, knowing, table).accepted()?;
    // The library's rows always fit the table; if they did not, none would be handed out.
    let words = accepted
        .count
        .checked_mul(WORDS_A_ROW)
        .and_then(|end| table.get(..end))
        .unwrap_or_default();
    Ok(Rows {
        packet,
        knowing,
        words,
        accepted,
    })
}

impl<'p, 't> Rows<'p, 't> {
    /// How many rows there are.
    ///
    /// ```
    /// use oysterknoll::{read, Knowing, TABLE_WORDS};
    ///
    /// let packet = include_bytes!("../../samples/tower.klv");
    /// let mut table = [0; TABLE_WORDS];
    /// let rows = read(packet, Knowing::ALL, &mut table)?;
    /// assert_eq!(rows.len(), 52);
    /// # Ok::<(), oysterknoll::Refusal>(())
    /// ```
    pub const fn len(&self) -> usize {
        self.words.len() / WORDS_A_ROW
    }

    /// Whether there is no row. Those of a packet are never none.
    ///
    /// ```
    /// use oysterknoll::{read, Knowing, TABLE_WORDS};
    ///
    /// let packet = include_bytes!("../../samples/smallest.klv");
    /// let mut table = [0; TABLE_WORDS];
    /// let rows = read(packet, Knowing::ALL, &mut table)?;
    /// assert!(!rows.is_empty());
    /// # Ok::<(), oysterknoll::Refusal>(())
    /// ```
    pub const fn is_empty(&self) -> bool {
        self.words.is_empty()
    }

    /// Which items are there, withdrawn ones among them, without a scan of the rows.
    ///
    /// ```
    /// use oysterknoll::{read, Knowing, TABLE_WORDS};
    ///
    /// let packet = include_bytes!("../../samples/offsets.klv");
    /// let mut table = [0; TABLE_WORDS];
    /// let rows = read(packet, Knowing::ALL, &mut table)?;
    /// assert!(rows.present().has(23) && !rows.present().has(82));
    /// # Ok::<(), oysterknoll::Refusal>(())
    /// ```
    pub const fn present(&self) -> Present {
        self.accepted.present
    }

    /// Which of the items that are there are withdrawn, without a scan of the rows.
    ///
    /// ```
    /// use oysterknoll::{read, Knowing, TABLE_WORDS};
    ///
    /// let packet = include_bytes!("../../samples/fleet.klv");
    /// let mut table = [0; TABLE_WORDS];
    /// let rows = read(packet, Knowing::ALL, &mut table)?;
    /// assert!(rows.withdrawn().tags().eq([3, 21, 34, 63, 78, 82, 83, 86, 103, 104]));
    /// assert!(rows.withdrawn().tags().all(|tag| rows.present().has(tag)));
    /// # Ok::<(), oysterknoll::Refusal>(())
    /// ```
    pub const fn withdrawn(&self) -> Present {
        self.accepted.withdrawn
    }

    /// Whether an item of this tag is there with a value: it is present and not withdrawn. This is what a planner's screen asks, as
    /// [`Accepted::has_value`] has it.
    ///
    /// ```
    /// use oysterknoll::{read, Knowing, TABLE_WORDS};
    ///
    /// let packet = include_bytes!("../../samples/fleet.klv");
    /// let mut table = [0; TABLE_WORDS];
    /// let rows = read(packet, Knowing::ALL, &mut table)?;
    /// assert!(rows.has_value(23) && rows.has_value(24)); // there is a frame centre
    /// assert!(rows.present().has(82) && !rows.has_value(82)); // a corner's latitude is withdrawn
    /// assert!(!rows.has_value(38)); // no density altitude
    /// # Ok::<(), oysterknoll::Refusal>(())
    /// ```
    pub fn has_value(&self, tag: u64) -> bool {
        self.accepted.has_value(tag)
    }

    /// Row n, counted from 0.
    ///
    /// ```
    /// use oysterknoll::{read, Knowing, TABLE_WORDS};
    ///
    /// let packet = include_bytes!("../../samples/smallest.klv");
    /// let mut table = [0; TABLE_WORDS];
    /// let rows = read(packet, Knowing::ALL, &mut table)?;
    /// assert_eq!(rows.get(0).map(|row| row.tag), Some(2));
    /// assert_eq!(rows.get(3), None);
    /// # Ok::<(), oysterknoll::Refusal>(())
    /// ```
    pub fn get(&self, n: usize) -> Option<Row<'p>> {
        take_row(self.words, self.len(), n, self.packet, self.knowing).ok()
    }

    /// The rows one by one.
    ///
    /// ```
    /// use oysterknoll::{read, Knowing, TABLE_WORDS};
    ///
    /// let packet = include_bytes!("../../samples/tower.klv");
    /// let mut table = [0; TABLE_WORDS];
    /// let rows = read(packet, Knowing::ALL, &mut table)?;
    /// assert_eq!(rows.iter().filter(|row| row.tag == 100).count(), 2);
    /// # Ok::<(), oysterknoll::Refusal>(())
    /// ```
    pub fn iter(&self) -> RowsIter<'p, 't> {
        RowsIter {
            rows: *self,
            left: 0..self.len(),
        }
    }

    /// The words of the rows, four a row, as [`write()`](crate::write()) takes them.
    ///
    /// ```
    /// use oysterknoll::{read, Knowing, TABLE_WORDS};
    ///
    /// let packet = include_bytes!("../../samples/smallest.klv");
    /// let mut table = [0; TABLE_WORDS];
    /// let rows = read(packet, Knowing::ALL, &mut table)?;
    /// assert_eq!(rows.words()[..4], [2, 1, 1, 19 * 65_536 + 8]); // tag, kind, code, place and length
    /// # Ok::<(), oysterknoll::Refusal>(())
    /// ```
    pub const fn words(&self) -> &'t [u64] {
        self.words
    }
}

impl fmt::Debug for Rows<'_, '_> {
    fn fmt(&self, f: &mut fmt::Formatter<'_>) -> fmt::Result {
        f.debug_list().entries(self).finish()
    }
}

impl<'p, 't> IntoIterator for Rows<'p, 't> {
    type Item = Row<'p>;
    type IntoIter = RowsIter<'p, 't>;

    fn into_iter(self) -> RowsIter<'p, 't> {
        self.iter()
    }
}

impl<'p, 't> IntoIterator for &Rows<'p, 't> {
    type Item = Row<'p>;
    type IntoIter = RowsIter<'p, 't>;

    fn into_iter(self) -> RowsIter<'p, 't> {
        self.iter()
    }
}

/// The rows of a packet one by one, from either end, by [`Rows::iter`].
///
/// ```
/// use oysterknoll::{read, Knowing, TABLE_WORDS};
///
/// let packet = include_bytes!("../../samples/smallest.klv");
/// let mut table = [0; TABLE_WORDS];
/// let mut rows = read(packet, Knowing::ALL, &mut table)?.iter();
/// assert_eq!(rows.next_back().map(|row| row.tag), Some(1));
/// assert_eq!(rows.len(), 2);
/// # Ok::<(), oysterknoll::Refusal>(())
/// ```
#[derive(Clone, Debug)]
pub struct RowsIter<'p, 't> {
    rows: Rows<'p, 't>,
    left: Range<usize>,
}

impl<'p> Iterator for RowsIter<'p, '_> {
    type Item = Row<'p>;

    fn next(&mut self) -> Option<Row<'p>> {
        self.left.next().and_then(|n| self.rows.get(n))
    }

    fn size_hint(&self) -> (usize, Option<usize>) {
        self.left.size_hint()
    }
}

impl<'p> DoubleEndedIterator for RowsIter<'p, '_> {
    fn next_back(&mut self) -> Option<Row<'p>> {
        self.left.next_back().and_then(|n| self.rows.get(n))
    }
}

impl ExactSizeIterator for RowsIter<'_, '_> {}

impl FusedIterator for RowsIter<'_, '_> {}

/// Takes row n out of the `count` rows in `words`. Text and carried rows give their part of the buffer; of a number and of a withdrawn row the
/// place is not looked at.
///
/// # Errors
///
/// 1, 16, and 17 where that row is bad; a row number from `count` on gets 17 with tag 0.
///
/// # Example
///
/// ```
/// use oysterknoll::{take_row, Content, Knowing, Reason};
///
/// // Item 40, which no receiver knows: bytes 2 to 4 of the buffer, carried.
/// let words = [40, 4, 0, 2 * 65_536 + 3];
/// let row = take_row(&words, 1, 0, b"..abc", Knowing::ALL)?;
/// assert_eq!((row.tag, row.content), (40, Content::Carried(b"abc")));
///
/// let past = take_row(&words, 1, 1, b"..abc", Knowing::ALL).unwrap_err();
/// assert_eq!((past.reason, past.place, past.tag), (Reason::RowBad, 1, 0));
/// # Ok::<(), oysterknoll::Refusal>(())
/// ```
pub fn take_row<'b>(
    words: &[u64],
    count: usize,
    n: usize,
    buffer: &'b [u8],
    knowing: Knowing,
) -> Result<Row<'b>, Refusal> {
    let answer = raw::take_row(words, count, n, buffer, knowing);
    let row = answer.refusal.or(answer.row)?;
    // What the library answers is always a row in the buffer: any other is a bad one, and it has refused that already.
    let bad = Refusal {
        reason: Reason::RowBad,
        place: n,
        tag: row.tag,
    };
    Row::in_buffer(row, buffer).ok_or(bad)
}
