use crate::raw;
use crate::rows::WORDS_A_ROW;
use crate::{Content, Knowing, Present, Refusal, Row, LONGEST_PACKET, TABLE_WORDS};

/// Writes the `count` rows in `words` as a packet at the front of `out`, and answers its number of bytes.
///
/// Text and carried rows point into `buffer`; the place of any other row is not looked at. The order of the rows is kept, lengths take their
/// shortest form, and the checksum is worked out afresh. Bytes after the packet stay; a refusal changes nothing.
///
/// # Errors
///
/// The writer's refusals: 1, 16, 17, 3, 9, 10, 12 to 15 and 18, in this order; the place is a row number.
///
/// # Example
///
/// ```
/// use oysterknoll::{read, write, Knowing, LONGEST_PACKET, TABLE_WORDS};
///
/// let packet = include_bytes!("../../samples/relayed.klv");
/// let mut table = [0; TABLE_WORDS];
/// let rows = read(packet, Knowing::ALL, &mut table)?;
/// let mut out = [0; LONGEST_PACKET];
/// let size = write(rows.words(), rows.len(), packet, Knowing::ALL, &mut out)?;
/// assert_eq!(&out[..size], include_bytes!("../../samples/tower.klv"));
/// # Ok::<(), oysterknoll::Refusal>(())
/// ```
pub fn write(
    words: &[u64],
    count: usize,
    buffer: &[u8],
    knowing: Knowing,
    out: &mut [u8],
) -> Result<usize, Refusal> {
    let answer = raw::write(words, count, buffer, knowing, out);
    answer.refusal.or(answer.size)
}

/// Writes as [`write()`] does, handed beside the rows which items are there, and refuses what a scan of the rows would not give.
///
/// What [`Rows::present`](crate::Rows::present) gives is right for its rows as they were read. A bit too many is as wrong as one too few; of
/// a known tag that stands twice the scan sets the bit once, and a withdrawn row sets it like another.
///
/// # Errors
///
/// The writer's refusals with 22 after 17: 1, 16, 17, 22, 3, 9, 10, 12 to 15 and 18, in this order; the place is a row number, and 0 for 22.
///
/// # Example
///
/// ```
/// use oysterknoll::{read, write_with, Knowing, Present, Reason, LONGEST_PACKET, TABLE_WORDS};
///
/// let packet = include_bytes!("../../samples/relayed.klv");
/// let mut table = [0; TABLE_WORDS];
/// let rows = read(packet, Knowing::ALL, &mut table)?;
/// let mut out = [0; LONGEST_PACKET];
/// let size = write_with(rows.words(), rows.len(), packet, Knowing::ALL, rows.present(), &mut out)?;
/// assert_eq!(&out[..size], include_bytes!("../../samples/tower.klv"));
///
/// let none = Present::default();
/// let refusal = write_with(rows.words(), rows.len(), packet, Knowing::ALL, none, &mut out).unwrap_err();
/// assert_eq!(refusal.reason, Reason::WordsDisagree);
/// # Ok::<(), oysterknoll::Refusal>(())
/// ```
pub fn write_with(
    words: &[u64],
    count: usize,
    buffer: &[u8],
    knowing: Knowing,
    present: Present,
    out: &mut [u8],
) -> Result<usize, Refusal> {
    let answer = raw::write_with(words, count, buffer, knowing, present, out);
    answer.refusal.or(answer.size)
}

/// Writes these rows as a packet at the front of `out`, and answers its number of bytes: [`write()`] without words and places.
///
/// The first row is the time stamp and the last the checksum, whose code is worked out whatever the row says; the version is among
/// them. A reading has the length that its item allows. Words and values are put together on the stack, which takes 12 KB beside what the library needs.
///
/// # Errors
///
/// The writer's refusals: 1, 16, 17, 3, 9, 10, 12 to 15 and 18, in this order; the place is a row number. A value of 65,536 bytes or more
/// has no row in words and is a bad row, and so is a text without a byte: a text that no longer holds is [`Content::Withdrawn`].
///
/// # Example
///
/// ```
/// use oysterknoll::{check, to_code, write_rows, Content, Knowing, Row, LONGEST_PACKET};
///
/// let rows = [
///     Row { tag: 2, content: Content::Reading { code: 1_779_178_530_250_000, length: 8 } }, // microseconds
///     Row { tag: 65, content: Content::Reading { code: 17, length: 1 } },
///     Row { tag: 3, content: Content::Text(b"TOWER 17 NORTH") },
///     Row { tag: 13, content: Content::Reading { code: to_code(13, 4, 468_995_000)?, length: 4 } }, // 46.8995 degrees
///     Row { tag: 104, content: Content::Reading { code: to_code(104, 3, 690_065)?, length: 3 } }, // 690.065 m
///     Row { tag: 1, content: Content::Reading { code: 0, length: 2 } },
/// ];
/// let mut out = [0; LONGEST_PACKET];
/// let size = write_rows(&rows, Knowing::ALL, &mut out)?;
/// assert_eq!(check(&out[..size], Knowing::ALL)?.count, 6);
///
/// // Later the drone no longer knows where it is: the latitude is withdrawn, and its item has length 0.
/// let lost = rows.map(|row| if row.tag == 13 { Row { content: Content::Withdrawn, ..row } } else { row });
/// let shorter = write_rows(&lost, Knowing::ALL, &mut out)?;
/// assert_eq!(shorter, size - 4);
/// assert!(check(&out[..shorter], Knowing::ALL)?.withdrawn.has(13));
/// # Ok::<(), oysterknoll::Refusal>(())
/// ```
pub fn write_rows(rows: &[Row<'_>], knowing: Knowing, out: &mut [u8]) -> Result<usize, Refusal> {
    let mut room = [0; LONGEST_PACKET];
    let mut words = [[0; WORDS_A_ROW]; MOST_ROWS];
    // Values that are longer together than the longest packet fit none: what is refused is then the same wherever they stand, and each
    // is said to stand at the front of the longest value.
    let fit = copy_values(rows, &mut room).is_some();
    let buffer = if fit { &room } else { longest_value(rows) };
    let mut place = 0;
    for (image, row) in words.iter_mut().zip(rows) {
        *image = image_of(row, place);
        if fit {
            place = value_of(row).len().saturating_add(place);
        }
    }
    write(words.as_flattened(), rows.len(), buffer, knowing, out)
}

/// The rows that a table has room for. More are refused by their count, whatever they are.
const MOST_ROWS: usize = TABLE_WORDS / WORDS_A_ROW;

/// A kind that no receiver gives a tag: a row of it is bad.
const NO_KIND: u64 = 0;

/// The bytes of a text or carried value. A number has none, since its code stands in the row, and what is withdrawn has no value.
fn value_of<'a>(row: &Row<'a>) -> &'a [u8] {
    match row.content {
        Content::Text(bytes) | Content::Carried(bytes) => bytes,
        Content::Reading { .. } | Content::Mark | Content::Withdrawn => &[],
    }
}

/// Puts the values one after the other into the room, if they all fit.
fn copy_values(rows: &[Row<'_>], mut room: &mut [u8]) -> Option<()> {
    for value in rows.iter().take(MOST_ROWS).map(value_of) {
        let (part, rest) = room.split_at_mut_checked(value.len())?;
        part.copy_from_slice(value);
        room = rest;
    }
    Some(())
}

fn longest_value<'a>(rows: &[Row<'a>]) -> &'a [u8] {
    let values = rows.iter().map(value_of);
    values.max_by_key(|value| value.len()).unwrap_or_default()
}

/// The four words of a row whose text or carried value stands at the place. Any other has place 0, and a mark the catalogue's length.
fn image_of(row: &Row<'_>, place: usize) -> [u64; WORDS_A_ROW] {
    let tag = row.tag;
    let (kind, code, place, length) = match row.content {
        Content::Reading { code, length } => (raw::READING, code, 0, length),
        Content::Mark => {
            let width = raw::item(tag).width;
            (raw::MARK, mark_code(width), 0, width)
        }
        Content::Text(bytes) => (raw::TEXT, 0, place, bytes.len()),
        Content::Carried(bytes) => (raw::CARRIED, 0, place, bytes.len()),
        Content::Withdrawn => (raw::WITHDRAWN, 0, 0, 0),
    };
    match u16::try_from(length) {
        Ok(length) => [tag, kind, code, (place as u64) << 16 | u64::from(length)],
        Err(_) => [tag, NO_KIND, 0, 0],
    }
}

/// The code of so many bytes with only the top bit set; 0 where there are none.
fn mark_code(width: usize) -> u64 {
    let bits = width.saturating_mul(8) as u32;
    let top = 1 << (u64::BITS - 1);
    u64::checked_shr(top, u64::BITS.saturating_sub(bits)).unwrap_or(0)
}
