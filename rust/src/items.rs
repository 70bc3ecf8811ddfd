use crate::raw;
use crate::{Knowing, Refusal, Row};
use core::fmt;
use core::iter::FusedIterator;

/// The items of a packet one by one, by [`items`]: no table is needed, and each value is a part of the packet.
///
/// ```
/// use oysterknoll::{items, Content, Knowing};
///
/// let packet = include_bytes!("../../samples/tower.klv");
/// let mut left = items(packet, Knowing::ALL)?;
/// assert_eq!(left.next().map(|row| row.tag), Some(2));
/// assert_eq!(left.clone().count(), 51);
/// let call_sign = left.find(|row| row.tag == 59);
/// assert_eq!(call_sign.map(|row| row.content), Some(Content::Text(b"OYSTER 1")));
/// # Ok::<(), oysterknoll::Refusal>(())
/// ```
#[derive(Clone)]
pub struct Items<'p> {
    packet: &'p [u8],
    knowing: Knowing,
    place: usize,
}

/// Judges a packet, and starts a walk over its items: the rows that [`read`](crate::read) has, in their order.
///
/// # Errors
///
/// The reader's refusals, but for 2: those with numbers 1 and 3 to 15.
///
/// # Example
///
/// ```
/// use oysterknoll::{items, Content, Knowing, Row};
///
/// let packet = include_bytes!("../../samples/smallest.klv");
/// let tags: Vec<u64> = items(packet, Knowing::ALL)?.map(|row| row.tag).collect();
/// assert_eq!(tags, [2, 65, 1]);
///
/// // A packet that withdraws the temperature (39): its item has length 0.
/// let packet = [
///     0x06, 0x0e, 0x2b, 0x34, 0x02, 0x0b, 0x01, 0x01, 0x0e, 0x01, 0x03, 0x01, 0x01, 0x00, 0x00, 0x00, // key
///     19, // bytes to come
///     2, 8, 0, 0, 0, 0, 0, 0, 0, 1, // time stamp
///     65, 1, 17, // version
///     39, 0, // temperature
///     1, 2, 0x8b, 0xa6, // checksum
/// ];
/// assert_eq!(items(&packet, Knowing::ALL)?.nth(2), Some(Row { tag: 39, content: Content::Withdrawn }));
/// # Ok::<(), oysterknoll::Refusal>(())
/// ```
pub fn items(packet: &[u8], knowing: Knowing) -> Result<Items<'_>, Refusal> {
    let answer = raw::start(packet, knowing);
    let place = answer.refusal.or(answer.place)?;
    Ok(Items {
        packet,
        knowing,
        place,
    })
}

impl<'p> Iterator for Items<'p> {
    type Item = Row<'p>;

    // Where there is no item the place stays, so that there is none at the next call either.
    fn next(&mut self) -> Option<Row<'p>> {
        let answer = raw::next(self.packet, self.knowing, self.place);
        let row = Row::in_buffer(answer.row, self.packet)?;
        self.place = answer.next;
        Some(row)
    }
}

impl FusedIterator for Items<'_> {}

/// The rows that are left.
impl fmt::Debug for Items<'_> {
    fn fmt(&self, f: &mut fmt::Formatter<'_>) -> fmt::Result {
        f.debug_list().entries(self.clone()).finish()
    }
}
