//! Demands 2 and 3, and that walker and records are thin covers, stated on the product's own answers.

use oysterknoll::{Refusal, LONGEST_PACKET, TABLE_WORDS};

use crate::bench::Bench;
use crate::catalogue::knows;
use crate::compare::{holds, knowing, Verdict};
use crate::twin::{Row, CARRIED, TEXT};

/// What the product read: the rows' words beside the packet they point into.
struct Read<'a> {
    words: Vec<u64>,
    buffer: &'a [u8],
}

fn read(packet: &[u8], set: u128) -> Result<Read<'_>, Refusal> {
    let mut table = vec![0; TABLE_WORDS];
    let rows = oysterknoll::read(packet, knowing(set), &mut table)?;
    let words = rows.words().to_vec();
    Ok(Read {
        words,
        buffer: packet,
    })
}

impl Read<'_> {
    fn rows(&self) -> impl Iterator<Item = Row> + '_ {
        self.words.chunks_exact(4).map(Row::from_words)
    }

    /// The same count, tags, kinds, codes, lengths and value bytes; places and the checksum's code aside.
    fn is_same_table(&self, other: &Read) -> bool {
        self.words.len() == other.words.len()
            && self
                .rows()
                .zip(other.rows())
                .all(|(one, two)| self.is_same_row(&one, other, &two))
    }

    fn is_same_row(&self, one: &Row, other: &Read, two: &Row) -> bool {
        let same_code = one.code == two.code || one.tag == 1;
        (one.tag, one.kind, one.length) == (two.tag, two.kind, two.length)
            && same_code
            && self.value(one) == other.value(two)
    }

    /// A text or carried row's bytes; the place of a number or of what is withdrawn is nobody's business.
    fn value(&self, row: &Row) -> &[u8] {
        match row.kind {
            TEXT | CARRIED => &self.buffer[row.place..row.place + row.length],
            _ => &[],
        }
    }
}

/// Demand 2: the packet written from a table reads back as that table, with the same knowing set.
pub fn written_reads_back(bench: &mut Bench) -> Verdict {
    bench.make_table();
    let lent = bench.table.lent();
    let mut out = vec![0; LONGEST_PACKET];
    let set = knowing(lent.set);
    let written = oysterknoll::write(lent.words, lent.count, lent.buffer, set, &mut out);
    bench.comparer.tally.cases += 1;
    let Ok(length) = written else {
        return Ok(());
    };
    bench.comparer.tally.accepted += 1;
    let table = Read {
        words: lent.words[..4 * lent.count].to_vec(),
        buffer: lent.buffer,
    };
    let back = read(&out[..length], lent.set);
    let same = back.is_ok_and(|back| back.is_same_table(&table));
    holds(same, || {
        let (words, set) = (&table.words, lent.set);
        format!("not read back as written: {words:X?}, set {set:X}")
    })
}

/// Demand 3 of a fuller receiver and a poorer one.
pub fn fuller_and_poorer(bench: &mut Bench) -> Verdict {
    bench.make_packet();
    let fuller = bench.maker.good_set();
    let poorer = fuller & bench.maker.good_set();
    let packet = &bench.packet;
    let by_fuller = read(packet, fuller);
    let by_poorer = read(packet, poorer);
    let tally = &mut bench.comparer.tally;
    tally.cases += 1;
    let (same, law) = match (&by_fuller, &by_poorer) {
        (Err(_), Err(_)) => return Ok(()),
        (Ok(_), Err(_)) => (false, "only the poorer refuses"),
        (Ok(full), Ok(poor)) => (poorer_rows(full, poor, poorer), "its rows are others"),
        (Err(refusal), Ok(_)) => {
            tally.refusals[refusal.number() as usize] += 1;
            let unknown = refusal.tag != 0 && !knows(poorer, refusal.tag);
            (unknown, "the fuller refuses a tag known to both")
        }
    };
    tally.accepted += 1;
    let told = |law| format!("{law}: packet {packet:02X?}, sets {fuller:X} and {poorer:X}");
    holds(same, || told(law))?;
    let same = forwarded_is_same(packet, by_fuller, fuller, poorer);
    holds(same, || told("forwarded by the poorer it is another"))
}

/// The fuller receiver's rows where the poorer one knows the tag, else carried in the same place.
fn poorer_rows(full: &Read, poor: &Read, poorer: u128) -> bool {
    let expected = full.rows().map(|row| {
        if knows(poorer, row.tag) {
            row
        } else {
            Row {
                kind: CARRIED,
                code: 0,
                ..row
            }
        }
    });
    poor.rows().eq(expected)
}

/// The packet sent on by the poorer receiver is to the fuller one what the original is.
fn forwarded_is_same(
    packet: &[u8],
    original: Result<Read, Refusal>,
    fuller: u128,
    poorer: u128,
) -> bool {
    let mut out = vec![0; packet.len()];
    let Ok(length) = oysterknoll::forward(packet, knowing(poorer), &mut out) else {
        return false;
    };
    match (original, read(&out[..length], fuller)) {
        (Ok(original), Ok(forwarded)) => forwarded.is_same_table(&original),
        (Err(original), Err(forwarded)) => {
            (original.number(), original.tag) == (forwarded.number(), forwarded.tag)
        }
        _ => false,
    }
}

/// A walk hands out the reader's rows; written as records they are what is sent on.
pub fn walked_and_written(bench: &mut Bench) -> Verdict {
    bench.make_packet();
    let set = bench.maker.set();
    let packet = &bench.packet;
    let mut table = vec![0; TABLE_WORDS];
    let read = oysterknoll::read(packet, knowing(set), &mut table);
    let read = read.map(|rows| rows.iter().collect());
    let walked = oysterknoll::items(packet, knowing(set));
    let walked: Result<Vec<_>, _> = walked.map(|items| items.collect());
    let tally = &mut bench.comparer.tally;
    tally.cases += 1;
    let told = |law| format!("{law}: packet {packet:02X?}, set {set:X}");
    holds(walked == read, || told("walked it is not what is read"))?;
    match walked {
        Ok(rows) => {
            tally.accepted += 1;
            let same = written_is_forwarded(packet, &rows, set);
            holds(same, || {
                told("its records are not written as it is sent on")
            })
        }
        Err(refusal) => {
            tally.refusals[refusal.number() as usize] += 1;
            Ok(())
        }
    }
}

/// Outputs of enough bytes, of one fewer than the packet has, and of none.
fn written_is_forwarded(packet: &[u8], rows: &[oysterknoll::Row], set: u128) -> bool {
    [packet.len(), packet.len() - 1, 0].into_iter().all(|room| {
        let mut sent = vec![0xEE; room];
        let mut written = sent.clone();
        let forwarded = oysterknoll::forward(packet, knowing(set), &mut sent);
        let packed = oysterknoll::write_rows(rows, knowing(set), &mut written);
        forwarded == packed && sent == written
    })
}
