//! Which items are there, and which of them are withdrawn: the words that a writer is handed, and the laws of W-201 and W-204 on the two
//! pairs of words, stated on the product's own answers.

use oysterknoll::{Content, Present, Refusal, LONGEST_PACKET, TABLE_WORDS};

use crate::bench::Bench;
use crate::compare::{holds, knowing, present, words, Tally, Verdict};
use crate::make::Maker;
use crate::twin::{Row, Twin, CARRIED};
use crate::twin_write::Rows;

impl Maker {
    /// Words for the writer of these rows: mostly right, else none, any, another receiver's, or wrong in one bit.
    pub fn handed(&mut self, lent: Rows) -> u128 {
        let rows = lent.rows();
        let right = Twin::TRUE.words_of(&rows);
        match self.random.below(12) {
            0 => 0,
            1 => self.random.pair(),
            2 => tags_of(&rows) & self.good_set(),
            3 => right ^ 1 << self.random.below(128),
            4 | 5 => right ^ self.bit_of_a_row(&rows),
            _ => right,
        }
    }

    /// The bit of one of the rows' tags: one too many if the row is carried, else one that has to be there.
    fn bit_of_a_row(&mut self, rows: &[Row]) -> u128 {
        let n = self.random.below(rows.len());
        rows.get(n).map_or(1, |row| tags_of(&[*row]))
    }
}

/// The bits of all tags below 128, those of carried rows too.
fn tags_of(rows: &[Row]) -> u128 {
    let tags = rows.iter().filter(|row| row.tag < 128);
    tags.fold(0, |bits, row| bits | 1 << row.tag)
}

/// The words that the product answers of a packet, for what is there and for what is withdrawn.
pub fn words_of(packet: &[u8], set: u128) -> Result<[u128; 2], Refusal> {
    let checked = oysterknoll::check(packet, knowing(set));
    checked.map(|accepted| [accepted.present, accepted.withdrawn].map(words))
}

/// Whether check and read answer the same words: with a bit for each row that is not carried and for no other, and with one for each row
/// that is withdrawn and for no other.
fn words_are_the_rows(packet: &[u8], set: u128) -> bool {
    let mut table = vec![0; TABLE_WORDS];
    let read = oysterknoll::read(packet, knowing(set), &mut table);
    let (rows, checked) = match (read, words_of(packet, set)) {
        (Ok(rows), Ok(checked)) => (rows, checked),
        (Err(read), Err(checked)) => return read == checked,
        _ => return false,
    };
    let known = |row: &oysterknoll::Row| !matches!(row.content, Content::Carried(_));
    let withdrawn = |row: &oysterknoll::Row| row.content == Content::Withdrawn;
    checked == [rows.present(), rows.withdrawn()].map(words)
        && are_the_tags_of(rows.present(), rows.iter().filter(known))
        && are_the_tags_of(rows.withdrawn(), rows.iter().filter(withdrawn))
        && rows.iter().all(|row| {
            let has_value = known(&row) && !withdrawn(&row);
            rows.has_value(row.tag) == has_value
        })
}

/// Whether the words have a bit for each of these rows and for no other.
fn are_the_tags_of<'a>(words: Present, rows: impl Iterator<Item = oysterknoll::Row<'a>>) -> bool {
    let mut tags: Vec<u64> = rows.map(|row| row.tag).collect();
    tags.sort_unstable();
    words.count() == tags.len()
        && words.tags().eq(tags.iter().copied())
        && words.tags().rev().eq(tags.into_iter().rev())
}

/// Counts what came of a case.
pub fn count<T>(tally: &mut Tally, answer: &Result<T, Refusal>) {
    tally.cases += 1;
    match answer {
        Ok(_) => tally.accepted += 1,
        Err(refusal) => tally.refusals[refusal.number() as usize] += 1,
    }
}

/// A poorer receiver's words are the fuller's within its knowing set; each has the words of its rows.
pub fn words_of_two_receivers(bench: &mut Bench) -> Verdict {
    bench.make_packet();
    let fuller = bench.maker.good_set();
    let poorer = fuller & bench.maker.good_set();
    let packet = &bench.packet;
    let told = |law| format!("{law}: packet {packet:02X?}, sets {fuller:X} and {poorer:X}");
    let are_right = [fuller, poorer].map(|set| words_are_the_rows(packet, set));
    holds(are_right == [true; 2], || {
        told("the words are not those of the rows")
    })?;
    let by_fuller = words_of(packet, fuller);
    count(&mut bench.comparer.tally, &by_fuller);
    let Ok(full) = by_fuller else {
        return Ok(());
    };
    let within = full.map(|words| words & poorer);
    let same = words_of(packet, poorer) == Ok(within);
    holds(same, || told("the poorer's words are others"))
}

/// What was sent on by any receiver has the original's words for every receiver.
pub fn words_of_what_is_sent_on(bench: &mut Bench) -> Verdict {
    bench.make_packet();
    let (sender, receiver) = (bench.maker.good_set(), bench.maker.good_set());
    let packet = &bench.packet;
    let mut out = vec![0; packet.len()];
    let sent = oysterknoll::forward(packet, knowing(sender), &mut out);
    count(&mut bench.comparer.tally, &sent);
    let Ok(length) = sent else {
        return Ok(());
    };
    let original = words_of(packet, receiver).map_err(|refusal| refusal.number());
    let sent_on = words_of(&out[..length], receiver).map_err(|refusal| refusal.number());
    holds(original == sent_on, || {
        format!(
            "sent on its words are others: packet {packet:02X?}, sets {sender:X} and {receiver:X}"
        )
    })
}

/// Handed the words of a scan the writer answers as if it were handed none; what it wrote reads back with them, and has so many items
/// that are not carried.
pub fn words_of_what_is_written(bench: &mut Bench) -> Verdict {
    bench.make_table();
    let lent = bench.table.lent();
    let Rows {
        words,
        count: rows,
        buffer,
        set,
    } = lent;
    let right = Twin::TRUE.words_of(&lent.rows());
    let [mut out, mut plain] = [(); 2].map(|()| vec![0xEE; LONGEST_PACKET]);
    let knowing = knowing(set);
    let written = oysterknoll::write_with(words, rows, buffer, knowing, present(right), &mut out);
    let unhanded = oysterknoll::write(words, rows, buffer, knowing, &mut plain);
    count(&mut bench.comparer.tally, &written);
    let told = |law| format!("{law}: {words:X?}, count {rows}, set {set:X}, words {right:X}");
    holds(written == unhanded && out == plain, || {
        told("with its words it is written otherwise")
    })?;
    let Ok(length) = written else {
        return Ok(());
    };
    let known = lent.rows().iter().filter(|row| row.kind != CARRIED).count();
    let withdrawn = Twin::TRUE.withdrawn_of(&lent.rows());
    let read_back = words_of(&out[..length], set) == Ok([right, withdrawn]);
    holds(read_back && right.count_ones() as usize == known, || {
        told("it does not read back with its words")
    })
}
