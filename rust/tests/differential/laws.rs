//! What a case of each law is.

use oysterknoll::LONGEST_LISTING;

use crate::bench::Bench;
use crate::compare::{Verdict, MOST_OUT};
use crate::random::Random;
use crate::wire::LAST_TAG;

/// The lengths a lent table may have, most often a sufficient one.
const TABLE_WORDS: [usize; 12] = [0, 1, 511, 512, 512, 512, 512, 513, 513, 520, 520, 544];

/// Tags far beyond the catalogue, among them some that a shift or a cut takes for 23, 65 or 2.
const FAR_TAGS: [u64; 12] = [
    16_384 + 23,
    LAST_TAG,
    1 << 32 | 23,
    1 << 32 | 65,
    1 << 38 | 23,
    1 << 39 | 1,
    1 << 63,
    1 << 63 | 2,
    1 << 63 | 65,
    u64::MAX - 127 + 65,
    u64::MAX - 63 + 23,
    u64::MAX,
];

pub fn reader(bench: &mut Bench) -> Verdict {
    bench.make_packet();
    for _ in 0..2 {
        let set = bench.maker.set();
        let table_words = bench.maker.random.pick(&TABLE_WORDS);
        bench.comparer.check(&bench.packet, set)?;
        bench.comparer.read(&bench.packet, set, table_words)?;
    }
    Ok(())
}

/// The words of a packet asked for many tags, and any words for any tag.
pub fn asked(bench: &mut Bench) -> Verdict {
    bench.make_packet();
    let set = bench.maker.set();
    let tags = (0..=300).chain(FAR_TAGS);
    bench.comparer.asked(&bench.packet, set, tags)?;
    let random = &mut bench.maker.random;
    let (words, near, far) = (random.pair(), random.below(300), random.next());
    let tag = random.pick(&[near as u64, near as u64, far]);
    bench.comparer.has(words, tag)
}

pub fn walker(bench: &mut Bench) -> Verdict {
    bench.make_packet();
    for _ in 0..2 {
        let set = bench.maker.set();
        bench.comparer.items(&bench.packet, set)?;
    }
    Ok(())
}

pub fn forwarder(bench: &mut Bench) -> Verdict {
    bench.make_packet();
    let set = bench.maker.set();
    for _ in 0..2 {
        let room = room(&mut bench.maker.random);
        bench.comparer.forward(&bench.packet, set, room)?;
    }
    Ok(())
}

pub fn writer(bench: &mut Bench) -> Verdict {
    bench.make_table();
    for _ in 0..2 {
        let room = room(&mut bench.maker.random);
        bench.comparer.write(bench.table.lent(), room)?;
    }
    Ok(())
}

pub fn writer_with_words(bench: &mut Bench) -> Verdict {
    bench.make_table();
    let lent = bench.table.lent();
    for _ in 0..2 {
        let handed = bench.maker.handed(lent);
        let room = room(&mut bench.maker.random);
        bench.comparer.write_with(lent, handed, room)?;
    }
    Ok(())
}

pub fn writer_of_records(bench: &mut Bench) -> Verdict {
    bench.make_list();
    let records = bench.list.lent();
    for _ in 0..2 {
        let room = room(&mut bench.maker.random);
        bench.comparer.write_rows(&records, bench.list.set, room)?;
    }
    Ok(())
}

pub fn rows_taken_out(bench: &mut Bench) -> Verdict {
    bench.make_table();
    let lent = bench.table.lent();
    let random = &mut bench.maker.random;
    // Every row of a short table, and some of a long one.
    for n in 0..lent.count.min(8) {
        bench.comparer.take_row(lent, n)?;
    }
    let within = random.below(lent.count.min(140) + 1);
    for n in [within, lent.count, usize::MAX] {
        bench.comparer.take_row(lent, n)?;
    }
    Ok(())
}

pub fn heights_and_corners(bench: &mut Bench) -> Verdict {
    bench.make_packet();
    let set = bench.maker.set();
    bench.comparer.heights(&bench.packet, set)?;
    let far = [0, 5, 1 << 62, 1 << 63, u64::MAX];
    let k = bench.maker.random.pick(&far);
    for k in [1, 2, 3, 4, k] {
        bench.comparer.corner(&bench.packet, set, k)?;
    }
    Ok(())
}

pub fn listing(bench: &mut Bench) -> Verdict {
    bench.make_packet();
    let room = room(&mut bench.maker.random);
    bench.comparer.list(&bench.packet, room)?;
    bench.comparer.list(&bench.packet, longest)
}

/// The room that no listing needs more than, with which 18 would be told.
fn longest(needed: usize) -> usize {
    assert!(needed <= LONGEST_LISTING);
    LONGEST_LISTING
}

/// The length of an output for the length needed: exactly that, one less, one more, others.
fn room(random: &mut Random) -> impl FnOnce(usize) -> usize {
    let choice = random.below(12);
    let part = random.next();
    move |needed| {
        let length = match choice {
            0 => 0,
            1 => 1,
            2 | 3 => needed - 1,
            4 => (part % needed as u64) as usize,
            5..=7 => needed,
            8 => needed + 1,
            _ => needed + 40,
        };
        length.min(MOST_OUT)
    }
}
