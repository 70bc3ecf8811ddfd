//! The fuzz target: one input is one question to the proved library and to the twin, whose answers must be the same.
//!
//! How an input is read is told in docs/FUZZING.md.

mod conversion;
mod edge;
mod input;
mod packet;
mod table;

#[path = "../../rust/tests/differential/catalogue.rs"]
pub mod catalogue;
#[path = "../../rust/tests/differential/compare.rs"]
pub mod compare;
#[path = "../../rust/tests/differential/lent.rs"]
pub mod lent;
#[path = "../../rust/tests/differential/same.rs"]
pub mod same;
#[path = "../../rust/tests/differential/twin.rs"]
pub mod twin;
#[path = "../../rust/tests/differential/twin_answers.rs"]
pub mod twin_answers;
#[path = "../../rust/tests/differential/twin_present.rs"]
pub mod twin_present;
#[path = "../../rust/tests/differential/twin_records.rs"]
pub mod twin_records;
#[path = "../../rust/tests/differential/twin_withdrawn.rs"]
pub mod twin_withdrawn;
#[path = "../../rust/tests/differential/twin_write.rs"]
pub mod twin_write;
#[path = "../../rust/tests/differential/wire.rs"]
pub mod wire;

use std::sync::{LazyLock, Mutex};

use catalogue::{ALL, SMALLEST};
use compare::{holds, Comparer, Verdict};
use edge::Edge;
use input::Input;
use twin::{Twin, ALTERATIONS};
use twin_write::Rows;

extern "C" {
    fn atexit(tell: extern "C" fn()) -> i32;
}

/// More would make an input slow and tell no more.
const MOST_CONVERSIONS: usize = 8;

/// The longest table that the comparison lends.
const MOST_TABLE: usize = 544;

static TARGET: LazyLock<Mutex<Target>> = LazyLock::new(|| {
    // SAFETY: the function is called once, when the run ends.
    unsafe { atexit(tell) };
    Mutex::new(Target::new(twin()))
});

/// The true twin, or the one with the rule told wrongly that `OYSTERKNOLL_ALTERED` names.
fn twin() -> Twin {
    let Ok(name) = std::env::var("OYSTERKNOLL_ALTERED") else {
        return Twin::TRUE;
    };
    let named = |altered: &&twin::Altered| format!("{altered:?}") == name;
    let altered = ALTERATIONS.iter().find(named);
    Twin::altered(*altered.expect("OYSTERKNOLL_ALTERED names no alteration"))
}

struct Target {
    comparer: Comparer,
    bytes: Edge<u8>,
    words: Edge<u64>,
}

impl Target {
    fn new(twin: Twin) -> Target {
        Target {
            comparer: Comparer::new(twin),
            bytes: Edge::new(16),
            words: Edge::new(2),
        }
    }

    fn ask(&mut self, mut input: Input) -> Verdict {
        let function = input.byte() % 10;
        if function < 2 {
            return self.ask_conversions(function == 0, input);
        }
        let set = set(&mut input);
        let room = input.byte() as i8;
        let number = input.number();
        match function {
            2 | 3 => self.ask_of_rows(function == 2, set, room, number as usize, input),
            _ => self.ask_of_packet(function, set, room, number, input),
        }
    }

    /// The rest is tags, each with a length and a word. What the catalogue has for the tag is asked first.
    fn ask_conversions(&mut self, to_house: bool, mut input: Input) -> Verdict {
        let comparer = &mut self.comparer;
        for _ in 0..MOST_CONVERSIONS {
            if input.is_empty() {
                break;
            }
            let (tag, length, word) = (input.number(), input.number(), input.word());
            comparer.item(tag)?;
            for length in conversion::lengths(length) {
                if to_house {
                    conversion::codes(tag, length, word)
                        .into_iter()
                        .try_for_each(|code| comparer.house_of(tag, length, code))
                } else {
                    conversion::values(tag, length, word)
                        .into_iter()
                        .try_for_each(|value| comparer.code_of(tag, length, value))
                }?;
            }
        }
        Ok(())
    }

    fn ask_of_packet(
        &mut self,
        function: u8,
        set: u128,
        room: i8,
        k: u64,
        input: Input,
    ) -> Verdict {
        let made = packet::packet(input);
        let packet = self.bytes.put(&made);
        let comparer = &mut self.comparer;
        let roomy = |needed| near(needed, room);
        match function {
            4 => comparer
                .check(packet, set)
                .and_then(|()| comparer.asked(packet, set, (0..=300).chain([k])))
                .and_then(|()| comparer.has(set, k)),
            5 => comparer
                .read(packet, set, roomy(512).min(MOST_TABLE))
                .and_then(|()| comparer.items(packet, set)),
            6 => comparer.forward(packet, set, roomy),
            7 => comparer.heights(packet, set),
            8 => (1..5)
                .chain([k])
                .try_for_each(|k| comparer.corner(packet, set, k)),
            _ => comparer.list(packet, roomy),
        }?;
        stays(packet == made)
    }

    /// A row taken out, or all of them written, as words, with and without saying which items are there, and as records. The count comes
    /// first: 0 for as many as there are words for, else one more than it is.
    fn ask_of_rows(
        &mut self,
        single: bool,
        set: u128,
        room: i8,
        n: usize,
        mut input: Input,
    ) -> Verdict {
        let count = input.number() as usize;
        let (words_made, buffer_made) = table::words_and_buffer(input, set);
        let (words, buffer) = (self.words.put(&words_made), self.bytes.put(&buffer_made));
        let count = count.checked_sub(1).unwrap_or(words.len() / 4);
        let lent = Rows {
            words,
            count,
            buffer,
            set,
        };
        let (comparer, roomy) = (&mut self.comparer, |needed| near(needed, room));
        if single {
            comparer.take_row(lent, n)
        } else {
            comparer
                .write(lent, roomy)
                .and_then(|()| comparer.write_with(lent, table::handed(lent, 0), roomy))
                .and_then(|()| comparer.write_with(lent, table::handed(lent, n), roomy))
                .and_then(|()| comparer.write_rows(&table::records(words, buffer), set, roomy))
        }?;
        stays(words == words_made && buffer == buffer_made)
    }
}

/// The whole catalogue, the smallest good set, any good set, or any set.
fn set(input: &mut Input) -> u128 {
    match input.byte() % 4 {
        0 => ALL,
        1 => SMALLEST,
        2 => input.set() & ALL | SMALLEST,
        _ => input.set(),
    }
}

/// A length a little above or below the one needed.
fn near(needed: usize, by: i8) -> usize {
    needed.saturating_add_signed(isize::from(by))
}

fn stays(stays: bool) -> Verdict {
    holds(stays, || {
        String::from("what was lent to be read has changed")
    })
}

/// Prints what was compared, when the run ends.
extern "C" fn tell() {
    let tally = TARGET.lock().unwrap().comparer.tally;
    println!("{} comparisons, {} accepted", tally.cases, tally.accepted);
    for (number, times) in tally.refusals.iter().enumerate().skip(1) {
        println!("refusal {number}: {times}");
    }
}

/// # Safety
///
/// `bytes` is good for `size` bytes, as libFuzzer sees to.
#[no_mangle]
pub unsafe extern "C" fn LLVMFuzzerTestOneInput(bytes: *const u8, size: usize) -> i32 {
    // SAFETY: as above; libFuzzer hands over a pointer also where the size is 0.
    let input = unsafe { std::slice::from_raw_parts(bytes, size) };
    let verdict = TARGET.lock().unwrap().ask(Input::new(input));
    if let Err(difference) = verdict {
        eprintln!("product and twin differ\ninput {input:02X?}\n{difference}");
        // libFuzzer takes the end of the program for a crash, and needs no signal to keep the input.
        std::process::exit(1);
    }
    0
}
