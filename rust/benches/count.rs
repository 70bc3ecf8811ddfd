//! Runs one operation on one packet a given number of times, for a tool that counts instructions: `scripts/count`.
//!
//! Arguments: library or rival, the operation, the packet's name, how many times.

mod packets;
mod rival;

use oysterknoll::{catalogue, Knowing, Present, LONGEST_LISTING, LONGEST_PACKET, TABLE_WORDS};
use std::hint::black_box;
use std::process::ExitCode;

fn main() -> ExitCode {
    let arguments: Vec<String> = std::env::args()
        .skip(1)
        .filter(|word| word != "--bench")
        .collect();
    let words: Vec<&str> = arguments.iter().map(String::as_str).collect();
    match run(&words) {
        Some(()) => ExitCode::SUCCESS,
        None => {
            eprintln!(
                "count: not library or rival, an operation, a packet and a number: {words:?}"
            );
            ExitCode::FAILURE
        }
    }
}

fn run(words: &[&str]) -> Option<()> {
    let &[side, operation, name, times] = words else {
        return None;
    };
    let (packet, times) = (packets::named(name)?, times.parse().ok()?);
    let is_run = match side {
        "library" => library(operation, &packet, times),
        "rival" => rival(operation, &packet, times),
        _ => false,
    };
    is_run.then_some(())
}

fn repeat<T>(times: usize, mut call: impl FnMut() -> T) -> bool {
    for _ in 0..times {
        black_box(call());
    }
    true
}

fn library(operation: &str, packet: &[u8], times: usize) -> bool {
    let all = Knowing::ALL;
    let (mut table, mut out) = ([0; TABLE_WORDS], [0; LONGEST_PACKET]);
    let packet = || black_box(packet);
    match operation {
        "check" => repeat(times, || oysterknoll::check(packet(), all)),
        "read" => repeat(times, || {
            oysterknoll::read(packet(), all, &mut table).is_ok()
        }),
        "forward" => repeat(times, || oysterknoll::forward(packet(), all, &mut out)),
        "write" => {
            let count = oysterknoll::read(packet(), all, &mut table).map_or(0, |rows| rows.len());
            repeat(times, || {
                oysterknoll::write(black_box(&table), count, packet(), all, &mut out)
            })
        }
        "write_with" => {
            let rows = oysterknoll::read(packet(), all, &mut table);
            let none = (0, Present::default());
            let (count, present) = rows.map_or(none, |rows| (rows.len(), rows.present()));
            repeat(times, || {
                let present = black_box(present);
                oysterknoll::write_with(black_box(&table), count, packet(), all, present, &mut out)
            })
        }
        "ask" => {
            let checked = oysterknoll::check(packet(), all);
            let present = checked.map_or(Present::default(), |accepted| accepted.present);
            repeat(times, || black_box(present).has(black_box(23)))
        }
        "corner" => repeat(times, || oysterknoll::corner(packet(), all, black_box(1))),
        "walk" | "list" => library_alone(operation, packet(), times),
        _ => match operation.strip_prefix("item_") {
            Some(tag) => look_up(tag, times),
            None => library_conversion(operation, times),
        },
    }
}

/// The operations that have no rival.
fn library_alone(operation: &str, packet: &[u8], times: usize) -> bool {
    let mut listing = [0; LONGEST_LISTING];
    let packet = || black_box(packet);
    match operation {
        "walk" => repeat(times, || {
            oysterknoll::items(packet(), Knowing::ALL).map_or(0, Iterator::count)
        }),
        _ => repeat(times, || oysterknoll::list(packet(), &mut listing)),
    }
}

/// What the catalogue has for a tag.
fn look_up(tag: &str, times: usize) -> bool {
    let item = |tag| repeat(times, || catalogue::item(black_box(tag)));
    tag.parse().is_ok_and(item)
}

/// A conversion of a latitude, or of an extended height of three bytes.
fn library_conversion(operation: &str, times: usize) -> bool {
    let to_house = |tag, length, code| {
        repeat(times, || {
            oysterknoll::to_house(black_box(tag), black_box(length), black_box(code))
        })
    };
    let to_code = |tag, length, value| {
        repeat(times, || {
            oysterknoll::to_code(black_box(tag), black_box(length), black_box(value))
        })
    };
    match operation {
        "to_house" => to_house(13, 4, 0x42B3_963B),
        "to_code" => to_code(13, 4, 468_995_000),
        "to_house_104" => to_house(104, 3, 0x2F_921E),
        "to_code_104" => to_code(104, 3, 23_456_240),
        _ => false,
    }
}

fn rival(operation: &str, packet: &[u8], times: usize) -> bool {
    let (low, high) = Knowing::ALL.words();
    let (mut table, mut out) = ([0; TABLE_WORDS], [0; LONGEST_PACKET]);
    let packet = || black_box(packet);
    match operation {
        "check" => repeat(times, || rival::check(packet(), low, high)),
        "read" => repeat(times, || rival::read(packet(), low, high, &mut table)),
        "forward" => repeat(times, || rival::forward(packet(), low, high, &mut out)),
        "write" => {
            let count = rival::read(packet(), low, high, &mut table).map_or(0, |read| read.count);
            repeat(times, || {
                rival::write(black_box(&table), count, packet(), low, high, &mut out)
            })
        }
        "write_with" => {
            let read = rival::read(packet(), low, high, &mut table);
            let (count, present) = read.map_or((0, [0; 2]), |read| (read.count, read.present));
            repeat(times, || {
                let (table, present) = (black_box(&table), black_box(present));
                rival::write_with(table, count, packet(), low, high, present, &mut out)
            })
        }
        "ask" => {
            let checked = rival::check(packet(), low, high);
            let present = checked.map_or([0; 2], |accepted| accepted.present);
            repeat(times, || rival::has(black_box(present), black_box(23)))
        }
        "corner" => repeat(times, || rival::corner(packet(), low, high, black_box(1))),
        _ => rival_conversion(operation, times),
    }
}

/// The same of the rival.
fn rival_conversion(operation: &str, times: usize) -> bool {
    let to_house = |tag, length, code| {
        repeat(times, || {
            rival::to_house(black_box(tag), black_box(length), black_box(code))
        })
    };
    let to_code = |tag, length, value| {
        repeat(times, || {
            rival::to_code(black_box(tag), black_box(length), black_box(value))
        })
    };
    match operation {
        "to_house" => to_house(13, 4, 0x42B3_963B),
        "to_code" => to_code(13, 4, 468_995_000),
        "to_house_104" => to_house(104, 3, 0x2F_921E),
        "to_code_104" => to_code(104, 3, 23_456_240),
        _ => false,
    }
}
