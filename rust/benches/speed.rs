//! How long the library's operations take, beside a rival in plain safe Rust; `cargo bench --bench speed -- 51` runs 51 rounds.

mod agreement;
mod packets;
mod rival;

use oysterknoll::{Knowing, LONGEST_LISTING, LONGEST_PACKET, TABLE_WORDS};
use std::hint::black_box;
use std::time::{Duration, Instant};

const DAMAGED: usize = 5000;
const CODES: usize = 500;
const ROUNDS: usize = 301;
const BATCH: Duration = Duration::from_micros(100);

const KINDS: [&str; 5] = ["small", "typical", "full", "refused", "roomy"];
const SIZES: [&str; 4] = ["1KB", "2KB", "4KB", "8KB"];

fn main() {
    let argument = std::env::args().find_map(|word| word.parse().ok());
    let rounds = argument.map_or(ROUNDS, |rounds: usize| rounds.max(1));
    let (kinds, sizes) = (with_names(&KINDS), with_names(&SIZES));
    let whole: Vec<_> = kinds.iter().chain(&sizes).map(|kind| &kind.1).collect();
    if let Err(difference) = compare(&whole) {
        eprintln!("speed: {difference}");
        std::process::exit(1);
    }
    print_operations(&kinds, rounds);
    print_sizes(&sizes, rounds);
}

fn with_names(names: &[&'static str]) -> Vec<(&'static str, Vec<u8>)> {
    let packet = |name: &&'static str| Some((*name, packets::named(name)?));
    names.iter().filter_map(packet).collect()
}

fn compare(whole: &[&Vec<u8>]) -> Result<(), String> {
    let packets = agreement::compare_all(whole.iter().copied(), DAMAGED)?;
    print_agreement("packets", "accepted", &packets);
    let tables = agreement::compare_writers(whole.iter().copied(), DAMAGED)?;
    print_agreement("tables", "written", &tables);
    let conversions = agreement::compare_conversions(CODES)?;
    println!("They agree on {conversions} conversions.\n");
    Ok(())
}

fn print_agreement(what: &str, good: &str, met: &[usize]) {
    let times = met.iter().enumerate().skip(1).filter(|met| *met.1 > 0);
    let refusals: Vec<_> = times
        .map(|(number, times)| format!("{number} ({times})"))
        .collect();
    println!(
        "The library and the rival agree on {} {what}: {} {good}; by refusal: {}.",
        met.iter().sum::<usize>(),
        met[0],
        refusals.join(", ")
    );
}

/// Nanoseconds of a call of each of the two, the median of many batches, which alternate so that both meet the same disturbances.
fn race<A, B>(
    rounds: usize,
    mut first: impl FnMut() -> A,
    mut second: impl FnMut() -> B,
) -> (f64, f64) {
    let (first_calls, second_calls) = (calls_in_a_batch(&mut first), calls_in_a_batch(&mut second));
    let times = (0..rounds).map(|_| {
        (
            batch(first_calls, &mut first),
            batch(second_calls, &mut second),
        )
    });
    let (firsts, seconds) = times.unzip();
    (median(firsts), median(seconds))
}

/// Nanoseconds of a call that has no rival.
fn alone<T>(rounds: usize, mut call: impl FnMut() -> T) -> f64 {
    let calls = calls_in_a_batch(&mut call);
    median((0..rounds).map(|_| batch(calls, &mut call)).collect())
}

fn batch<T>(calls: u32, call: &mut impl FnMut() -> T) -> f64 {
    let start = Instant::now();
    for _ in 0..calls {
        black_box(call());
    }
    start.elapsed().as_nanos() as f64 / f64::from(calls)
}

fn calls_in_a_batch<T>(call: &mut impl FnMut() -> T) -> u32 {
    let mut calls = 1;
    while batch(calls, call) * f64::from(calls) < BATCH.as_nanos() as f64 {
        calls *= 2;
    }
    calls
}

fn median(mut times: Vec<f64>) -> f64 {
    times.sort_by(f64::total_cmp);
    times[times.len() / 2]
}

/// An operation, and the times of the library and of the rival.
type Times = (&'static str, (f64, f64));

/// The times of check, read and forward.
fn contest(packet: &[u8], rounds: usize) -> [Times; 3] {
    let all = Knowing::ALL;
    let (low, high) = all.words();
    let (mut table, mut rival_table) = ([0; TABLE_WORDS], [0; TABLE_WORDS]);
    let (mut out, mut rival_out) = ([0; LONGEST_PACKET], [0; LONGEST_PACKET]);
    let packet = || black_box(packet);
    let check = race(
        rounds,
        || oysterknoll::check(packet(), all),
        || rival::check(packet(), low, high),
    );
    let read = race(
        rounds,
        || oysterknoll::read(packet(), all, &mut table).is_ok(),
        || rival::read(packet(), low, high, &mut rival_table).is_ok(),
    );
    let forward = race(
        rounds,
        || oysterknoll::forward(packet(), all, &mut out),
        || rival::forward(packet(), low, high, &mut rival_out),
    );
    [("check", check), ("read", read), ("forward", forward)]
}

/// The times of corner and write; a packet that is refused has no rows to write.
fn further_contest(packet: &[u8], rounds: usize) -> Vec<Times> {
    let all = Knowing::ALL;
    let (low, high) = all.words();
    let mut table = [0; TABLE_WORDS];
    let (mut out, mut rival_out) = ([0; LONGEST_PACKET], [0; LONGEST_PACKET]);
    let rows = oysterknoll::read(packet, all, &mut table).map(|rows| rows.len());
    let packet = || black_box(packet);
    let corner = race(
        rounds,
        || oysterknoll::corner(packet(), all, black_box(1)),
        || rival::corner(packet(), low, high, black_box(1)),
    );
    let write = rows.map(|rows| {
        race(
            rounds,
            || oysterknoll::write(black_box(&table), rows, packet(), all, &mut out),
            || rival::write(black_box(&table), rows, packet(), low, high, &mut rival_out),
        )
    });
    let mut times = vec![("corner", corner)];
    times.extend(write.ok().map(|write| ("write", write)));
    times
}

/// The times of the conversions.
fn conversions(rounds: usize) -> [Times; 2] {
    let (tag, length) = (|| black_box(13), || black_box(4));
    let (code, value) = (|| black_box(0x42B3_963B), || black_box(468_995_000));
    let to_house = race(
        rounds,
        || oysterknoll::to_house(tag(), length(), code()),
        || rival::to_house(tag(), length(), code()),
    );
    let to_code = race(
        rounds,
        || oysterknoll::to_code(tag(), length(), value()),
        || rival::to_code(tag(), length(), value()),
    );
    [("to_house", to_house), ("to_code", to_code)]
}

fn print_operations(kinds: &[(&str, Vec<u8>)], rounds: usize) {
    println!(
        "{:8} {:8} {:>6} {:>11} {:>7} {:>11} {:>7} {:>7}",
        "packet", "", "bytes", "library ns", "MB/s", "rival ns", "MB/s", "ratio"
    );
    for (name, packet) in kinds {
        let bytes = packet.len();
        let rate = |time: f64| bytes as f64 * 1000.0 / time;
        let times = contest(packet, rounds).into_iter();
        for (operation, (library, rival)) in times.chain(further_contest(packet, rounds)) {
            let (quick, rival_quick, ratio) = (rate(library), rate(rival), library / rival);
            println!("{name:8} {operation:8} {bytes:6} {library:11.1} {quick:7.0} {rival:11.1} {rival_quick:7.0} {ratio:7.2}");
        }
        let mut listing = [0; LONGEST_LISTING];
        let list = alone(rounds, || {
            oysterknoll::list(black_box(packet), &mut listing)
        });
        println!(
            "{name:8} {:8} {bytes:6} {list:11.1} {:7.0}",
            "list",
            rate(list)
        );
    }
    for (operation, (library, rival)) in conversions(rounds) {
        let (blank, ratio) = ("", library / rival);
        println!("{blank:8} {operation:8} {blank:6} {library:11.1} {blank:7} {rival:11.1} {blank:7} {ratio:7.2}");
    }
    println!();
}

/// The same kind of items in packets of growing size: the cost of a byte stays.
fn print_sizes(sizes: &[(&str, Vec<u8>)], rounds: usize) {
    println!(
        "{:8} {:8} {:>18} {:>16}",
        "size", "", "library ns a byte", "rival ns a byte"
    );
    for (size, packet) in sizes {
        let a_byte = |time: f64| time / packet.len() as f64;
        for (operation, (library, rival)) in contest(packet, rounds) {
            let (library, rival) = (a_byte(library), a_byte(rival));
            println!("{size:8} {operation:8} {library:18.3} {rival:16.3}");
        }
    }
}
