//! What the examples share: the packet that comes in, a refusal in words, and how they end.

use oysterknoll::{Refusal, LONGEST_PACKET};
use std::env::args_os;
use std::fs::File;
use std::io::{self, stdin, stdout, Error, Read, Write};
use std::process::ExitCode;

/// One byte over the longest packet shows that it is too long; what comes after cannot change the answer.
const ROOM: u64 = LONGEST_PACKET as u64 + 1;

/// Prints what is said of the packet, or the refusal: the packet is in the file named, or on standard input.
/// The program ends with 0, with 1 where the packet is refused, and with 2 where there is no packet to read or the output is broken.
pub fn run(program: &str, said: fn(&[u8]) -> Result<String, Refusal>) -> ExitCode {
    match read_packet().and_then(|packet| print(said(&packet))) {
        Ok(ended) => ended,
        Err(why) => {
            eprintln!("{program}: {why}");
            ExitCode::from(2)
        }
    }
}

fn read_packet() -> io::Result<Vec<u8>> {
    let mut packet = Vec::new();
    let mut names = args_os().skip(1);
    match (names.next(), names.next()) {
        (None, _) => stdin().take(ROOM).read_to_end(&mut packet)?,
        (Some(name), None) => File::open(name)?.take(ROOM).read_to_end(&mut packet)?,
        _ => return Err(Error::other("one file, or none for standard input")),
    };
    Ok(packet)
}

fn print(said: Result<String, Refusal>) -> io::Result<ExitCode> {
    let (lines, ended) = match said {
        Ok(lines) => (lines, ExitCode::SUCCESS),
        Err(refusal) => (in_words(refusal), ExitCode::from(1)),
    };
    stdout().write_all(lines.as_bytes())?;
    Ok(ended)
}

fn in_words(refusal: Refusal) -> String {
    let (number, place, tag) = (refusal.number(), refusal.place, refusal.tag);
    format!("refused by {number}, place {place}, tag {tag}\n")
}
