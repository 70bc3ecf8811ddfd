//! Says which items of a packet are there: whether it has a frame centre, how many items of the catalogue, their tags, and which of them are
//! withdrawn, where any is. The packet is in the file named, or on standard input.
//! It ends with 0, with 1 where the packet is refused, and with 2 where there is no packet to read or the output is broken.

mod common;

use oysterknoll::{check, Accepted, Knowing, Present, Refusal};
use std::process::ExitCode;

fn main() -> ExitCode {
    common::run("present", said)
}

/// The packet is judged once, and which items are there comes with that.
fn said(packet: &[u8]) -> Result<String, Refusal> {
    let accepted = check(packet, Knowing::ALL)?;
    let (known, count) = (accepted.present.count(), accepted.count);
    let mut lines = format!(
        "frame centre: {}\nknown items: {known} of {count}\n",
        frame_centre(&accepted)
    );
    lines += &tags("tags", accepted.present);
    if accepted.withdrawn.count() > 0 {
        lines += &tags("withdrawn", accepted.withdrawn);
    }
    Ok(lines)
}

/// What a screen asks at every picture: it has kept the words, and needs neither the packet nor a table. Where the drone has taken one half
/// back, an earlier frame centre no longer holds.
fn frame_centre(accepted: &Accepted) -> &'static str {
    if [23, 24].into_iter().all(|tag| accepted.has_value(tag)) {
        "there"
    } else if [23, 24].into_iter().any(|tag| accepted.withdrawn.has(tag)) {
        "withdrawn"
    } else {
        "not there"
    }
}

fn tags(name: &str, words: Present) -> String {
    let tags: String = words.tags().map(|tag| format!(" {tag}")).collect();
    format!("{name}:{tags}\n")
}
