//! The packet's bytes: key, tags, lengths, checksum.

pub const KEY: [u8; 16] = [
    0x06, 0x0E, 0x2B, 0x34, 0x02, 0x0B, 0x01, 0x01, 0x0E, 0x01, 0x03, 0x01, 0x01, 0x00, 0x00, 0x00,
];

pub const MOST_BYTES: usize = 8_192;
pub const MOST_ITEMS: usize = 128;
pub const LAST_TAG: u64 = 2_097_151;

/// The tag these bytes begin with, and its size; nothing if cut or forbidden.
pub fn tag_at(bytes: &[u8]) -> Option<(u64, usize)> {
    let size = 1 + bytes.iter().position(|&byte| byte < 0x80)?;
    let tag = bytes[..size.min(3)]
        .iter()
        .fold(0, |tag, &byte| tag << 7 | u64::from(byte & 0x7F));
    (size <= 3 && bytes[0] != 0x80 && tag != 0).then_some((tag, size))
}

/// The length these bytes begin with, and its size; nothing if cut or forbidden.
pub fn length_at(bytes: &[u8]) -> Option<(usize, usize)> {
    match *bytes.first()? {
        short @ 0..=0x7F => Some((usize::from(short), 1)),
        long @ 0x81..=0x84 => {
            let size = usize::from(long - 0x7F);
            Some((number(bytes.get(1..size)?) as usize, size))
        }
        _ => None,
    }
}

/// A number stored highest byte first.
pub fn number(bytes: &[u8]) -> u64 {
    bytes
        .iter()
        .fold(0, |number, &byte| number << 8 | u64::from(byte))
}

pub fn put_number(out: &mut Vec<u8>, number: u64, bytes: usize) {
    out.extend_from_slice(&number.to_be_bytes()[8 - bytes..]);
}

pub fn put_tag(out: &mut Vec<u8>, tag: u64) {
    let size = tag_size(tag);
    for later in (1..size).rev() {
        out.push(0x80 | (tag >> (7 * later)) as u8);
    }
    out.push(tag as u8 & 0x7F);
}

pub fn tag_size(tag: u64) -> usize {
    match tag {
        0..=0x7F => 1,
        0x80..=0x3FFF => 2,
        _ => 3,
    }
}

/// A length with at least so many bytes after its first; with none it takes its shortest form.
pub fn put_length(out: &mut Vec<u8>, length: usize, at_least: usize) {
    let more = at_least.max(length_size(length) - 1);
    if more == 0 {
        out.push(length as u8);
    } else {
        out.push(0x80 | more as u8);
        put_number(out, length as u64, more);
    }
}

pub fn length_size(length: usize) -> usize {
    match length {
        0..=0x7F => 1,
        0x80..=0xFF => 2,
        0x100..=0xFFFF => 3,
        0x1_0000..=0xFF_FFFF => 4,
        _ => 5,
    }
}

/// The checksum over all of these bytes, the first of them being the packet's first.
pub fn checksum(bytes: &[u8]) -> u64 {
    let halves = bytes.chunks(2).map(|pair| match *pair {
        [even, odd] => 256 * u64::from(even) + u64::from(odd),
        [even] => 256 * u64::from(even),
        _ => 0,
    });
    halves.sum::<u64>() % 65_536
}
