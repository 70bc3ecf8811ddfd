//! The C functions of the archive, and for each a safe one that takes slices. All of the crate's unsafe code is here.
//!
//! Why each call is sound: a slice's pointer is never null, also where the slice is empty, and is good for the slice's length; a
//! `&mut` slice overlaps no other; and the library keeps no pointer, writes to none but the `*mut` ones, and has an answer for every
//! input.
#![allow(unsafe_code)]

use crate::Knowing;

// The structs of the C header, field by field.

#[repr(C)]
pub struct Refusal {
    pub number: u64,
    pub place: usize,
    pub tag: u64,
}

#[repr(C)]
pub struct Row {
    pub tag: u64,
    pub kind: u64,
    pub code: u64,
    pub place: usize,
    pub length: usize,
}

#[repr(C)]
pub struct Present {
    pub low: u64,
    pub high: u64,
}

#[repr(C)]
pub struct CountAnswer {
    pub refusal: Refusal,
    pub count: usize,
    pub present: Present,
    pub withdrawn: Present,
}

#[repr(C)]
pub struct SizeAnswer {
    pub refusal: Refusal,
    pub size: usize,
}

#[repr(C)]
pub struct RowAnswer {
    pub refusal: Refusal,
    pub row: Row,
}

#[repr(C)]
pub struct StartAnswer {
    pub refusal: Refusal,
    pub place: usize,
}

#[repr(C)]
pub struct NextAnswer {
    pub row: Row,
    pub next: usize,
}

#[repr(C)]
pub struct ValueAnswer {
    pub refusal: Refusal,
    pub value: i64,
}

#[repr(C)]
pub struct CodeAnswer {
    pub refusal: Refusal,
    pub code: u64,
}

#[repr(C)]
pub struct HeightAnswer {
    pub refusal: Refusal,
    pub kind: u64,
    pub height: i64,
}

#[repr(C)]
pub struct CornerAnswer {
    pub refusal: Refusal,
    pub kind: u64,
    pub latitude: i64,
    pub longitude: i64,
}

#[repr(C)]
pub struct ItemAnswer {
    pub stored: u64,
    pub width: usize,
    pub low: i64,
    pub high: i64,
    pub unit: u64,
    pub marked: u64,
}

// The kinds of a row.
pub const READING: u64 = 1;
pub const MARK: u64 = 2;
pub const TEXT: u64 = 3;
pub const CARRIED: u64 = 4;
pub const WITHDRAWN: u64 = 5;

// The kinds of a height that is not missing.
pub const OVER_ELLIPSOID: u64 = 1;
pub const OVER_SEA_LEVEL: u64 = 2;

// The kinds of a corner that is not missing.
pub const POINT: u64 = 1;
pub const OFF_THE_EARTH: u64 = 2;

// How an item that the catalogue has is stored.
pub const STORED_UNSIGNED: u64 = 1;
pub const STORED_SIGNED: u64 = 2;
pub const STORED_TEXT: u64 = 3;
pub const STORED_EXTENDED: u64 = 4;

// The units.
pub const UNIT_DEGREE: u64 = 1;
pub const UNIT_METRE: u64 = 2;
pub const UNIT_METRE_PER_SECOND: u64 = 3;
pub const UNIT_MILLIBAR: u64 = 4;
pub const UNIT_PERCENT: u64 = 5;
pub const UNIT_CELSIUS: u64 = 6;
pub const UNIT_MICROSECOND: u64 = 7;

extern "C" {
    fn oyk_version() -> u64;
    fn oyk_check(packet: *const u8, packet_len: usize, low: u64, high: u64) -> CountAnswer;
    fn oyk_read(
        packet: *const u8,
        packet_len: usize,
        low: u64,
        high: u64,
        table: *mut u64,
        table_len: usize,
    ) -> CountAnswer;
    fn oyk_has(present_low: u64, present_high: u64, tag: u64) -> u64;
    fn oyk_take_row(
        words: *const u64,
        words_len: usize,
        count: usize,
        n: usize,
        buffer: *const u8,
        buffer_len: usize,
        low: u64,
        high: u64,
    ) -> RowAnswer;
    fn oyk_start(packet: *const u8, packet_len: usize, low: u64, high: u64) -> StartAnswer;
    fn oyk_next(
        packet: *const u8,
        packet_len: usize,
        low: u64,
        high: u64,
        place: usize,
    ) -> NextAnswer;
    fn oyk_write(
        words: *const u64,
        words_len: usize,
        count: usize,
        buffer: *const u8,
        buffer_len: usize,
        low: u64,
        high: u64,
        out: *mut u8,
        out_len: usize,
    ) -> SizeAnswer;
    fn oyk_write_with(
        words: *const u64,
        words_len: usize,
        count: usize,
        buffer: *const u8,
        buffer_len: usize,
        low: u64,
        high: u64,
        present_low: u64,
        present_high: u64,
        out: *mut u8,
        out_len: usize,
    ) -> SizeAnswer;
    fn oyk_forward(
        packet: *const u8,
        packet_len: usize,
        low: u64,
        high: u64,
        out: *mut u8,
        out_len: usize,
    ) -> SizeAnswer;
    fn oyk_to_house(tag: u64, length: usize, code: u64) -> ValueAnswer;
    fn oyk_to_code(tag: u64, length: usize, value: i64) -> CodeAnswer;
    fn oyk_sensor_height(packet: *const u8, packet_len: usize, low: u64, high: u64)
        -> HeightAnswer;
    fn oyk_frame_centre_height(
        packet: *const u8,
        packet_len: usize,
        low: u64,
        high: u64,
    ) -> HeightAnswer;
    fn oyk_corner(
        packet: *const u8,
        packet_len: usize,
        low: u64,
        high: u64,
        k: u64,
    ) -> CornerAnswer;
    fn oyk_item(tag: u64) -> ItemAnswer;
    fn oyk_list(packet: *const u8, packet_len: usize, out: *mut u8, out_len: usize) -> SizeAnswer;
}

pub fn version() -> u64 {
    // SAFETY: no memory is lent.
    unsafe { oyk_version() }
}

pub fn check(packet: &[u8], knowing: Knowing) -> CountAnswer {
    let (low, high) = knowing.words();
    // SAFETY: see the top of this module; so below.
    unsafe { oyk_check(packet.as_ptr(), packet.len(), low, high) }
}

pub fn read(packet: &[u8], knowing: Knowing, table: &mut [u64]) -> CountAnswer {
    let (low, high) = knowing.words();
    // SAFETY: as above.
    unsafe {
        oyk_read(
            packet.as_ptr(),
            packet.len(),
            low,
            high,
            table.as_mut_ptr(),
            table.len(),
        )
    }
}

pub fn has(present: crate::Present, tag: u64) -> u64 {
    let (low, high) = present.words();
    // SAFETY: no memory is lent.
    unsafe { oyk_has(low, high, tag) }
}

pub fn take_row(
    words: &[u64],
    count: usize,
    n: usize,
    buffer: &[u8],
    knowing: Knowing,
) -> RowAnswer {
    let (low, high) = knowing.words();
    // SAFETY: as above.
    unsafe {
        oyk_take_row(
            words.as_ptr(),
            words.len(),
            count,
            n,
            buffer.as_ptr(),
            buffer.len(),
            low,
            high,
        )
    }
}

pub fn start(packet: &[u8], knowing: Knowing) -> StartAnswer {
    let (low, high) = knowing.words();
    // SAFETY: as above.
    unsafe { oyk_start(packet.as_ptr(), packet.len(), low, high) }
}

pub fn next(packet: &[u8], knowing: Knowing, place: usize) -> NextAnswer {
    let (low, high) = knowing.words();
    // SAFETY: as above.
    unsafe { oyk_next(packet.as_ptr(), packet.len(), low, high, place) }
}

pub fn write(
    words: &[u64],
    count: usize,
    buffer: &[u8],
    knowing: Knowing,
    out: &mut [u8],
) -> SizeAnswer {
    let (low, high) = knowing.words();
    // SAFETY: as above.
    unsafe {
        oyk_write(
            words.as_ptr(),
            words.len(),
            count,
            buffer.as_ptr(),
            buffer.len(),
            low,
            high,
            out.as_mut_ptr(),
            out.len(),
        )
    }
}

pub fn write_with(
    words: &[u64],
    count: usize,
    buffer: &[u8],
    knowing: Knowing,
    present: crate::Present,
    out: &mut [u8],
) -> SizeAnswer {
    let (low, high) = knowing.words();
    let (present_low, present_high) = present.words();
    // SAFETY: as above.
    unsafe {
        oyk_write_with(
            words.as_ptr(),
            words.len(),
            count,
            buffer.as_ptr(),
            buffer.len(),
            low,
            high,
            present_low,
            present_high,
            out.as_mut_ptr(),
            out.len(),
        )
    }
}

pub fn forward(packet: &[u8], knowing: Knowing, out: &mut [u8]) -> SizeAnswer {
    let (low, high) = knowing.words();
    // SAFETY: as above.
    unsafe {
        oyk_forward(
            packet.as_ptr(),
            packet.len(),
            low,
            high,
            out.as_mut_ptr(),
            out.len(),
        )
    }
}

pub fn to_house(tag: u64, length: usize, code: u64) -> ValueAnswer {
    // SAFETY: no memory is lent.
    unsafe { oyk_to_house(tag, length, code) }
}

pub fn to_code(tag: u64, length: usize, value: i64) -> CodeAnswer {
    // SAFETY: no memory is lent.
    unsafe { oyk_to_code(tag, length, value) }
}

pub fn sensor_height(packet: &[u8], knowing: Knowing) -> HeightAnswer {
    let (low, high) = knowing.words();
    // SAFETY: as above.
    unsafe { oyk_sensor_height(packet.as_ptr(), packet.len(), low, high) }
}

pub fn frame_centre_height(packet: &[u8], knowing: Knowing) -> HeightAnswer {
    let (low, high) = knowing.words();
    // SAFETY: as above.
    unsafe { oyk_frame_centre_height(packet.as_ptr(), packet.len(), low, high) }
}

pub fn corner(packet: &[u8], knowing: Knowing, k: u64) -> CornerAnswer {
    let (low, high) = knowing.words();
    // SAFETY: as above.
    unsafe { oyk_corner(packet.as_ptr(), packet.len(), low, high, k) }
}

pub fn item(tag: u64) -> ItemAnswer {
    // SAFETY: no memory is lent.
    unsafe { oyk_item(tag) }
}

pub fn list(packet: &[u8], out: &mut [u8]) -> SizeAnswer {
    // SAFETY: as above.
    unsafe { oyk_list(packet.as_ptr(), packet.len(), out.as_mut_ptr(), out.len()) }
}
