//! The C library as its header, station/roostcord.h, declares it. A lent slice crosses as its pointer and its length, and
//! the safe calls below hand over exactly that, so the borrow checker keeps what the header asks of a caller.

// Two programs share this file, and neither uses all of it.
#![allow(dead_code)]

use std::ffi::c_void;

/// The two editions of the ladder. The Rust has the second one's.
pub const EDITION_1: u32 = 1;
pub const EDITION_2: u32 = 2;

pub const REPORT_MAX: usize = 215;
pub const REPORT_NUMBERS: usize = 91;
pub const STATE_SIZE: usize = 557;
pub const IMAGE_MAX: usize = 2048;
pub const MANUFACTURING_COUNT: usize = 11;
pub const PART_NUMBER_MAX: usize = 30;

mod c {
    unsafe extern "C" {
        pub fn roostcord_lint(image: *const u8, n: usize, edition: u32, report: *mut u8, room: usize) -> i32;
        pub fn roostcord_report(report: *const u8, n: usize, out: *mut u32, room: usize) -> i32;
        pub fn roostcord_identity(image: *const u8, n: usize, out: *mut u32, room: usize) -> i32;
        pub fn roostcord_timings(image: *const u8, n: usize, out: *mut u32, room: usize) -> i32;
        pub fn roostcord_cas_latencies(image: *const u8, n: usize, out: *mut u16, room: usize) -> i32;
        pub fn roostcord_clocks(image: *const u8, n: usize, out: *mut u32, room: usize) -> i32;
        pub fn roostcord_manufacturing(image: *const u8, n: usize, strict: u32, out: *mut u32, room: usize) -> i32;
        pub fn roostcord_part_number(image: *const u8, n: usize, out: *mut u8, room: usize) -> i32;
        pub fn roostcord_crc(image: *const u8, n: usize) -> i32;
        pub fn roostcord_sound_read(first: *const u8, n: usize, second: *const u8, second_len: usize) -> i32;
        pub fn roostcord_pieces_fresh(state: *mut u8, n: usize, edition: u32) -> i32;
        pub fn roostcord_pieces_feed(state: *mut u8, n: usize, offset: usize, piece: *const u8, piece_len: usize) -> i32;
        pub fn roostcord_pieces_taken(state: *const u8, n: usize) -> i32;
        pub fn roostcord_pieces_lint(state: *const u8, n: usize, report: *mut u8, room: usize) -> i32;
        pub fn roostcord_pieces_identity(state: *const u8, n: usize, out: *mut u32, room: usize) -> i32;
        pub fn roostcord_pieces_timings(state: *const u8, n: usize, out: *mut u32, room: usize) -> i32;
        pub fn roostcord_pieces_cas_latencies(state: *const u8, n: usize, out: *mut u16, room: usize) -> i32;
        pub fn roostcord_pieces_clocks(state: *const u8, n: usize, out: *mut u32, room: usize) -> i32;
        pub fn roostcord_pieces_manufacturing(state: *const u8, n: usize, strict: u32, out: *mut u32, room: usize) -> i32;
        pub fn roostcord_pieces_part_number(state: *const u8, n: usize, out: *mut u8, room: usize) -> i32;
        pub fn roostcord_pieces_crc(state: *const u8, n: usize) -> i32;
    }
}

/// A question: a slice that is read, and a slice that is filled.
macro_rules! questions {
    ($($name:ident = $symbol:ident($out:ty);)*) => {$(
        #[inline(always)]
        pub fn $name(from: &[u8], out: &mut [$out]) -> i32 {
            // SAFETY: both slices are valid for their lengths, aligned, and the second is borrowed alone.
            unsafe { c::$symbol(from.as_ptr(), from.len(), out.as_mut_ptr(), out.len()) }
        }
    )*};
}

questions! {
    report = roostcord_report(u32);
    identity = roostcord_identity(u32);
    timings = roostcord_timings(u32);
    cas_latencies = roostcord_cas_latencies(u16);
    clocks = roostcord_clocks(u32);
    part_number = roostcord_part_number(u8);
    pieces_lint = roostcord_pieces_lint(u8);
    pieces_identity = roostcord_pieces_identity(u32);
    pieces_timings = roostcord_pieces_timings(u32);
    pieces_cas_latencies = roostcord_pieces_cas_latencies(u16);
    pieces_clocks = roostcord_pieces_clocks(u32);
    pieces_part_number = roostcord_pieces_part_number(u8);
}

/// The question that has an edition: 1 or 2.
#[inline(always)]
pub fn lint(image: &[u8], edition: u32, report: &mut [u8]) -> i32 {
    // SAFETY: both slices are valid for their lengths, and the second is borrowed alone.
    unsafe { c::roostcord_lint(image.as_ptr(), image.len(), edition, report.as_mut_ptr(), report.len()) }
}

/// The two questions that have a mode: strict is any number but 0.
#[inline(always)]
pub fn manufacturing(image: &[u8], strict: u32, out: &mut [u32]) -> i32 {
    // SAFETY: both slices are valid for their lengths, aligned, and the second is borrowed alone.
    unsafe { c::roostcord_manufacturing(image.as_ptr(), image.len(), strict, out.as_mut_ptr(), out.len()) }
}

#[inline(always)]
pub fn pieces_manufacturing(state: &[u8], strict: u32, out: &mut [u32]) -> i32 {
    // SAFETY: as above.
    unsafe { c::roostcord_pieces_manufacturing(state.as_ptr(), state.len(), strict, out.as_mut_ptr(), out.len()) }
}

/// The three questions whose answer is the number itself.
#[inline(always)]
pub fn crc(image: &[u8]) -> i32 {
    // SAFETY: the slice is valid for its length.
    unsafe { c::roostcord_crc(image.as_ptr(), image.len()) }
}

#[inline(always)]
pub fn pieces_crc(state: &[u8]) -> i32 {
    // SAFETY: as above.
    unsafe { c::roostcord_pieces_crc(state.as_ptr(), state.len()) }
}

/// The two must not overlap, which nothing here sees.
#[inline(always)]
pub fn sound_read(first: &[u8], second: &[u8]) -> i32 {
    // SAFETY: both slices are valid for their lengths, and neither is written.
    unsafe { c::roostcord_sound_read(first.as_ptr(), first.len(), second.as_ptr(), second.len()) }
}

#[inline(always)]
pub fn pieces_fresh(state: &mut [u8], edition: u32) -> i32 {
    // SAFETY: the slice is valid for its length and borrowed alone.
    unsafe { c::roostcord_pieces_fresh(state.as_mut_ptr(), state.len(), edition) }
}

#[inline(always)]
pub fn pieces_feed(state: &mut [u8], offset: usize, piece: &[u8]) -> i32 {
    // SAFETY: both slices are valid for their lengths, and the first is borrowed alone.
    unsafe { c::roostcord_pieces_feed(state.as_mut_ptr(), state.len(), offset, piece.as_ptr(), piece.len()) }
}

#[inline(always)]
pub fn pieces_taken(state: &[u8]) -> i32 {
    // SAFETY: the slice is valid for its length.
    unsafe { c::roostcord_pieces_taken(state.as_ptr(), state.len()) }
}

pub const SYMBOLS: usize = 21;

/// Every call by its name, for measuring its stack.
pub fn symbols() -> [(&'static str, *const c_void); SYMBOLS] {
    macro_rules! named {
        ($($symbol:ident),*) => { [$((stringify!($symbol), c::$symbol as *const c_void)),*] };
    }
    named![
        roostcord_lint,
        roostcord_report,
        roostcord_identity,
        roostcord_timings,
        roostcord_cas_latencies,
        roostcord_clocks,
        roostcord_manufacturing,
        roostcord_part_number,
        roostcord_crc,
        roostcord_sound_read,
        roostcord_pieces_fresh,
        roostcord_pieces_feed,
        roostcord_pieces_taken,
        roostcord_pieces_lint,
        roostcord_pieces_identity,
        roostcord_pieces_timings,
        roostcord_pieces_cas_latencies,
        roostcord_pieces_clocks,
        roostcord_pieces_manufacturing,
        roostcord_pieces_part_number,
        roostcord_pieces_crc
    ]
}
