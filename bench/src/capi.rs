//! The proved library, through the C interface of `capi/falldate.h`.

use std::fmt;

extern "C" {
    fn falldate_safety_code(word: u64, bytes: *const u8, len: usize) -> u64;
    fn falldate_frame_kind(bytes: *const u8, len: usize) -> i32;
    fn falldate_packet_type(bytes: *const u8, len: usize) -> i32;
    fn falldate_rehearse(
        sheet: *const u8,
        sheet_len: usize,
        script: *const u8,
        script_len: usize,
        out: *mut u8,
        out_len: usize,
    ) -> i64;
    fn falldate_steady_rounds(rounds: u32, size: u32) -> i64;
    fn falldate_wire_rounds(held: u32, size: u32, rounds: u32) -> i64;
}

const TOO_SHORT: i64 = -7;

/// Why a call of the library gave no answer.
#[derive(Clone, Copy, Debug, PartialEq, Eq)]
pub enum Failure {
    NoMemory,
    TooShort,
}

impl fmt::Display for Failure {
    fn fmt(&self, f: &mut fmt::Formatter) -> fmt::Result {
        f.write_str(match self {
            Failure::NoMemory => "no memory",
            Failure::TooShort => "the buffer is too short",
        })
    }
}

pub fn safety_code(word: u64, bytes: &[u8]) -> u64 {
    // SAFETY: pointer and length are those of a slice.
    unsafe { falldate_safety_code(word, bytes.as_ptr(), bytes.len()) }
}

/// 0 to 6 for the kinds of frames, or the refusal's number, negative.
pub fn frame_kind(bytes: &[u8]) -> i32 {
    // SAFETY: pointer and length are those of a slice.
    unsafe { falldate_frame_kind(bytes.as_ptr(), bytes.len()) }
}

/// 1 to 4 for the types of packets, or the refusal's number, negative.
pub fn packet_type(bytes: &[u8]) -> i32 {
    // SAFETY: pointer and length are those of a slice.
    unsafe { falldate_packet_type(bytes.as_ptr(), bytes.len()) }
}

/// Writes what `rehearse` prints to the start of `out`, and answers its length.
pub fn rehearse(sheet: &[u8], script: &[u8], out: &mut [u8]) -> Result<usize, Failure> {
    // SAFETY: pointers and lengths are those of slices, and `out` is borrowed for writing, so it
    // overlaps neither of the others.
    let answer = unsafe {
        falldate_rehearse(
            sheet.as_ptr(),
            sheet.len(),
            script.as_ptr(),
            script.len(),
            out.as_mut_ptr(),
            out.len(),
        )
    };
    count(answer).map(|count| count as usize)
}

/// How many messages were delivered in so many rounds of a link that is up.
pub fn steady_rounds(rounds: u32, size: u32) -> Result<u64, Failure> {
    // SAFETY: no pointers.
    count(unsafe { falldate_steady_rounds(rounds, size) })
}

/// How many of the fetches on a wire with so many strings answered one.
pub fn wire_rounds(held: u32, size: u32, rounds: u32) -> Result<u64, Failure> {
    // SAFETY: no pointers.
    count(unsafe { falldate_wire_rounds(held, size, rounds) })
}

fn count(answer: i64) -> Result<u64, Failure> {
    match answer {
        TOO_SHORT => Err(Failure::TooShort),
        _ => u64::try_from(answer).map_err(|_| Failure::NoMemory),
    }
}
