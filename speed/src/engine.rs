//! The engine's reader and its CRC, as the archives export them: the only part of this program that
//! is `unsafe`.
//! Each call is in an archive of its own, so that the compiler sees one caller of the reader in
//! each and inlines it there, as `#[inline(always)]` does in Rust.
use crate::message::{Sender, Tally};
use crate::words::{Found, WORDS};

extern "C" {
    fn jmux_read_at(
        capture: *const u8,
        length: usize,
        server: bool,
        place: usize,
        found: *mut [u64; WORDS],
    );
    fn jmux_read_all(capture: *const u8, length: usize, server: bool, found: *mut [u64; 5]);
    fn jmux_crc32c(bytes: *const u8, length: usize) -> u32;
}

/// What is at a place of a capture.
#[inline(always)]
pub fn read_at(capture: &[u8], from: Sender, place: usize, found: &mut Found) {
    let server = from == Sender::Server;
    // The capture is only read and the words are only written while the call runs.
    unsafe { jmux_read_at(capture.as_ptr(), capture.len(), server, place, found) }
}

/// All messages of a capture, up to the first refusal.
#[inline(always)]
pub fn read_all(capture: &[u8], from: Sender) -> Tally {
    let mut found = [0; 5];
    let server = from == Sender::Server;
    // As above.
    unsafe { jmux_read_all(capture.as_ptr(), capture.len(), server, &mut found) };
    let [number, fault, place, messages, sum] = found;
    Tally {
        number,
        fault,
        place,
        messages,
        sum,
    }
}

/// The CRC-32C of the bytes.
#[inline(always)]
pub fn crc32c(bytes: &[u8]) -> u32 {
    // The bytes are only read while the call runs.
    unsafe { jmux_crc32c(bytes.as_ptr(), bytes.len()) }
}
