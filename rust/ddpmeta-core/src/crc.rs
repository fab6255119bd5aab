//! CRC-16 with the polynomial 0x8005.

use crate::error::{taken, unfit};
use zelamodurk::{crc as core, Why};

/// The register after `bytes`, from `init` on.
pub fn crc16(init: u16, bytes: &[u8]) -> u16 {
    core::crc16(init, bytes)
}

/// Whether a frame of at least 4 bytes ends with a good crc2.
pub fn frame_crc_ok(frame: &[u8]) -> bool {
    frame.len() >= 4 && crc16(0, &frame[2..]) == 0
}

/// Ends a frame with the crc2 that is good.
///
/// # Panics
/// With 20 where there are under 2 bytes.
#[track_caller]
pub fn append_frame_crc(frame_without_crc: &mut Vec<u8>) {
    let covered = frame_without_crc.get(2..).ok_or(unfit(Why::BadLength, 0));
    let crc = crc16(0, taken("append_frame_crc", covered));
    frame_without_crc.extend(crc.to_be_bytes());
}
