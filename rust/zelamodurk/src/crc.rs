//! CRC-16 with the polynomial 0x8005, most significant bit first, no final inversion.

use crate::core;

/// The register after `bytes`, from the start value `init`.
#[inline]
pub fn crc16(init: u16, bytes: &[u8]) -> u16 {
    core::crc16(init, bytes)
}

/// The register after `n` zero bytes, from the start value `init`.
#[inline]
pub fn zeros(init: u16, n: usize) -> u16 {
    core::crc16_zeros(init, n)
}
