//! Bits over lent bytes, most significant first: bit 0 is the top bit of byte 0.

use crate::core;
use crate::refusal::Refusal;

/// The `n` bits of `bytes` from bit `pos` on, as a number below 2^n.
///
/// # Errors
/// In this order: 6 where `n` is above 32; 1 where `pos + n` passes the end of `bytes`, also where
/// `n` is 0.
#[inline]
pub fn get(bytes: &[u8], pos: usize, n: usize) -> Result<u32, Refusal> {
    core::bits_get(bytes, pos, n)
}

/// Makes the `n` bits of `bytes` from bit `pos` on the low `n` bits of `value`. No other bit is
/// changed.
///
/// # Errors
/// In this order: 6 where `n` is above 32; 1 where `pos + n` passes the end of `bytes`, also where
/// `n` is 0. No bit is changed then.
#[inline]
pub fn set(bytes: &mut [u8], pos: usize, n: usize, value: u32) -> Result<(), Refusal> {
    core::bits_set(bytes, pos, n, value)
}

/// Whether the `n` bits of `x` from bit `a` on are those of `y` from bit `b` on; `n` may be any
/// number.
///
/// # Errors
/// 1 where `a + n` passes the end of `x`, or `b + n` that of `y`.
#[inline]
pub fn range_eq(x: &[u8], a: usize, y: &[u8], b: usize, n: usize) -> Result<bool, Refusal> {
    core::bits_range_eq(x, a, y, b, n)
}

/// Whether the `n` bits of `x` from bit `a` on are all 0; `n` may be any number.
///
/// # Errors
/// 1 where `a + n` passes the end of `x`.
#[inline]
pub fn range_zero(x: &[u8], a: usize, n: usize) -> Result<bool, Refusal> {
    core::bits_range_zero(x, a, n)
}
