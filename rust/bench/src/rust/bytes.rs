//! The Rust's functions of bits and CRC-16.

#[cfg(oracle)]
mod called {
    use oracle::{bits, crc};

    #[inline(never)]
    pub fn get(bytes: &[u8], pos: usize, n: usize) -> u32 {
        bits::get(bytes, pos, n)
    }

    #[inline(never)]
    pub fn set(bytes: &mut [u8], pos: usize, n: usize, value: u32) {
        bits::set(bytes, pos, n, value);
    }

    #[inline(never)]
    pub fn range_eq(x: &[u8], a: usize, y: &[u8], b: usize, n: usize) -> bool {
        bits::range_eq(x, a, y, b, n)
    }

    #[inline(never)]
    pub fn range_zero(x: &[u8], a: usize, n: usize) -> bool {
        bits::range_zero(x, a, n)
    }

    #[inline(never)]
    pub fn crc16(init: u16, bytes: &[u8]) -> u16 {
        crc::crc16(init, bytes)
    }
}

#[cfg(not(oracle))]
mod called {
    pub fn get(_: &[u8], _: usize, _: usize) -> u32 {
        0
    }

    pub fn set(_: &mut [u8], _: usize, _: usize, _: u32) {}

    pub fn range_eq(_: &[u8], _: usize, _: &[u8], _: usize, _: usize) -> bool {
        false
    }

    pub fn range_zero(_: &[u8], _: usize, _: usize) -> bool {
        false
    }

    pub fn crc16(_: u16, _: &[u8]) -> u16 {
        0
    }
}

pub use called::{crc16, get, range_eq, range_zero, set};
