//! The boundary of bits, checksums and whole frames. Each call is safe as the module above says.

use crate::frame::{Codec, Header, Status};
use crate::refusal::{outcome, Refusal};

extern "C" {
    fn zela_bits_get(
        bytes: *const u8,
        bytes_len: usize,
        pos: usize,
        n: usize,
        value: *mut u32,
        bit: *mut usize,
    ) -> u8;
    fn zela_bits_set(
        bytes: *mut u8,
        bytes_len: usize,
        pos: usize,
        n: usize,
        value: u32,
        bit: *mut usize,
    ) -> u8;
    fn zela_bits_range_eq(
        x: *const u8,
        x_len: usize,
        a: usize,
        y: *const u8,
        y_len: usize,
        b: usize,
        n: usize,
        is: *mut bool,
        bit: *mut usize,
    ) -> u8;
    fn zela_bits_range_zero(
        x: *const u8,
        x_len: usize,
        a: usize,
        n: usize,
        is: *mut bool,
        bit: *mut usize,
    ) -> u8;
    fn zela_crc16(init: u16, bytes: *const u8, bytes_len: usize, value: *mut u16) -> u8;
    fn zela_crc16_zeros(init: u16, n: usize, value: *mut u16) -> u8;
    fn zela_probe(
        frame: *const u8,
        frame_len: usize,
        eac3: *mut bool,
        bytes: *mut usize,
        bit: *mut usize,
    ) -> u8;
    fn zela_crc_status(
        frame: *const u8,
        frame_len: usize,
        eac3: bool,
        crc1: *mut bool,
        crc2: *mut bool,
        bit: *mut usize,
    ) -> u8;
    fn zela_repair(frame: *mut u8, frame_len: usize, eac3: bool, bit: *mut usize) -> u8;
}

#[inline]
pub fn bits_get(bytes: &[u8], pos: usize, n: usize) -> Result<u32, Refusal> {
    let (mut value, mut bit) = (0, 0);
    // SAFETY: as the module says.
    let number =
        unsafe { zela_bits_get(bytes.as_ptr(), bytes.len(), pos, n, &mut value, &mut bit) };
    outcome(number, bit, value)
}

#[inline]
pub fn bits_set(bytes: &mut [u8], pos: usize, n: usize, value: u32) -> Result<(), Refusal> {
    let mut bit = 0;
    // SAFETY: as the module says.
    let number = unsafe { zela_bits_set(bytes.as_mut_ptr(), bytes.len(), pos, n, value, &mut bit) };
    outcome(number, bit, ())
}

#[inline]
pub fn bits_range_eq(x: &[u8], a: usize, y: &[u8], b: usize, n: usize) -> Result<bool, Refusal> {
    let (mut is, mut bit) = (false, 0);
    // SAFETY: as the module says; x and y may be the same bytes, since both are only read.
    let number = unsafe {
        zela_bits_range_eq(
            x.as_ptr(),
            x.len(),
            a,
            y.as_ptr(),
            y.len(),
            b,
            n,
            &mut is,
            &mut bit,
        )
    };
    outcome(number, bit, is)
}

#[inline]
pub fn bits_range_zero(x: &[u8], a: usize, n: usize) -> Result<bool, Refusal> {
    let (mut is, mut bit) = (false, 0);
    // SAFETY: as the module says.
    let number = unsafe { zela_bits_range_zero(x.as_ptr(), x.len(), a, n, &mut is, &mut bit) };
    outcome(number, bit, is)
}

#[inline]
pub fn crc16(init: u16, bytes: &[u8]) -> u16 {
    let mut value = 0;
    // SAFETY: as the module says. The answer is always 0: this function never refuses.
    unsafe { zela_crc16(init, bytes.as_ptr(), bytes.len(), &mut value) };
    value
}

#[inline]
pub fn crc16_zeros(init: u16, n: usize) -> u16 {
    let mut value = 0;
    // SAFETY: as the module says. The answer is always 0: this function never refuses.
    unsafe { zela_crc16_zeros(init, n, &mut value) };
    value
}

#[inline]
pub fn probe(frame: &[u8]) -> Result<Header, Refusal> {
    let (mut eac3, mut bytes, mut bit) = (false, 0, 0);
    // SAFETY: as the module says.
    let number =
        unsafe { zela_probe(frame.as_ptr(), frame.len(), &mut eac3, &mut bytes, &mut bit) };
    let codec = Codec::of_eac3(eac3);
    outcome(number, bit, Header { codec, bytes })
}

#[inline]
pub fn crc_status(frame: &[u8], codec: Codec) -> Result<Status, Refusal> {
    let (mut crc1, mut crc2, mut bit) = (false, false, 0);
    // SAFETY: as the module says.
    let number = unsafe {
        zela_crc_status(
            frame.as_ptr(),
            frame.len(),
            codec.is_eac3(),
            &mut crc1,
            &mut crc2,
            &mut bit,
        )
    };
    outcome(number, bit, Status::of(codec, crc1, crc2))
}

#[inline]
pub fn repair(frame: &mut [u8], codec: Codec) -> Result<(), Refusal> {
    let mut bit = 0;
    // SAFETY: as the module says.
    let number = unsafe { zela_repair(frame.as_mut_ptr(), frame.len(), codec.is_eac3(), &mut bit) };
    outcome(number, bit, ())
}
