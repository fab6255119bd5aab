//! The calls of bits, checksums and whole frames.

use super::{call, room, size, BYTES};
use super::{Changed, Number, Read};
use crate::frame::{Codec, Header, Status};
use crate::refusal::{outcome, Refusal};

/// The functions' places in the table of `relay.c`.
pub(super) enum Function {
    BitsGet,
    BitsSet,
    BitsRangeEq,
    BitsRangeZero,
    Crc16,
    Crc16Zeros,
    Probe,
    CrcStatus,
    Repair,
}

pub fn bits_get(bytes: &[u8], pos: usize, n: usize) -> Result<u32, Refusal> {
    let (mut value, mut bit) = ([0; 4], [0; 8]);
    let lent = &mut [
        Read(BYTES, bytes),
        size(pos),
        size(n),
        room(&mut value),
        room(&mut bit),
    ];
    let number = call(Function::BitsGet as u8, lent);
    outcome(number, usize::from_le_bytes(bit), u32::from_le_bytes(value))
}

pub fn bits_set(bytes: &mut [u8], pos: usize, n: usize, value: u32) -> Result<(), Refusal> {
    let mut bit = [0; 8];
    let lent = &mut [
        Changed(BYTES, bytes),
        size(pos),
        size(n),
        Number(value.into()),
        room(&mut bit),
    ];
    let number = call(Function::BitsSet as u8, lent);
    outcome(number, usize::from_le_bytes(bit), ())
}

pub fn bits_range_eq(x: &[u8], a: usize, y: &[u8], b: usize, n: usize) -> Result<bool, Refusal> {
    let (mut is, mut bit) = ([0], [0; 8]);
    let lent = &mut [
        Read(BYTES, x),
        size(a),
        Read(BYTES, y),
        size(b),
        size(n),
        room(&mut is),
        room(&mut bit),
    ];
    let number = call(Function::BitsRangeEq as u8, lent);
    outcome(number, usize::from_le_bytes(bit), is != [0])
}

pub fn bits_range_zero(x: &[u8], a: usize, n: usize) -> Result<bool, Refusal> {
    let (mut is, mut bit) = ([0], [0; 8]);
    let lent = &mut [
        Read(BYTES, x),
        size(a),
        size(n),
        room(&mut is),
        room(&mut bit),
    ];
    let number = call(Function::BitsRangeZero as u8, lent);
    outcome(number, usize::from_le_bytes(bit), is != [0])
}

pub fn crc16(init: u16, bytes: &[u8]) -> u16 {
    let mut value = [0; 2];
    call(
        Function::Crc16 as u8,
        &mut [Number(init.into()), Read(BYTES, bytes), room(&mut value)],
    );
    u16::from_le_bytes(value)
}

pub fn crc16_zeros(init: u16, n: usize) -> u16 {
    let mut value = [0; 2];
    call(
        Function::Crc16Zeros as u8,
        &mut [Number(init.into()), size(n), room(&mut value)],
    );
    u16::from_le_bytes(value)
}

pub fn probe(frame: &[u8]) -> Result<Header, Refusal> {
    let (mut eac3, mut bytes, mut bit) = ([0], [0; 8], [0; 8]);
    let lent = &mut [
        Read(BYTES, frame),
        room(&mut eac3),
        room(&mut bytes),
        room(&mut bit),
    ];
    let number = call(Function::Probe as u8, lent);
    let header = Header {
        codec: Codec::of_eac3(eac3 != [0]),
        bytes: usize::from_le_bytes(bytes),
    };
    outcome(number, usize::from_le_bytes(bit), header)
}

pub fn crc_status(frame: &[u8], codec: Codec) -> Result<Status, Refusal> {
    let (mut crc1, mut crc2, mut bit) = ([0], [0], [0; 8]);
    let lent = &mut [
        Read(BYTES, frame),
        Number(codec.is_eac3().into()),
        room(&mut crc1),
        room(&mut crc2),
        room(&mut bit),
    ];
    let number = call(Function::CrcStatus as u8, lent);
    let status = Status::of(codec, crc1 != [0], crc2 != [0]);
    outcome(number, usize::from_le_bytes(bit), status)
}

pub fn repair(frame: &mut [u8], codec: Codec) -> Result<(), Refusal> {
    let mut bit = [0; 8];
    let lent = &mut [
        Changed(BYTES, frame),
        Number(codec.is_eac3().into()),
        room(&mut bit),
    ];
    let number = call(Function::Repair as u8, lent);
    outcome(number, usize::from_le_bytes(bit), ())
}
