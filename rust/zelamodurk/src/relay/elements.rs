//! The calls of elements, their log and the tail.

use super::bytes;
use super::{call, room, size, BYTES};
use super::{Argument, Changed, Number, Read};
use crate::frame::{Codec, UserBits};
use crate::refusal::{outcome, Refusal};
use crate::syntax::{Ask, Element, Place, Role, Span};

/// The places, in the table of `relay.c`, of the functions that the feature `cursor` adds.
pub(super) enum Function {
    RoleIsDrc = bytes::Function::Repair as isize + 1,
    RoleIsChecksum,
    RoleIsSpan,
    ReadElement,
    ReadRaw,
    Span,
    CloseSpan,
    CheckTiling,
    ElementAt,
    ReadTail,
    Allocate,
    ReadExponents,
    Conventional,
    Aht,
    DeltaCode,
    ReadDelta,
    AllocateBlock,
}

/// A log, which passes as a pointer and the number of its words.
pub(super) const LOG: u8 = 3;

/// A log's words as they stand in memory on x86-64.
pub(super) fn log_bytes(log: &[u32]) -> Vec<u8> {
    log.iter().flat_map(|word| word.to_le_bytes()).collect()
}

/// Makes a log's words those that stand in memory on x86-64.
pub(super) fn set_log(log: &mut [u32], bytes: &[u8]) {
    for (word, bytes) in log.iter_mut().zip(bytes.as_chunks().0) {
        *word = u32::from_le_bytes(*bytes);
    }
}

/// A block or an index, which passes as a register holds it: its sign fills the word.
pub(super) fn signed(number: impl Into<i64>) -> Argument<'static> {
    Number(number.into() as u64)
}

fn role_is(function: Function, role: Role) -> bool {
    let mut is = [0];
    call(
        function as u8,
        &mut [Number(role.word().into()), room(&mut is)],
    );
    is != [0]
}

pub fn role_is_drc(role: Role) -> bool {
    role_is(Function::RoleIsDrc, role)
}

pub fn role_is_checksum(role: Role) -> bool {
    role_is(Function::RoleIsChecksum, role)
}

pub fn role_is_span(role: Role) -> bool {
    role_is(Function::RoleIsSpan, role)
}

pub fn read_element(
    frame: &[u8],
    log: &mut [u32],
    place: &mut Place,
    ask: &Ask,
) -> Result<u32, Refusal> {
    let (mut pos, mut count) = (place.pos.to_le_bytes(), place.count.to_le_bytes());
    let (mut value, mut bit) = ([0; 4], [0; 8]);
    let mut words = log_bytes(log);
    let lent = &mut [
        Read(BYTES, frame),
        Changed(LOG, &mut words),
        room(&mut pos),
        size(place.limit),
        signed(place.block),
        room(&mut count),
        Number(ask.name.into()),
        Number(ask.role.word().into()),
        signed(ask.index),
        size(ask.width),
        room(&mut value),
        room(&mut bit),
    ];
    let number = call(Function::ReadElement as u8, lent);
    set_log(log, &words);
    place.pos = usize::from_le_bytes(pos);
    place.count = usize::from_le_bytes(count);
    outcome(number, usize::from_le_bytes(bit), u32::from_le_bytes(value))
}

pub fn read_raw(frame: &[u8], pos: &mut usize, limit: usize, width: usize) -> Result<u32, Refusal> {
    let mut at = pos.to_le_bytes();
    let (mut value, mut bit) = ([0; 4], [0; 8]);
    let lent = &mut [
        Read(BYTES, frame),
        room(&mut at),
        size(limit),
        size(width),
        room(&mut value),
        room(&mut bit),
    ];
    let number = call(Function::ReadRaw as u8, lent);
    *pos = usize::from_le_bytes(at);
    outcome(number, usize::from_le_bytes(bit), u32::from_le_bytes(value))
}

/// Logs a span by one of two functions, which take the position as room and as a number.
fn logged(function: Function, at: Span, pos: Argument, last: usize) -> Result<(), Refusal> {
    let mut count = at.count.to_le_bytes();
    let mut bit = [0; 8];
    let mut words = log_bytes(at.log);
    let lent = &mut [
        Read(BYTES, at.frame),
        Changed(LOG, &mut words),
        pos,
        size(at.limit),
        signed(at.block),
        room(&mut count),
        Number(at.name.into()),
        Number(at.role.word().into()),
        size(last),
        room(&mut bit),
    ];
    let number = call(function as u8, lent);
    set_log(at.log, &words);
    *at.count = usize::from_le_bytes(count);
    outcome(number, usize::from_le_bytes(bit), ())
}

pub fn span(at: Span, pos: &mut usize, width: usize) -> Result<(), Refusal> {
    let mut after = pos.to_le_bytes();
    let done = logged(Function::Span, at, room(&mut after), width);
    *pos = usize::from_le_bytes(after);
    done
}

pub fn close_span(at: Span, pos: usize, start: usize) -> Result<(), Refusal> {
    logged(Function::CloseSpan, at, size(pos), start)
}

pub fn check_tiling(log: &[u32], count: usize, total: usize) -> Result<(), Refusal> {
    let mut bit = [0; 8];
    let lent = &mut [
        Read(LOG, &log_bytes(log)),
        size(count),
        size(total),
        room(&mut bit),
    ];
    let number = call(Function::CheckTiling as u8, lent);
    outcome(number, usize::from_le_bytes(bit), ())
}

pub fn element_at(log: &[u32], count: usize, k: usize) -> Result<Element, Refusal> {
    let (mut name, mut role, mut block, mut index) = ([0; 4], [0; 4], [0], [0; 2]);
    let (mut pos, mut width, mut value, mut bit) = ([0; 4], [0; 4], [0; 4], [0; 8]);
    let lent = &mut [
        Read(LOG, &log_bytes(log)),
        size(count),
        size(k),
        room(&mut name),
        room(&mut role),
        room(&mut block),
        room(&mut index),
        room(&mut pos),
        room(&mut width),
        room(&mut value),
        room(&mut bit),
    ];
    let number = call(Function::ElementAt as u8, lent);
    let element = Element {
        name: u32::from_le_bytes(name),
        role: Role::of_word(u32::from_le_bytes(role)),
        block: i8::from_le_bytes(block),
        index: i16::from_le_bytes(index),
        pos: u32::from_le_bytes(pos),
        width: u32::from_le_bytes(width),
        value: u32::from_le_bytes(value),
    };
    outcome(number, usize::from_le_bytes(bit), element)
}

pub fn read_tail(
    frame: &[u8],
    log: &mut [u32],
    place: &mut Place,
    total: usize,
    codec: Codec,
) -> Result<UserBits, Refusal> {
    let (mut pos, mut count) = (place.pos.to_le_bytes(), place.count.to_le_bytes());
    let mut block = place.block.to_le_bytes();
    let (mut start, mut width, mut bit) = ([0; 8], [0; 8], [0; 8]);
    let mut words = log_bytes(log);
    let lent = &mut [
        Read(BYTES, frame),
        Changed(LOG, &mut words),
        room(&mut pos),
        size(place.limit),
        room(&mut block),
        room(&mut count),
        size(total),
        Number(codec.is_eac3().into()),
        room(&mut start),
        room(&mut width),
        room(&mut bit),
    ];
    let number = call(Function::ReadTail as u8, lent);
    set_log(log, &words);
    place.pos = usize::from_le_bytes(pos);
    place.block = i8::from_le_bytes(block);
    place.count = usize::from_le_bytes(count);
    let user = UserBits {
        start: usize::from_le_bytes(start),
        width: usize::from_le_bytes(width),
    };
    outcome(number, usize::from_le_bytes(bit), user)
}
