//! The calls of what reads, walks and allocates slots.

use super::elements::{log_bytes, set_log, signed, Function, LOG};
use super::{call, room, size, BYTES, ROOM};
use super::{Changed, Number, Read};
use crate::alloc::{Bin, Channel, Plain, Tables, BINS};
use crate::blocks::{Block, Slots, State, SLOTS};
use crate::exponents::{Ask, ExpSet};
use crate::refusal::{outcome, Refusal};
use crate::syntax::Place;
use crate::walks::Groups;

/// Words of 16 bits, which pass as a pointer and their number.
const HALVES: u8 = 4;

/// Such words as they stand in memory on x86-64.
fn half_bytes(halves: &[u16]) -> Vec<u8> {
    halves.iter().flat_map(|half| half.to_le_bytes()).collect()
}

pub fn allocate(channel: &Channel, tables: &Tables) -> Result<[u8; BINS], Refusal> {
    let plain = Plain::of(channel);
    let (mut bap, mut bit) = ([0; BINS], [0; 8]);
    let lent = &mut [
        Read(ROOM, channel.exponents),
        size(channel.start.0),
        size(channel.end.0),
        Read(ROOM, &plain.codes),
        Number(plain.has_leak.into()),
        Number(plain.cplfleak.into()),
        Number(plain.cplsleak.into()),
        Number(plain.delta.count.into()),
        Read(ROOM, &plain.delta.offset),
        Read(ROOM, &plain.delta.len),
        Read(ROOM, &plain.delta.ba),
        Number(plain.high.into()),
        Read(HALVES, &half_bytes(tables.hearing)),
        Read(BYTES, tables.log_add),
        room(&mut bap),
        room(&mut bit),
    ];
    let number = call(Function::Allocate as u8, lent);
    outcome(number, usize::from_le_bytes(bit), bap)
}

pub fn read_exponents(
    frame: &[u8],
    log: &mut [u32],
    place: &mut Place,
    ask: &Ask,
    set: &mut ExpSet,
) -> Result<(), Refusal> {
    let (mut pos, mut count) = (place.pos.to_le_bytes(), place.count.to_le_bytes());
    let (mut exp_start, mut exp_end, mut bit) = ([0; 8], [0; 8], [0; 8]);
    let mut words = log_bytes(log);
    let lent = &mut [
        Read(BYTES, frame),
        Changed(LOG, &mut words),
        room(&mut pos),
        size(place.limit),
        signed(place.block),
        room(&mut count),
        Number(ask.slot.into()),
        Number(ask.strategy.into()),
        size(ask.start.0),
        size(ask.end.0),
        room(&mut set.exp),
        room(&mut exp_start),
        room(&mut exp_end),
        room(&mut bit),
    ];
    let number = call(Function::ReadExponents as u8, lent);
    set_log(log, &words);
    place.pos = usize::from_le_bytes(pos);
    place.count = usize::from_le_bytes(count);
    set.start = Bin(usize::from_le_bytes(exp_start));
    set.end = Bin(usize::from_le_bytes(exp_end));
    outcome(number, usize::from_le_bytes(bit), ())
}

pub fn conventional(
    frame: &[u8],
    pos: &mut usize,
    limit: usize,
    bap: &[u8; BINS],
    start: Bin,
    end: Bin,
    groups: &mut Groups,
) -> Result<(), Refusal> {
    let (mut at, mut bit) = (pos.to_le_bytes(), [0; 8]);
    let (mut g1, mut g2, mut g4) = ([groups.g1], [groups.g2], [groups.g4]);
    let lent = &mut [
        Read(BYTES, frame),
        room(&mut at),
        size(limit),
        Read(ROOM, bap),
        size(start.0),
        size(end.0),
        room(&mut g1),
        room(&mut g2),
        room(&mut g4),
        room(&mut bit),
    ];
    let number = call(Function::Conventional as u8, lent);
    *pos = usize::from_le_bytes(at);
    [groups.g1, groups.g2, groups.g4] = [g1[0], g2[0], g4[0]];
    outcome(number, usize::from_le_bytes(bit), ())
}

pub fn aht(
    frame: &[u8],
    pos: &mut usize,
    limit: usize,
    hebap: &[u8; BINS],
    start: Bin,
    end: Bin,
) -> Result<usize, Refusal> {
    let mut at = pos.to_le_bytes();
    let (mut tags, mut bit) = ([0; 8], [0; 8]);
    let lent = &mut [
        Read(BYTES, frame),
        room(&mut at),
        size(limit),
        Read(ROOM, hebap),
        size(start.0),
        size(end.0),
        room(&mut tags),
        room(&mut bit),
    ];
    let number = call(Function::Aht as u8, lent);
    *pos = usize::from_le_bytes(at);
    outcome(
        number,
        usize::from_le_bytes(bit),
        usize::from_le_bytes(tags),
    )
}

pub fn delta_code(state: &mut State, slot: usize, code: u32, block0: bool) -> Result<(), Refusal> {
    let (mut bytes, mut bit) = (state.bytes(), [0; 8]);
    let lent = &mut [
        room(&mut bytes),
        size(slot),
        Number(code.into()),
        Number(block0.into()),
        room(&mut bit),
    ];
    let number = call(Function::DeltaCode as u8, lent);
    *state = State::of_bytes(&bytes);
    outcome(number, usize::from_le_bytes(bit), ())
}

pub fn read_delta(
    frame: &[u8],
    log: &mut [u32],
    place: &mut Place,
    state: &mut State,
    slot: usize,
) -> Result<(), Refusal> {
    let (mut pos, mut count) = (place.pos.to_le_bytes(), place.count.to_le_bytes());
    let (mut bytes, mut bit) = (state.bytes(), [0; 8]);
    let mut words = log_bytes(log);
    let lent = &mut [
        Read(BYTES, frame),
        Changed(LOG, &mut words),
        room(&mut pos),
        size(place.limit),
        signed(place.block),
        room(&mut count),
        room(&mut bytes),
        size(slot),
        room(&mut bit),
    ];
    let number = call(Function::ReadDelta as u8, lent);
    set_log(log, &words);
    place.pos = usize::from_le_bytes(pos);
    place.count = usize::from_le_bytes(count);
    *state = State::of_bytes(&bytes);
    outcome(number, usize::from_le_bytes(bit), ())
}

pub fn allocate_block(
    state: &State,
    fscod: u8,
    slots: &Slots,
    tables: &Tables,
    pointers: &mut Block,
) -> Result<(), Refusal> {
    // A `usize` has eight bytes on x86-64, low byte first.
    let ranges: Vec<u8> = slots
        .ranges
        .as_flattened()
        .iter()
        .flat_map(|bin| (*bin as u64).to_le_bytes())
        .collect();
    let mut bit = [0; 8];
    let lent = &mut [
        Read(ROOM, &state.bytes()),
        Number(fscod.into()),
        Read(ROOM, &slots.present.map(u8::from)),
        Read(ROOM, &slots.high.map(u8::from)),
        Read(ROOM, slots.exponents.as_flattened()),
        Read(ROOM, &ranges),
        Read(HALVES, &half_bytes(tables.hearing)),
        Read(BYTES, tables.log_add),
        room(pointers.as_flattened_mut()),
        room(&mut bit),
    ];
    let number = call(Function::AllocateBlock as u8, lent);
    outcome(number, usize::from_le_bytes(bit), ())
}

pub fn allocate_none(state: &State, fscod: u8, tables: &Tables) -> Result<(), Refusal> {
    let mut pointers = [[0; BINS]; SLOTS];
    allocate_block(state, fscod, &Slots::NONE, tables, &mut pointers)
}
