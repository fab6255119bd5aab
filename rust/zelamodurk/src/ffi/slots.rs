//! The boundary of what reads, walks and allocates slots. Each call is safe as the module above says;
//! each array has the length that the header says. A state is laid out as the header's; the core changes
//! its segments alone, so that what is a `bool` stays one.

use crate::alloc::{Bin, Channel, Plain, Tables, BINS};
use crate::blocks::{Block, Slots, State};
use crate::exponents::{Ask, ExpSet};
use crate::refusal::{outcome, Refusal};
use crate::syntax::Place;
use crate::walks::Groups;
use std::mem::MaybeUninit;

extern "C" {
    fn zela_allocate(
        exponents: *const u8,
        start: usize,
        end: usize,
        codes: *const u8,
        has_leak: bool,
        cplfleak: u8,
        cplsleak: u8,
        segments: u8,
        offset: *const u8,
        length: *const u8,
        ba: *const u8,
        high: bool,
        hearing: *const u16,
        hearing_len: usize,
        log_add: *const u8,
        log_add_len: usize,
        bap: *mut u8,
        bit: *mut usize,
    ) -> u8;
    fn zela_read_exponents(
        frame: *const u8,
        frame_len: usize,
        log: *mut u32,
        log_words: usize,
        pos: *mut usize,
        limit: usize,
        block: i8,
        count: *mut usize,
        slot: u8,
        strategy: u8,
        start: usize,
        end: usize,
        exponents: *mut u8,
        exp_start: *mut usize,
        exp_end: *mut usize,
        bit: *mut usize,
    ) -> u8;
    fn zela_conventional(
        frame: *const u8,
        frame_len: usize,
        pos: *mut usize,
        limit: usize,
        bap: *const u8,
        start: usize,
        end: usize,
        g1: *mut u8,
        g2: *mut u8,
        g4: *mut u8,
        bit: *mut usize,
    ) -> u8;
    fn zela_aht(
        frame: *const u8,
        frame_len: usize,
        pos: *mut usize,
        limit: usize,
        hebap: *const u8,
        start: usize,
        end: usize,
        tags: *mut usize,
        bit: *mut usize,
    ) -> u8;
    fn zela_delta_code(
        state: *mut State,
        slot: usize,
        code: u32,
        block0: bool,
        bit: *mut usize,
    ) -> u8;
    fn zela_read_delta(
        frame: *const u8,
        frame_len: usize,
        log: *mut u32,
        log_words: usize,
        pos: *mut usize,
        limit: usize,
        block: i8,
        count: *mut usize,
        state: *mut State,
        slot: usize,
        bit: *mut usize,
    ) -> u8;
    fn zela_allocate_block(
        state: *const State,
        fscod: u8,
        present: *const bool,
        high: *const bool,
        exponents: *const u8,
        ranges: *const usize,
        hearing: *const u16,
        hearing_len: usize,
        log_add: *const u8,
        log_add_len: usize,
        bap: *mut u8,
        bit: *mut usize,
    ) -> u8;
}

#[inline]
pub fn allocate(channel: &Channel, tables: &Tables) -> Result<[u8; BINS], Refusal> {
    let plain = Plain::of(channel);
    let (mut bap, mut bit) = ([0; BINS], 0);
    // SAFETY: as the module says.
    let number = unsafe {
        zela_allocate(
            channel.exponents.as_ptr(),
            channel.start.0,
            channel.end.0,
            plain.codes.as_ptr(),
            plain.has_leak,
            plain.cplfleak,
            plain.cplsleak,
            plain.delta.count,
            plain.delta.offset.as_ptr(),
            plain.delta.len.as_ptr(),
            plain.delta.ba.as_ptr(),
            plain.high,
            tables.hearing.as_ptr(),
            tables.hearing.len(),
            tables.log_add.as_ptr(),
            tables.log_add.len(),
            bap.as_mut_ptr(),
            &mut bit,
        )
    };
    outcome(number, bit, bap)
}

#[inline]
pub fn read_exponents(
    frame: &[u8],
    log: &mut [u32],
    place: &mut Place,
    ask: &Ask,
    set: &mut ExpSet,
) -> Result<(), Refusal> {
    let mut bit = 0;
    // SAFETY: as the module says.
    let number = unsafe {
        zela_read_exponents(
            frame.as_ptr(),
            frame.len(),
            log.as_mut_ptr(),
            log.len(),
            &mut place.pos,
            place.limit,
            place.block,
            &mut place.count,
            ask.slot,
            ask.strategy,
            ask.start.0,
            ask.end.0,
            set.exp.as_mut_ptr(),
            &mut set.start.0,
            &mut set.end.0,
            &mut bit,
        )
    };
    outcome(number, bit, ())
}

#[inline]
pub fn conventional(
    frame: &[u8],
    pos: &mut usize,
    limit: usize,
    bap: &[u8; BINS],
    start: Bin,
    end: Bin,
    groups: &mut Groups,
) -> Result<(), Refusal> {
    let mut bit = 0;
    // SAFETY: as the module says.
    let number = unsafe {
        zela_conventional(
            frame.as_ptr(),
            frame.len(),
            pos,
            limit,
            bap.as_ptr(),
            start.0,
            end.0,
            &mut groups.g1,
            &mut groups.g2,
            &mut groups.g4,
            &mut bit,
        )
    };
    outcome(number, bit, ())
}

#[inline]
pub fn aht(
    frame: &[u8],
    pos: &mut usize,
    limit: usize,
    hebap: &[u8; BINS],
    start: Bin,
    end: Bin,
) -> Result<usize, Refusal> {
    let (mut tags, mut bit) = (0, 0);
    // SAFETY: as the module says.
    let number = unsafe {
        zela_aht(
            frame.as_ptr(),
            frame.len(),
            pos,
            limit,
            hebap.as_ptr(),
            start.0,
            end.0,
            &mut tags,
            &mut bit,
        )
    };
    outcome(number, bit, tags)
}

#[inline]
pub fn delta_code(state: &mut State, slot: usize, code: u32, block0: bool) -> Result<(), Refusal> {
    let mut bit = 0;
    // SAFETY: as the module says.
    let number = unsafe { zela_delta_code(state, slot, code, block0, &mut bit) };
    outcome(number, bit, ())
}

#[inline]
pub fn read_delta(
    frame: &[u8],
    log: &mut [u32],
    place: &mut Place,
    state: &mut State,
    slot: usize,
) -> Result<(), Refusal> {
    let mut bit = 0;
    // SAFETY: as the module says.
    let number = unsafe {
        zela_read_delta(
            frame.as_ptr(),
            frame.len(),
            log.as_mut_ptr(),
            log.len(),
            &mut place.pos,
            place.limit,
            place.block,
            &mut place.count,
            state,
            slot,
            &mut bit,
        )
    };
    outcome(number, bit, ())
}

#[inline]
pub fn allocate_block(
    state: &State,
    fscod: u8,
    slots: &Slots,
    tables: &Tables,
    pointers: &mut Block,
) -> Result<(), Refusal> {
    // SAFETY: it is a block.
    unsafe { allocated(state, fscod, slots, tables, pointers) }
}

#[inline]
pub fn allocate_none(state: &State, fscod: u8, tables: &Tables) -> Result<(), Refusal> {
    static NONE: Slots = Slots::NONE;
    // Not filled twice: the core writes zeros to it, and nobody looks at them.
    let mut pointers = MaybeUninit::uninit();
    // SAFETY: it has room for a block.
    unsafe { allocated(state, fscod, &NONE, tables, pointers.as_mut_ptr()) }
}

/// # Safety
/// `pointers` has room for a block, which is written.
#[inline]
unsafe fn allocated(
    state: &State,
    fscod: u8,
    slots: &Slots,
    tables: &Tables,
    pointers: *mut Block,
) -> Result<(), Refusal> {
    let mut bit = 0;
    // SAFETY: as the module says.
    let number = unsafe {
        zela_allocate_block(
            state,
            fscod,
            slots.present.as_ptr(),
            slots.high.as_ptr(),
            slots.exponents.as_flattened().as_ptr(),
            slots.ranges.as_flattened().as_ptr(),
            tables.hearing.as_ptr(),
            tables.hearing.len(),
            tables.log_add.as_ptr(),
            tables.log_add.len(),
            pointers.cast(),
            &mut bit,
        )
    };
    outcome(number, bit, ())
}
