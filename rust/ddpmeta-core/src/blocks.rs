//! Exponents, side information, block allocation and mantissa walks.

use crate::alloc::{exponent, first, DeltaSeg, Params};
use crate::error::{refused, unfit, unsupported, Result};
use crate::lent;
use crate::syntax::{Cursor, WORDS};
use zelamodurk::alloc::{Bin, Delta, Pointers, BINS, SEGMENTS};
use zelamodurk::blocks::{self as core, Slot, Slots, State};
use zelamodurk::exponents::{self as sets, Ask};
use zelamodurk::{aht as ahts, walks, Refusal, Why};

/// The slot of coupling; 0 to 4 are the full bandwidth channels.
pub const CPL: usize = 5;
/// The slot of LFE.
pub const LFE: usize = 6;
/// How many slots there are.
pub const SLOTS: usize = 7;

/// The most elements of an exponent set, and of a slot's segments.
const SET: usize = 1 + BINS / 3;
const DELTA: usize = 1 + 3 * SEGMENTS;

/// The exponents of a slot, and the range of bins that they were read for.
#[derive(Clone, Debug, Default)]
pub struct ExpSet {
    /// The exponents by bin.
    pub exp: Vec<i16>,
    /// The first bin of the range.
    pub start: usize,
    /// The bin after the range.
    pub end: usize,
}

/// Reads a slot's exponents.
///
/// # Errors
/// In this order: with 6 where the slot is above 6, the strategy not 1 to 3, or the range empty or past bin
/// 256; then 1, 7 and 8 element by element; 9 where the set ends before the range.
pub fn read_exponents(
    cur: &mut Cursor<'_>,
    slot: usize,
    strategy: u8,
    start: usize,
    end: usize,
) -> Result<ExpSet> {
    let ask = Ask {
        slot: u8::try_from(slot).unwrap_or(u8::MAX),
        strategy,
        start: Bin(start),
        end: Bin(end),
    };
    let (mut log, mut set) = ([0; WORDS * SET], sets::ExpSet::default());
    cur.logging("exponents", &mut log, 0, |frame, log, place| {
        sets::read_exponents(frame, log, place, &ask, &mut set)
    })?;
    Ok(ExpSet {
        exp: set.exp.iter().map(|exponent| (*exponent).into()).collect(),
        start: set.start.0,
        end: set.end.0,
    })
}

/// The side information that a frame's blocks carry on.
#[derive(Clone, Debug, Default)]
pub struct AllocState {
    /// sdcycod, fdcycod, sgaincod, dbpbcod and floorcod.
    pub bai: Option<[u8; 5]>,
    /// The coarse SNR offset.
    pub csnroffst: Option<u8>,
    /// The fine SNR offset of each slot.
    pub fsnroffst: [u8; SLOTS],
    /// The fast gain of each slot.
    pub fgaincod: [u8; SLOTS],
    /// The fast and the slow leak of coupling.
    pub cplleak: Option<(u8, u8)>,
    /// The delta segments of each slot.
    pub delta: [Vec<DeltaSeg>; SLOTS],
}

/// Segments in the core's form.
fn delta(segments: &[DeltaSeg]) -> Delta {
    segments.iter().map(|segment| segment.segment()).collect()
}

impl AllocState {
    /// The parameters, decoded.
    ///
    /// # Errors
    /// With 10 where they were not sent, then with 11 where a code is past its table.
    pub fn params(&self, fscod: usize) -> Result<Params> {
        let error = |why| refused("params", unfit(why, 0));
        let codes = self.bai.ok_or_else(|| error(Why::NotSent))?;
        Params::of_codes(codes, fscod).ok_or_else(|| error(Why::CodePastTable))
    }

    /// The core's form.
    fn state(&self) -> State {
        let [sdcycod, fdcycod, sgaincod, dbpbcod, floorcod] = self.bai.unwrap_or_default();
        let (cplfleak, cplsleak) = self.cplleak.unwrap_or_default();
        let mut state = State {
            bai_sent: self.bai.is_some(),
            sdcycod,
            fdcycod,
            sgaincod,
            dbpbcod,
            floorcod,
            csnroffst_sent: self.csnroffst.is_some(),
            csnroffst: self.csnroffst.unwrap_or_default(),
            fsnroffst: self.fsnroffst,
            fgaincod: self.fgaincod,
            cplleak_sent: self.cplleak.is_some(),
            cplfleak,
            cplsleak,
            ..State::default()
        };
        for (to, from) in state.delta.iter_mut().zip(&self.delta) {
            // Most slots have no segments, as the default has none.
            if !from.is_empty() {
                *to = delta(from);
            }
        }
        state
    }

    /// Whether no offset of the slots is in use, so that their pointers are all 0 at once (TS 6.2.2.1).
    fn is_quiet(&self, slots: &[SlotAlloc]) -> bool {
        let unused = |asked: &SlotAlloc| self.fsnroffst.get(asked.slot) == Some(&0);
        self.csnroffst == Some(0) && slots.iter().all(unused)
    }

    /// Takes over a slot's segments after a call that was not refused.
    fn take(&mut self, slot: usize, state: &State) {
        if let (Some(to), Some(from)) = (self.delta.get_mut(slot), state.delta.get(slot)) {
            to.clear();
            to.extend(from.segments().map(DeltaSeg::of));
        }
    }

    /// Reads a slot's segments.
    ///
    /// # Errors
    /// With 6 where the slot is above 6, then with 1 element by element.
    pub fn read_delta(&mut self, cur: &mut Cursor<'_>, slot: usize) -> Result<()> {
        let (mut log, mut state) = ([0; WORDS * DELTA], State::default());
        cur.logging("delta", &mut log, 0, |frame, log, place| {
            core::read_delta(frame, log, place, &mut state, slot)
        })?;
        self.take(slot, &state);
        Ok(())
    }

    /// A slot's deltbae code: 2 ends its segments, 0 and 1 leave them.
    ///
    /// # Errors
    /// With 6 where the slot is above 6, then with 15 where the code is 0 in block 0, or above 2.
    pub fn delta_code(&mut self, slot: usize, code: u32, block0: bool) -> Result<()> {
        let mut state = State::default();
        if let (Some(to), Some(from)) = (state.delta.get_mut(slot), self.delta.get(slot)) {
            *to = delta(from);
        }
        let before = state.delta.get(slot).copied();
        core::delta_code(&mut state, slot, code, block0).map_err(|e| refused("deltbae", e))?;
        if state.delta.get(slot).copied() != before {
            self.take(slot, &state);
        }
        Ok(())
    }
}

/// What a block asks for a slot.
pub struct SlotAlloc<'a> {
    /// The slot.
    pub slot: usize,
    /// Its exponents.
    pub exps: &'a ExpSet,
    /// The first bin of the range.
    pub start: usize,
    /// The bin after the range.
    pub end: usize,
    /// Whether the pointers are hebap.
    pub high_efficiency: bool,
}

/// What is asked for a slot in the core's form. Where any exponents are asked for, a set is not taken to cover a
/// bin that it has none for.
fn slot_of(asked: &SlotAlloc) -> Slot {
    let exps = asked.exps;
    let covered = match asked.start < asked.end {
        true => exps.end.min(exps.exp.len()),
        false => exps.end,
    };
    Slot {
        covered: (Bin(exps.start), Bin(covered)),
        start: Bin(asked.start),
        end: Bin(asked.end),
        pointers: match asked.high_efficiency {
            true => Pointers::Hebap,
            false => Pointers::Bap,
        },
    }
}

/// Asks for the slots, with the exponents of each.
///
/// # Errors
/// With 6 where a slot is above 6, or asked for twice.
fn ask(asked: &[SlotAlloc<'_>], slots: &mut Slots) -> std::result::Result<(), Refusal> {
    let taken = asked.iter().all(|asked| {
        let exponents = asked.exps.exp.iter().copied().map(exponent);
        slots.ask(asked.slot, &slot_of(asked), exponents)
    });
    match taken {
        true => Ok(()),
        false => Err(unfit(Why::BadArgument, 0)),
    }
}

/// As many of each slot's pointers as the original has. It looks at no start in a quiet block, and has the bins
/// below the start elsewhere.
///
/// # Errors
/// With 6 where there would be too many.
fn answered(
    slots: &[SlotAlloc<'_>],
    pointers: &core::Block,
    quiet: bool,
) -> std::result::Result<[Vec<u8>; SLOTS], Refusal> {
    let mut out: [Vec<u8>; SLOTS] = Default::default();
    for asked in slots {
        let len = match quiet {
            true => asked.end,
            false => asked.end.max(asked.start),
        };
        out[asked.slot] = first(&pointers[asked.slot], len)?;
    }
    Ok(out)
}

/// The pointers of a block's slots; nothing for a slot that was not asked for.
///
/// # Errors
/// In this order: with 6 where a slot is above 6, or asked for twice; then as the core refuses: 21, 11, 10,
/// and slot by slot 12, 10, 6, 8; last with 6 where a slot would have more than 65,536 pointers.
pub fn allocate_block(
    st: &AllocState,
    fscod: usize,
    slots: &[SlotAlloc<'_>],
) -> Result<[Vec<u8>; SLOTS]> {
    let fscod = u8::try_from(fscod).unwrap_or(u8::MAX);
    let allocated = match slots {
        [] => core::allocate_none(&st.state(), fscod, &lent::tables()).map(|()| Default::default()),
        slots => allocated(st, fscod, slots),
    };
    allocated.map_err(|refusal| refused("allocation", refusal))
}

/// The pointers of a block that asks for slots.
fn allocated(
    st: &AllocState,
    fscod: u8,
    slots: &[SlotAlloc<'_>],
) -> std::result::Result<[Vec<u8>; SLOTS], Refusal> {
    let (mut given, mut pointers) = (Slots::NONE, [[0; BINS]; SLOTS]);
    ask(slots, &mut given)?;
    core::allocate_block(&st.state(), fscod, &given, &lent::tables(), &mut pointers)?;
    answered(slots, &pointers, st.is_quiet(slots))
}

/// The open groups of codes 1, 2 and 4 in a block.
#[derive(Default)]
pub struct Groups(walks::Groups);

/// Puts codes into the room that the core takes, which is all 0.
///
/// # Errors
/// With 6 where the range passes the codes.
fn put(
    all: &mut [u8; BINS],
    codes: &[u8],
    end: usize,
    bit: usize,
) -> std::result::Result<(), Refusal> {
    if end > codes.len() {
        return Err(unfit(Why::BadArgument, bit));
    }
    let len = codes.len().min(BINS);
    all[..len].copy_from_slice(&codes[..len]);
    Ok(())
}

/// Walks over the mantissas of the bins from `start` to `end`.
///
/// # Errors
/// With 6 where the range ends before its start, or past the codes or bin 256; then 13 and 1 bin by bin.
pub fn conventional(
    cur: &mut Cursor<'_>,
    bap: &[u8],
    start: usize,
    end: usize,
    g: &mut Groups,
) -> Result<()> {
    let mut all = [0; BINS];
    cur.moving("mantissa", |frame, pos, limit| {
        put(&mut all, bap, end, *pos)?;
        walks::conventional(frame, pos, limit, &all, Bin(start), Bin(end), &mut g.0)
    })
}

/// Walks over one channel's mantissas of all six blocks, and answers how many tags it met.
///
/// # Errors
/// With 6 where the range ends before its start, or past the codes or bin 256; then 1, 14 and 13 where it
/// stands.
pub fn aht(cur: &mut Cursor<'_>, hebap: &[u8], start: usize, end: usize) -> Result<usize> {
    let mut all = [0; BINS];
    cur.moving("aht", |frame, pos, limit| {
        put(&mut all, hebap, end, *pos)?;
        ahts::aht(frame, pos, limit, &all, Bin(start), Bin(end))
    })
}

/// Syntax that a parser does not model.
///
/// # Errors
/// Always.
pub fn refuse<T>(what: &str) -> Result<T> {
    unsupported(what)
}
