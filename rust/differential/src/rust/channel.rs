//! The Rust's allocation of one channel. It takes decoded codes: they are decoded by its own tables, as
//! its allocation of a block decodes them.

use super::{quiet, Asked};
use crate::answers::Answer;
use crate::call::Allocation;
use oracle::alloc::{allocate, Channel, DeltaSeg};
use oracle::blocks::AllocState;
use oracle::tables::{BAP, FAST_GAIN, HEARING, HEBAP, LOG_ADD};
use zelamodurk::alloc::{Pointers, Segment, BINS};

/// What the Rust does with an allocation. It answers the bins below the range's end; those after them
/// are 0.
pub fn ask(given: &Allocation) -> Asked {
    let found = pointers_by(given, &given.exponents.map(i16::from));
    let panicked = found.is_none();
    let mut after = found.unwrap_or_default();
    after.resize(after.len().max(BINS), 0);
    Asked {
        panicked,
        answer: Answer::taken(0, after),
        last: None,
    }
}

fn pointers(given: &Allocation, exp: &[i16]) -> Vec<u8> {
    let [bai @ .., fgaincod, csnroffst, fsnroffst, fscod] = given.codes.bytes();
    let state = AllocState {
        bai: Some(bai),
        ..AllocState::default()
    };
    let params = state
        .params(fscod.into())
        .expect("parameters that are sent");
    let leak = |code: u8| (i32::from(code) << 8) + 768;
    let channel = Channel {
        exp,
        start: given.start,
        end: given.end,
        fgain: i32::from(FAST_GAIN[usize::from(fgaincod)]),
        snroffset: (((i32::from(csnroffst) - 15) << 4) + i32::from(fsnroffst)) << 2,
        leak: given.leak.map(|(fast, slow)| (leak(fast), leak(slow))),
        delta: &given.delta.iter().map(segment).collect::<Vec<_>>(),
    };
    let table = match given.pointers {
        Pointers::Bap => &BAP,
        Pointers::Hebap => &HEBAP,
    };
    allocate(&channel, &params, table)
}

fn segment(segment: &Segment) -> DeltaSeg {
    DeltaSeg {
        offset: segment.offset,
        len: segment.len,
        ba: segment.ba,
    }
}

/// The Rust's pointers with other exponents, which it takes as numbers of 16 bits and in any number; none
/// where it panics.
pub fn pointers_by(given: &Allocation, exp: &[i16]) -> Option<Vec<u8>> {
    quiet::caught(|| pointers(given, exp))
}

/// The Rust's tables as they are lent, HEARING and LOG_ADD.
pub fn tables() -> (Vec<u16>, Vec<u8>) {
    let hearing = HEARING.iter().map(|entry| *entry as u16).collect();
    let log_add = LOG_ADD.iter().map(|entry| *entry as u8).collect();
    (hearing, log_add)
}
