//! A channel and a block's state that are taken once fit tables are lent.

use ddpmeta_core::alloc::{Channel, Params};
use ddpmeta_core::blocks::{AllocState, ExpSet, SlotAlloc};

/// A state whose offsets are not all 0.
pub fn state() -> AllocState {
    AllocState {
        bai: Some([0; 5]),
        csnroffst: Some(20),
        ..AllocState::default()
    }
}

/// Its parameters.
pub fn params() -> Params {
    state().params(0).unwrap()
}

/// A channel of the bins below `end`.
pub fn channel(end: usize) -> Channel<'static> {
    Channel {
        exp: &[0; 256],
        start: 0,
        end,
        fgain: 128,
        snroffset: 0,
        leak: None,
        delta: &[],
    }
}

/// The bins of a range in slot 0.
pub fn slot(exps: &ExpSet, (start, end): (usize, usize)) -> SlotAlloc<'_> {
    SlotAlloc {
        slot: 0,
        exps,
        start,
        end,
        high_efficiency: false,
    }
}

/// Exponents that cover every bin.
pub fn exponents() -> ExpSet {
    ExpSet {
        exp: vec![0; 256],
        start: 0,
        end: 256,
    }
}

/// Document 01's bap by address.
pub fn bap() -> [u8; 64] {
    let runs = [1, 5, 2, 3, 2, 2, 4, 4, 4, 4, 4, 4, 4, 4, 8, 9];
    let all: Vec<u8> = (0..)
        .zip(runs)
        .flat_map(|(bap, run)| [bap].repeat(run))
        .collect();
    all.try_into().unwrap()
}
