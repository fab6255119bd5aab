//! The Rust's allocation of a block.

use super::cursor::told;
use super::reading::alloc_state;
use super::{quiet, Asked};
use crate::call::{Asking, Block};
use crate::rule::block::is_zeros_past_the_bins;
use oracle::blocks::{allocate_block, ExpSet, SlotAlloc};
use oracle::error::Result;
use zelamodurk::alloc::{Bin, Pointers, BINS};
use zelamodurk::blocks::SLOTS;

/// What the Rust does with a block. It answers the bins below each range's end; those after them are 0, as
/// are those of a slot that is not there.
pub fn ask(given: &Block) -> Asked {
    let slots = given
        .slots
        .each_ref()
        .map(|slot| Some(near(given, slot.as_ref()?)));
    let mut after = vec![0; SLOTS * BINS];
    let done = found(given, &slots).map(|found| {
        for (room, bap) in after.chunks_mut(BINS).zip(found?) {
            room[..bap.len()].copy_from_slice(&bap);
        }
        Ok(0)
    });
    let mut asked = told(done, 0);
    asked.answer.after = after;
    asked
}

/// What the Rust finds for slots, or none where it panics.
fn found(given: &Block, slots: &[Option<Asking>; SLOTS]) -> Option<Result<[Vec<u8>; SLOTS]>> {
    let state = alloc_state(&given.state);
    let there = || (0..SLOTS).filter_map(|n| Some((n, slots[n].as_ref()?)));
    let sets: Vec<ExpSet> = there().map(|(_, asking)| set(asking)).collect();
    let asked: Vec<SlotAlloc> = there().zip(&sets).map(one).collect();
    quiet::caught(|| allocate_block(&state, given.fscod.into(), &asked))
}

/// How many pointers the Rust answers for each slot; none where it panics or refuses.
pub fn lengths(given: &Block) -> Option<[usize; SLOTS]> {
    let found = found(given, &given.slots)?.ok()?;
    Some(found.map(|bap| bap.len()))
}

/// The Rust answers as many zeros as a range says: one that is past the bins is handed over as an empty one
/// at bin 0.
fn near(given: &Block, asking: &Asking) -> Asking {
    let mut near = asking.clone();
    if is_zeros_past_the_bins(given, asking) {
        (near.set.start, near.set.end) = (Bin(0), Bin(0));
        (near.start, near.end) = (0, 0);
    }
    near
}

fn set(asking: &Asking) -> ExpSet {
    ExpSet {
        exp: asking.set.exp.map(i16::from).to_vec(),
        start: asking.set.start.0,
        end: asking.set.end.0,
    }
}

fn one<'a>(((slot, asking), exps): ((usize, &Asking), &'a ExpSet)) -> SlotAlloc<'a> {
    SlotAlloc {
        slot,
        exps,
        start: asking.start,
        end: asking.end,
        high_efficiency: asking.pointers == Pointers::Hebap,
    }
}
