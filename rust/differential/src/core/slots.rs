//! What the core answers that reads, walks and allocates slots. Room that it fills holds other numbers
//! before, so that it shows where it is not written.

use super::{logged, told, Room};
use crate::answers::Answer;
use crate::call::{Block, Call, Walk};
use zelamodurk::alloc::{Bin, Tables, BINS};
use zelamodurk::blocks::SLOTS;
use zelamodurk::exponents::ExpSet;
use zelamodurk::{aht, blocks, exponents, walks, Refusal};

/// What stands in room before.
const STALE: u8 = 0xA5;

/// What the core answers; an error where it wrote what it may not.
pub fn answer(call: &Call) -> Result<Answer, String> {
    match call {
        Call::ReadExponents { from, ask } => {
            let mut set = ExpSet {
                exp: [STALE; BINS],
                start: Bin(usize::MAX),
                end: Bin(usize::MAX),
            };
            let mut answer = logged(from, |frame, log, place| {
                exponents::read_exponents(frame, log, place, ask, &mut set).map(|()| 0)
            })?;
            answer.after = set.exp.to_vec();
            answer.range = Some((set.start.0, set.end.0));
            Ok(answer)
        }
        Call::Conventional { walk, groups } => {
            let (mut groups, (start, end)) = (*groups, (Bin(walk.start), Bin(walk.end)));
            let limit = walk.place.limit;
            let mut answer = walked(walk, |frame, pos, bap| {
                walks::conventional(frame, pos, limit, bap, start, end, &mut groups).map(|()| 0)
            })?;
            answer.groups = Some(groups);
            Ok(answer)
        }
        Call::Aht(walk) => walked(walk, |frame, pos, hebap| {
            let (limit, start, end) = (walk.place.limit, Bin(walk.start), Bin(walk.end));
            let tags = aht::aht(frame, pos, limit, hebap, start, end);
            tags.map(|tags| tags as u32)
        }),
        _ => side_answer(call),
    }
}

/// What the functions of blocks answer.
fn side_answer(call: &Call) -> Result<Answer, String> {
    match call {
        Call::DeltaCode {
            state,
            slot,
            code,
            block0,
        } => {
            let mut state = state.clone();
            let done = blocks::delta_code(&mut state, *slot, *code, *block0);
            let mut answer = told(done.map(|()| 0));
            answer.state = Some(state);
            Ok(answer)
        }
        Call::ReadDelta { from, state, slot } => {
            let mut state = state.clone();
            let mut answer = logged(from, |frame, log, place| {
                blocks::read_delta(frame, log, place, &mut state, *slot).map(|()| 0)
            })?;
            answer.state = Some(state);
            Ok(answer)
        }
        Call::AllocateBlock(given) => allocated(given),
        _ => Err("nobody answers this call".to_string()),
    }
}

/// A walk, with its codes and its frame lent.
fn walked(
    walk: &Walk,
    call: impl FnOnce(&[u8], &mut usize, &[u8; BINS]) -> Result<u32, Refusal>,
) -> Result<Answer, String> {
    let (frame, codes) = (Room::of(&walk.frame), Room::of(&walk.codes));
    let lent: &[u8; BINS] = codes.lent().try_into().map_err(|_| "no 256 codes")?;
    let mut place = walk.place;
    let mut answer = told(call(frame.lent(), &mut place.pos, lent));
    frame.untouched(&walk.frame)?;
    codes.untouched(&walk.codes)?;
    answer.place = Some(place);
    Ok(answer)
}

fn allocated(given: &Block) -> Result<Answer, String> {
    let (hearing, log_add) = (Room::of(&given.hearing), Room::of(&given.log_add));
    let tables = Tables {
        hearing: hearing.lent(),
        log_add: log_add.lent(),
    };
    let mut pointers = [[STALE; BINS]; SLOTS];
    let done = blocks::allocate_block(
        &given.state,
        given.fscod,
        &given.slots(),
        &tables,
        &mut pointers,
    );
    hearing.untouched(&given.hearing)?;
    log_add.untouched(&given.log_add)?;
    let mut answer = told(done.map(|()| 0));
    answer.after = pointers.as_flattened().to_vec();
    Ok(answer)
}
