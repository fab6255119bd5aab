//! The sides of the calls that read, walk and allocate slots.

use super::{over, standing, Numbers, Side};
use crate::answers::Answer;
use crate::call::{Asking, Block, Call, Standing, Walk};
use zelamodurk::alloc::{Bin, Pointers, BINS};
use zelamodurk::blocks::{State, SLOTS};
use zelamodurk::exponents::{self, ExpSet};
use zelamodurk::walks::Groups;

/// What such a call is lent and asked. The second bytes are the room for a set's exponents, the codes of a
/// walk, or the state; the first bytes of a block are the exponents of its slots, and LOG_ADD after them.
pub fn lent(call: &Call) -> Side {
    match call {
        Call::ReadExponents { from, ask } => {
            let numbers = [
                ask.slot.into(),
                ask.strategy.into(),
                ask.start.0 as u64,
                ask.end.0 as u64,
            ];
            Side {
                second: vec![0; BINS],
                ..standing(from, numbers)
            }
        }
        Call::Conventional { walk, groups } => {
            let mut side = walked(walk);
            side.numbers
                .extend([groups.g1, groups.g2, groups.g4].map(u64::from));
            side
        }
        Call::Aht(walk) => walked(walk),
        Call::DeltaCode {
            state,
            slot,
            code,
            block0,
        } => Side {
            second: state.bytes().to_vec(),
            ..over(&[], [*slot, *code as usize, usize::from(*block0)])
        },
        Call::ReadDelta { from, state, slot } => Side {
            second: state.bytes().to_vec(),
            ..standing(from, [*slot as u64])
        },
        Call::AllocateBlock(given) => block(given),
        _ => Side::default(),
    }
}

fn walked(walk: &Walk) -> Side {
    let from = Standing::new(&*walk.frame, &[][..], walk.place);
    Side {
        second: walk.codes.to_vec(),
        ..standing(&from, [walk.start as u64, walk.end as u64])
    }
}

/// fscod, and of each slot whether it is there and has hebap, the range of its exponents, and its range.
fn block(given: &Block) -> Side {
    let mut side = Side {
        second: given.state.bytes().to_vec(),
        words: given.hearing.iter().copied().map(u32::from).collect(),
        ..over(&[], [usize::from(given.fscod)])
    };
    for slot in &given.slots {
        let Some(asking) = slot else {
            side.first.extend([0; BINS]);
            side.numbers.extend([0; 6]);
            continue;
        };
        let (set, high) = (&asking.set, asking.pointers == Pointers::Hebap);
        side.first.extend(set.exp);
        side.numbers.extend([1, high.into()]);
        let range = [set.start.0, set.end.0, asking.start, asking.end];
        side.numbers.extend(range.map(|bin| bin as u64));
    }
    side.first.extend(&*given.log_add);
    side
}

/// The first and second bytes that a call leaves.
pub fn left(call: &Call, answer: &Answer) -> (Vec<u8>, Vec<u8>) {
    let Side { first, second, .. } = super::lent(call);
    match (call, &answer.state) {
        (Call::ReadExponents { .. }, _) => (first, answer.after.clone()),
        (Call::DeltaCode { .. } | Call::ReadDelta { .. }, Some(state)) => {
            (first, state.bytes().to_vec())
        }
        (Call::AllocateBlock(given), _) => {
            let pointers = answer.after.iter().chain(&*given.log_add);
            (pointers.copied().collect(), second)
        }
        _ => (answer.after.clone(), second),
    }
}

/// The call of a name with the bytes, words and numbers that it is lent and asked.
pub(super) fn named(
    name: &str,
    (first, second, words): (Vec<u8>, Vec<u8>, Vec<u32>),
    args: &mut Numbers,
) -> Result<Call<'static>, String> {
    Ok(match name {
        "read_exponents" => {
            let from = Standing::new(first, words, args.place()?);
            Call::read_exponents(from, set(args)?)
        }
        "conventional" => {
            let walk = walk(first, second, args)?;
            let [g1, g2, g4] = args.row()?;
            Call::conventional(walk, Groups { g1, g2, g4 })
        }
        "aht" => Call::aht(walk(first, second, args)?),
        "delta_code" => {
            let (slot, code, block0) = (args.next()?, args.next()?, args.next::<u8>()? == 1);
            Call::delta_code(state(second)?, slot, code, block0)
        }
        "read_delta" => {
            let from = Standing::new(first, words, args.place()?);
            Call::read_delta(from, state(second)?, args.next()?)
        }
        "allocate_block" => Call::allocate_block(given((first, second, words), args)?),
        other => return Err(format!("no function is named {other:?}")),
    })
}

fn set(args: &mut Numbers) -> Result<exponents::Ask, String> {
    Ok(exponents::Ask {
        slot: args.next()?,
        strategy: args.next()?,
        start: Bin(args.next()?),
        end: Bin(args.next()?),
    })
}

fn walk(frame: Vec<u8>, codes: Vec<u8>, args: &mut Numbers) -> Result<Walk<'static>, String> {
    Ok(Walk {
        frame: frame.into(),
        place: args.place()?,
        codes: codes.try_into().map_err(|_| "no 256 codes")?,
        start: args.next()?,
        end: args.next()?,
    })
}

fn state(bytes: Vec<u8>) -> Result<State, String> {
    let bytes = bytes.try_into().map_err(|_| "no state")?;
    Ok(State::of_bytes(&bytes))
}

fn given(
    (first, second, words): (Vec<u8>, Vec<u8>, Vec<u32>),
    args: &mut Numbers,
) -> Result<Block<'static>, String> {
    let hearing: Result<Vec<u16>, _> = words.into_iter().map(u16::try_from).collect();
    let fscod = args.next()?;
    let (exponents, log_add) = first
        .split_at_checked(SLOTS * BINS)
        .ok_or("no exponents of seven slots")?;
    let mut slots = [const { None }; SLOTS];
    for (slot, exp) in slots.iter_mut().zip(exponents.as_chunks().0) {
        *slot = asking(*exp, args)?;
    }
    Ok(Block {
        state: state(second)?,
        fscod,
        slots,
        hearing: hearing.map_err(|e| e.to_string())?.into(),
        log_add: log_add.to_vec().into(),
    })
}

/// A slot, and none where it is not there.
fn asking(exp: [u8; BINS], args: &mut Numbers) -> Result<Option<Asking>, String> {
    let [present, high]: [u8; 2] = args.row()?;
    let (start, end) = (Bin(args.next()?), Bin(args.next()?));
    let asking = Asking {
        set: ExpSet { exp, start, end },
        start: args.next()?,
        end: args.next()?,
        pointers: [Pointers::Bap, Pointers::Hebap][usize::from(high == 1)],
    };
    Ok((present == 1).then_some(asking))
}
