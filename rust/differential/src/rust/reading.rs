//! The Rust's exponent sets, walks and delta codes, put where the core's cursor, groups and state stand.

use super::cursor::{moved, told};
use super::{quiet, Asked};
use crate::call::{Call, Standing, Walk};
use oracle::alloc::DeltaSeg;
use oracle::blocks::{self, AllocState};
use oracle::error::Result;
use oracle::syntax::Cursor;
use zelamodurk::alloc::{Delta, Segment, BINS};
use zelamodurk::blocks::State;
use zelamodurk::exponents::Ask;
use zelamodurk::walks::Groups;

/// What the Rust does with such a call, and none for another.
pub fn ask(call: &Call) -> Option<Asked> {
    match call {
        Call::ReadExponents { from, ask } => Some(exponents(from, ask)),
        Call::Conventional { walk, groups } => Some(conventional(walk, *groups)),
        Call::Aht(walk) => Some(walked(walk, |cursor| {
            let tags = blocks::aht(cursor, &walk.codes, walk.start, walk.end)?;
            Ok(tags as u32)
        })),
        Call::DeltaCode {
            state,
            slot,
            code,
            block0,
        } => Some(delta_code(state, *slot, *code, *block0)),
        Call::ReadDelta { from, state, slot } => Some(read_delta(from, state, *slot)),
        _ => None,
    }
}

fn exponents(from: &Standing, ask: &Ask) -> Asked {
    let (mut exp, mut range) = (vec![0; BINS], (0, 0));
    let mut asked = moved(from, |cursor| {
        let (start, end) = (ask.start.0, ask.end.0);
        let set = blocks::read_exponents(cursor, ask.slot.into(), ask.strategy, start, end)?;
        exp = set.exp.iter().map(|exponent| *exponent as u8).collect();
        range = (set.start, set.end);
        Ok(0)
    });
    asked.answer.after = exp;
    asked.answer.range = Some(range);
    asked
}

/// A walk logs nothing: the cursor has no log, and keeps the count.
fn walked(walk: &Walk, step: impl FnOnce(&mut Cursor) -> Result<u32>) -> Asked {
    let from = Standing::new(&*walk.frame, &[][..], walk.place);
    moved(&from, step)
}

fn conventional(walk: &Walk, groups: Groups) -> Asked {
    let mut state = groups_of(groups);
    let mut asked = walked(walk, |cursor| {
        blocks::conventional(cursor, &walk.codes, walk.start, walk.end, &mut state)?;
        Ok(0)
    });
    asked.answer.groups = Some(observed(state));
    asked
}

/// The Rust's groups can't be set or looked at: they are brought to a state by a walk.
fn groups_of(groups: Groups) -> blocks::Groups {
    let mut state = blocks::Groups::default();
    for (code, members) in [(1, groups.g1), (2, groups.g2), (4, groups.g4)] {
        for _ in 0..members {
            cost(code, &mut state);
        }
    }
    state
}

/// The bits of one more mantissa of a code.
fn cost(code: u8, state: &mut blocks::Groups) -> usize {
    let mut cursor = Cursor::new(&[0; 2], 16);
    blocks::conventional(&mut cursor, &[code], 0, 1, state).map_or(0, |()| cursor.pos)
}

/// Their state, which is seen by how many mantissas more cost nothing.
fn observed(mut state: blocks::Groups) -> Groups {
    let mut open = |code: u8, members: u8| {
        let free = (0..members).take_while(|_| cost(code, &mut state) == 0);
        (members - free.count() as u8) % members
    };
    Groups {
        g1: open(1, 3),
        g2: open(2, 3),
        g4: open(4, 2),
    }
}

fn delta_code(state: &State, slot: usize, code: u32, block0: bool) -> Asked {
    let mut rusts = alloc_state(state);
    let done = quiet::caught(|| rusts.delta_code(slot, code, block0));
    let asked = told(done.map(|done| done.map(|()| 0)), 0);
    with_state(asked, state, &rusts, (code == 2).then_some(slot))
}

fn read_delta(from: &Standing, state: &State, slot: usize) -> Asked {
    let mut rusts = alloc_state(state);
    let asked = moved(from, |cursor| {
        rusts.read_delta(cursor, slot)?;
        Ok(0)
    });
    with_state(asked, state, &rusts, Some(slot))
}

/// With the state after a call that gives a slot other segments where it is taken. What stands in the arrays
/// after them is 0 then; the Rust has nothing there. The other slots' segments must be as they were.
fn with_state(mut asked: Asked, before: &State, rusts: &AllocState, slot: Option<usize>) -> Asked {
    let mut state = *before;
    let taken = !asked.panicked && asked.answer.number == 0;
    for (n, segments) in rusts.delta.iter().enumerate() {
        let segments: Vec<Segment> = segments.iter().map(ours).collect();
        let as_before = state.delta[n].segments().eq(segments.iter().copied());
        if !as_before || (taken && slot == Some(n)) {
            state.delta[n] = Delta::of(&segments);
        }
    }
    asked.answer.state = Some(Box::new(state));
    asked
}

/// The Rust's form of a state.
pub fn alloc_state(state: &State) -> AllocState {
    AllocState {
        bai: state.bai_sent.then(|| state.bai()),
        csnroffst: state.csnroffst_sent.then_some(state.csnroffst),
        fsnroffst: state.fsnroffst,
        fgaincod: state.fgaincod,
        cplleak: state
            .cplleak_sent
            .then_some((state.cplfleak, state.cplsleak)),
        delta: state
            .delta
            .map(|delta| delta.segments().map(rusts).collect()),
    }
}

fn rusts(segment: Segment) -> DeltaSeg {
    let Segment { offset, len, ba } = segment;
    DeltaSeg { offset, len, ba }
}

fn ours(segment: &DeltaSeg) -> Segment {
    let DeltaSeg { offset, len, ba } = *segment;
    Segment { offset, len, ba }
}
