//! What the core answers, through the safe wrapper, on bytes and words with guards around them.

mod frame;
mod slots;

use crate::answers::Answer;
use crate::call::{Allocation, Call, Standing};
use std::hint::black_box;
use zelamodurk::syntax::{self, Place};
use zelamodurk::{alloc, bits, crc, Refusal};

/// How many guards stand before and after what is lent.
const GUARD: usize = 16;

/// A copy of bytes or words with guards on either side.
struct Room<T> {
    all: Vec<T>,
    guard: T,
}

impl<T: Copy + PartialEq + From<u8>> Room<T> {
    fn of(lent: &[T]) -> Self {
        // Another guard from case to case, so that an answer can't lean on it.
        let guard = T::from(0xA5 ^ (lent.len() as u8).wrapping_mul(0x3B));
        let mut all = vec![guard; GUARD];
        all.extend_from_slice(lent);
        all.resize(lent.len() + 2 * GUARD, guard);
        Room { all, guard }
    }

    fn lent(&self) -> &[T] {
        &self.all[GUARD..self.all.len() - GUARD]
    }

    fn lent_mut(&mut self) -> &mut [T] {
        let end = self.all.len() - GUARD;
        &mut self.all[GUARD..end]
    }

    /// What was lent as it is now, if no guard was touched.
    fn now(&self) -> Result<&[T], String> {
        let all = black_box(&self.all);
        let kept = |part: &[T]| part.iter().all(|guard| *guard == self.guard);
        if kept(&all[..GUARD]) && kept(&all[all.len() - GUARD..]) {
            return Ok(&all[GUARD..all.len() - GUARD]);
        }
        Err("something outside what was lent was written".to_string())
    }

    /// Nothing was written at all.
    fn untouched(&self, lent: &[T]) -> Result<(), String> {
        if self.now()? == lent {
            return Ok(());
        }
        Err("what was lent for reading was written".to_string())
    }
}

/// What the core answers; an error where it wrote what it may not.
pub fn answer(call: &Call) -> Result<Answer, String> {
    match call {
        Call::Get { bytes, pos, n } => {
            let room = Room::of(bytes);
            let got = bits::get(room.lent(), *pos, *n);
            room.untouched(bytes)?;
            Ok(told(got))
        }
        Call::Set {
            bytes,
            pos,
            n,
            value,
        } => {
            let mut room = Room::of(bytes);
            let done = bits::set(room.lent_mut(), *pos, *n, *value);
            let mut answer = told(done.map(|()| 0));
            answer.after = room.now()?.to_vec();
            Ok(answer)
        }
        Call::RangeEq { x, a, y, b, n } => {
            let (left, right) = (Room::of(x), Room::of(y));
            let is = bits::range_eq(left.lent(), *a, right.lent(), *b, *n);
            left.untouched(x)?;
            right.untouched(y)?;
            Ok(told(is.map(u32::from)))
        }
        Call::RangeZero { x, a, n } => {
            let room = Room::of(x);
            let is = bits::range_zero(room.lent(), *a, *n);
            room.untouched(x)?;
            Ok(told(is.map(u32::from)))
        }
        _ => crc_answer(call),
    }
}

/// What the functions of crc answer, and those of alloc, syntax and frame.
fn crc_answer(call: &Call) -> Result<Answer, String> {
    match call {
        Call::Crc16 { init, bytes } => {
            let room = Room::of(bytes);
            let value = crc::crc16(*init, room.lent());
            room.untouched(bytes)?;
            Ok(told(Ok(value.into())))
        }
        Call::Zeros { init, n } => Ok(told(Ok(crc::zeros(*init, *n).into()))),
        Call::Allocate(given) => allocated(given),
        _ => syntax_answer(call),
    }
}

/// What the functions of syntax answer.
fn syntax_answer(call: &Call) -> Result<Answer, String> {
    match call {
        Call::ReadRaw {
            frame,
            place,
            width,
        } => {
            let (room, mut place) = (Room::of(frame), *place);
            let mut answer = told(syntax::read_raw(
                room.lent(),
                &mut place.pos,
                place.limit,
                *width,
            ));
            room.untouched(frame)?;
            answer.place = Some(place);
            Ok(answer)
        }
        Call::CheckTiling { log, count, total } => {
            let room = Room::of(log);
            let tiled = syntax::check_tiling(room.lent(), *count, *total);
            room.untouched(log)?;
            Ok(told(tiled.map(|()| 0)))
        }
        Call::ElementAt { log, count, k } => {
            let room = Room::of(log);
            let found = syntax::element_at(room.lent(), *count, *k);
            room.untouched(log)?;
            let mut answer = told(found.map(|_| 0));
            answer.element = found.ok();
            Ok(answer)
        }
        _ => logging_answer(call),
    }
}

/// What those of them that may log answer.
fn logging_answer(call: &Call) -> Result<Answer, String> {
    match call {
        Call::ReadElement { from, ask } => logged(from, |frame, log, place| {
            syntax::read_element(frame, log, place, ask)
        }),
        Call::Span {
            from,
            name,
            role,
            width,
        } => logged(from, |frame, log, place| {
            syntax::span(frame, log, place, *name, *role, *width).map(|()| 0)
        }),
        Call::CloseSpan {
            from,
            name,
            role,
            start,
        } => logged(from, |frame, log, place| {
            syntax::close_span(frame, log, place, *name, *role, *start).map(|()| 0)
        }),
        _ => frame::answer(call),
    }
}

/// A call that may log, from where the cursor stands.
fn logged(
    from: &Standing,
    call: impl FnOnce(&[u8], &mut [u32], &mut Place) -> Result<u32, Refusal>,
) -> Result<Answer, String> {
    let (frame, mut log) = (Room::of(&from.frame), Room::of(&from.log));
    let mut place = from.place;
    let mut answer = told(call(frame.lent(), log.lent_mut(), &mut place));
    frame.untouched(&from.frame)?;
    answer.place = Some(place);
    answer.log = log.now()?.to_vec();
    Ok(answer)
}

/// An allocation, with its tables lent. Where it is refused there are no pointers: the wrapper leaves the
/// zeros out.
fn allocated(given: &Allocation) -> Result<Answer, String> {
    let (hearing, log_add) = (Room::of(&given.hearing), Room::of(&given.log_add));
    let tables = alloc::Tables {
        hearing: hearing.lent(),
        log_add: log_add.lent(),
    };
    let found = alloc::allocate(&given.channel(), &tables);
    hearing.untouched(&given.hearing)?;
    log_add.untouched(&given.log_add)?;
    let mut answer = told(found.map(|_| 0));
    answer.after = found.unwrap_or([0; alloc::BINS]).to_vec();
    Ok(answer)
}

fn told(outcome: Result<u32, Refusal>) -> Answer {
    match outcome {
        Ok(value) => Answer::taken(value, Vec::new()),
        Err(refusal) => Answer {
            number: refusal.why.number(),
            bit: refusal.bit,
            ..Answer::default()
        },
    }
}
