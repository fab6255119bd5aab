//! Delta codes and delta segments: every slot, code and number of segments, every limit and every room, and
//! everything that is refused.

use super::{place, spoil, standing};
use crate::answers::expected;
use crate::call::Call;
use crate::cases::HUGE;
use crate::random::Random;
use zelamodurk::alloc::{Delta, SEGMENTS};
use zelamodurk::blocks::{State, SLOTS};

/// How many random frames and rows of calls there are.
const RANDOM: usize = 16_000;
const ROWS: usize = 4_000;
/// The bits of the most segments, and the elements.
const BITS: usize = 3 + 12 * SEGMENTS;
const ELEMENTS: usize = 1 + 3 * SEGMENTS;

/// Hands every case to `visit`.
pub fn all(visit: &mut impl FnMut(&Call)) {
    let mut random = Random::new(33);
    every_code(&mut random, visit);
    every_end(&mut random, visit);
    for _ in 0..RANDOM {
        any(&mut random, visit);
    }
    for _ in 0..ROWS {
        row(&mut random, visit);
    }
}

/// Any segments, also such as no frame holds.
fn segments(random: &mut Random) -> Delta {
    let mut row = || std::array::from_fn(|_| random.bits() as u8);
    let (offset, len, ba) = (row(), row(), row());
    Delta {
        count: random.to(SEGMENTS) as u8,
        offset,
        len,
        ba,
    }
}

/// Any state: a call that changes segments looks at no code.
pub fn any_state(random: &mut Random) -> State {
    let mut slots = || std::array::from_fn(|_| random.bits() as u8);
    let (fsnroffst, fgaincod, codes) = (slots(), slots(), slots());
    let [sdcycod, fdcycod, sgaincod, dbpbcod, floorcod, csnroffst, cplfleak] = codes;
    State {
        bai_sent: random.to(1) == 0,
        sdcycod,
        fdcycod,
        sgaincod,
        dbpbcod,
        floorcod,
        csnroffst_sent: random.to(1) == 0,
        csnroffst,
        fsnroffst,
        fgaincod,
        cplleak_sent: random.to(1) == 0,
        cplfleak,
        cplsleak: random.bits() as u8,
        delta: std::array::from_fn(|_| segments(random)),
    }
}

/// Every slot and around, with every code and around.
fn every_code(random: &mut Random, visit: &mut impl FnMut(&Call)) {
    let codes = [0, 1, 2, 3, 4, 255, 256, 258, 1 << 31, u32::MAX];
    for slot in (0..=9).chain([255, 256, 261]).chain(HUGE) {
        for code in codes {
            for block0 in [false, true] {
                for _ in 0..4 {
                    let state = any_state(random);
                    visit(&Call::delta_code(state, slot, code, block0));
                }
            }
        }
    }
}

/// Segments that end before each bit, and before each element that the log has no room for.
fn every_end(random: &mut Random, visit: &mut impl FnMut(&Call)) {
    for slot in 0..SLOTS {
        let mut frame = random.bytes(BITS.div_ceil(8));
        for nseg in 0..SEGMENTS {
            frame[0] = frame[0] & 0x1F | (nseg as u8) << 5;
            for limit in 0..=BITS {
                let place = place(random, 0, limit);
                let from = standing(random, frame.clone(), ELEMENTS, place);
                visit(&Call::read_delta(from, any_state(random), slot));
            }
            for room in 0..=ELEMENTS {
                let mut place = place(random, 0, 8 * frame.len());
                place.count = random.to(1).min(room);
                let from = standing(random, frame.clone(), room, place);
                visit(&Call::read_delta(from, any_state(random), slot));
            }
        }
    }
}

/// A slot and a place, at times one that is refused.
fn any(random: &mut Random, visit: &mut impl FnMut(&Call)) {
    let frame = random.bytes(20);
    let (short, at) = (random.to(160), random.to(60));
    let limit = random.one(&[160, 160, short]);
    let mut place = place(random, at, limit);
    if random.to(7) == 0 {
        spoil(random, &frame, &mut place);
    }
    let slot = match random.to(15) {
        0 => random.one(&[7, 8, 255, 256, 261, usize::MAX, 1 << 32, (1 << 32) + 5]),
        _ => random.to(SLOTS - 1),
    };
    let some = random.to(ELEMENTS);
    let room = random.one(&[ELEMENTS, some]);
    place.count = match random.to(15) {
        0 => room + 1,
        _ => random.to(room),
    };
    let from = standing(random, frame, room, place);
    visit(&Call::read_delta(from, any_state(random), slot));
}

/// The blocks of a frame: in each a code for a slot, and its segments where the code is 1. The state goes on.
fn row(random: &mut Random, visit: &mut impl FnMut(&Call)) {
    let frame = random.bytes(100);
    let begin = place(random, 0, 800);
    let mut at = standing(random, frame, 100, begin);
    let mut state = State::default();
    for block in 0..6 {
        let (slot, code) = (random.to(SLOTS - 1), random.to(3) as u32);
        let coded = Call::delta_code(state, slot, code, block == 0);
        visit(&coded);
        let Ok(answer) = expected(&coded) else { return };
        state = answer.state.map_or(state, |state| *state);
        if code != 1 {
            continue;
        }
        let read = Call::read_delta(at.lent(), state, slot);
        visit(&read);
        let Ok(answer) = expected(&read) else { return };
        state = answer.state.map_or(state, |state| *state);
        let (place, log) = (answer.place, answer.log);
        at.log = log.into();
        at.place = place.unwrap_or(at.place);
    }
}
