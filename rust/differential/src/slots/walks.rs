//! Conventional walks: every code from every state of the groups up to every limit, rows of walks that carry
//! the groups on, and everything that is refused.

use super::{place, spoil};
use crate::answers::expected;
use crate::call::{Call, Walk};
use crate::cases::HUGE;
use crate::random::Random;
use zelamodurk::alloc::BINS;
use zelamodurk::walks::Groups;

/// How many rows of walks there are.
const ROWS: usize = 24_000;

/// Hands every case to `visit`.
pub fn all(visit: &mut impl FnMut(&Call)) {
    let mut random = Random::new(31);
    every_code(&mut random, visit);
    short_rows(&mut random, visit);
    unfit(&mut random, visit);
    for _ in 0..ROWS {
        row(&mut random, visit);
    }
}

/// Every state that a walk leaves.
fn reachable() -> impl Iterator<Item = Groups> {
    let state = |n: u8| Groups {
        g1: n % 3,
        g2: n / 3 % 3,
        g4: n / 9,
    };
    (0..18).map(state)
}

/// A walk over these codes from bin 0 on.
fn over(random: &mut Random, codes: &[u8], limit: usize) -> Walk<'static> {
    let mut all = [random.one(&[0, 3, 255]); BINS];
    all[..codes.len()].copy_from_slice(codes);
    Walk {
        frame: random.bytes(40).into(),
        place: place(random, 0, limit),
        codes: all,
        start: 0,
        end: codes.len(),
    }
}

/// Every code there is, from every state, up to every limit around its width.
fn every_code(random: &mut Random, visit: &mut impl FnMut(&Call)) {
    for groups in reachable() {
        for code in 0..=u8::MAX {
            let limits = if code < 18 { 0..18 } else { 16..17 };
            for limit in limits {
                visit(&Call::conventional(over(random, &[code], limit), groups));
            }
        }
    }
}

/// Every three codes out of those with a group and a few others, from every state.
fn short_rows(random: &mut Random, visit: &mut impl FnMut(&Call)) {
    let codes = [0, 1, 2, 3, 4, 15, 16];
    for groups in reachable() {
        for n in 0..7 * 7 * 7 {
            let three = [codes[n % 7], codes[n / 7 % 7], codes[n / 49]];
            let limit = random.one(&[0, 7, 12, 14, 19, 48]);
            visit(&Call::conventional(over(random, &three, limit), groups));
        }
    }
}

/// Groups that no walk leaves, ranges and places that are refused.
fn unfit(random: &mut Random, visit: &mut impl FnMut(&Call)) {
    for n in 0..=u8::MAX {
        let of = |g1, g2, g4| Groups { g1, g2, g4 };
        for groups in [of(n, 0, 0), of(0, n, 0), of(0, 0, n), of(n % 4, 2, 1)] {
            visit(&Call::conventional(over(random, &[1, 2, 4], 320), groups));
        }
    }
    let bins = [0, 1, 4, 255, 256, 257];
    for start in bins.into_iter().chain(HUGE) {
        for end in bins.into_iter().chain(HUGE) {
            let mut walk = over(random, &[5; BINS], 320);
            (walk.start, walk.end) = (start, end);
            visit(&Call::conventional(walk, Groups::default()));
        }
    }
    for _ in 0..4_000 {
        let codes = random.one(&[[0, 0, 0], [0, 0, 1], [4, 0, 0], [0, 16, 1]]);
        let mut walk = over(random, &codes, 320);
        spoil(random, &walk.frame, &mut walk.place);
        let groups: Vec<Groups> = reachable().collect();
        let groups = random.one(&groups);
        visit(&Call::conventional(walk, groups));
    }
}

/// The channels of a block, one after another: the groups go on from each to the next, also from one that is
/// refused.
fn row(random: &mut Random, visit: &mut impl FnMut(&Call)) {
    let len = random.one(&[40, 400, 4096]);
    let frame = random.bytes(len);
    let limit = match random.to(3) {
        0 => random.to(8 * len),
        _ => 8 * len,
    };
    let (mut place, mut groups) = (place(random, 0, limit), Groups::default());
    for _ in 0..1 + random.to(6) {
        let (start, end) = range(random);
        let walk = Walk {
            frame: (&frame).into(),
            place,
            codes: codes(random),
            start,
            end,
        };
        let call = Call::conventional(walk, groups);
        visit(&call);
        // A difference between the Rust and document 01 is told by the visit.
        let Ok(answer) = expected(&call) else { return };
        place = answer.place.unwrap_or(place);
        groups = answer.groups.unwrap_or(groups);
    }
}

/// Codes as an allocation gives them, or mostly those with a group; a few have one that is refused.
fn codes(random: &mut Random) -> [u8; BINS] {
    let mut codes = [0; BINS];
    let some = random.one(&[[0, 1, 2, 4], [1, 2, 4, 3], [1, 1, 4, 15], [0, 0, 0, 1]]);
    let mixed = random.to(1) == 0;
    for code in &mut codes {
        *code = match mixed {
            true => random.to(15) as u8,
            false => random.one(&some),
        };
    }
    if random.to(15) == 0 {
        codes[random.to(BINS - 1)] = 16 + random.to(239) as u8;
    }
    codes
}

/// A range of bins, mostly a short one.
pub fn range(random: &mut Random) -> (usize, usize) {
    let most = random.one(&[8, 40, BINS]);
    let start = random.to(BINS);
    (start, start + random.to(most.min(BINS - start)))
}
