//! Exponent sets: every slot, strategy and range with groups that are taken, every absolute exponent with
//! every group, every limit and every room, random bytes, and everything that is refused.

use super::{place, spoil, standing, Bits};
use crate::call::{Call, Standing};
use crate::cases::HUGE;
use crate::random::Random;
use zelamodurk::alloc::{Bin, BINS};
use zelamodurk::exponents::{Ask, CPL, LFE};

/// How many random sets there are.
const RANDOM: usize = 24_000;
/// More groups than any set has, and the elements of all.
const GROUPS: usize = 86;
const ELEMENTS: usize = 1 + GROUPS;
/// The bits of all.
const BITS: usize = 4 + 7 * GROUPS;

/// Hands every case to `visit`.
pub fn all(visit: &mut impl FnMut(&Call)) {
    let mut random = Random::new(30);
    every_range(&mut random, visit);
    every_group(&mut random, visit);
    every_end(&mut random, visit);
    unfit(&mut random, visit);
    for _ in 0..RANDOM {
        any(&mut random, visit);
    }
}

fn ask(slot: u8, strategy: u8, start: usize, end: usize) -> Ask {
    Ask {
        slot,
        strategy,
        start: Bin(start),
        end: Bin(end),
    }
}

/// An absolute exponent and groups, so many that every set ends before them. They keep to 0 to 24, but for
/// one of `faults`.
fn groups(random: &mut Random, slot: u8, faults: usize) -> Vec<u8> {
    let mut bits = Bits::default();
    let absolute = match slot {
        CPL => random.to(12),
        _ => random.to(15),
    };
    bits.put(absolute as u32, 4);
    let mut last = absolute << usize::from(slot == CPL);
    for _ in 0..GROUPS {
        let value = match random.to(faults) {
            0 => random.to(127),
            _ => steps(random, &mut last),
        };
        bits.put(value as u32, 7);
    }
    bits.bytes()
}

/// A group of three steps, none of which leads outside.
fn steps(random: &mut Random, last: &mut usize) -> usize {
    let mut value = 0;
    for _ in 0..3 {
        let to = (*last + random.to(4)).clamp(2, 26) - 2;
        value = 5 * value + (to + 2 - *last);
        *last = to;
    }
    value
}

/// A call from the frame's start, with room for all elements.
fn read(random: &mut Random, frame: Vec<u8>, ask: Ask) -> Call<'static> {
    let place = place(random, 0, 8 * frame.len());
    Call::read_exponents(standing(random, frame, ELEMENTS, place), ask)
}

/// Every range there is: of coupling by every strategy, of the others by one of them in turn; and every end
/// of every slot by every strategy.
fn every_range(random: &mut Random, visit: &mut impl FnMut(&Call)) {
    let ranges = (0..BINS).flat_map(|start| (start + 1..=BINS).map(move |end| (start, end)));
    for (turn, (start, end)) in ranges.enumerate() {
        let slot = [0, 1, 2, 3, 4, LFE][turn % 6];
        let strategy = (1 + turn / 6 % 3) as u8;
        let frame = groups(random, slot, 4_000);
        visit(&read(random, frame, ask(slot, strategy, start, end)));
        for strategy in 1..=3 {
            let frame = groups(random, CPL, 4_000);
            visit(&read(random, frame, ask(CPL, strategy, start, end)));
        }
    }
    for end in 1..=BINS {
        for slot in 0..=LFE {
            for strategy in 1..=3 {
                let frame = groups(random, slot, 1_000);
                visit(&read(random, frame, ask(slot, strategy, 0, end)));
            }
        }
    }
}

/// Every absolute exponent with every first group, and a second that is taken or not.
fn every_group(random: &mut Random, visit: &mut impl FnMut(&Call)) {
    for slot in [0, 4, CPL, LFE] {
        for absolute in 0..16 {
            for group in 0..128 {
                let mut bits = Bits::default();
                bits.put(absolute, 4);
                bits.put(group, 7);
                bits.put(62, 7);
                for end in [4, 7] {
                    let strategy = 1 + random.to(2) as u8;
                    let call = read(random, bits.bytes(), ask(slot, strategy, 0, end));
                    visit(&call);
                }
            }
        }
    }
}

/// A set that ends before each bit, and before each element that the log has no room for, from the frame's
/// start and from further on.
fn every_end(random: &mut Random, visit: &mut impl FnMut(&Call)) {
    for slot in [0, CPL, LFE] {
        let frame = groups(random, slot, 1_000_000);
        for limit in 0..=BITS + 1 {
            let place = place(random, 0, limit);
            let from = standing(random, frame.clone(), ELEMENTS, place);
            let strategy = 1 + random.to(2) as u8;
            visit(&Call::read_exponents(from, ask(slot, strategy, 0, BINS)));
        }
        for room in 0..=ELEMENTS {
            for count in 0..=3 {
                let mut place = place(random, 0, 8 * frame.len());
                place.count = count;
                let from = standing(random, frame.clone(), room, place);
                visit(&Call::read_exponents(from, ask(slot, 1, 0, BINS)));
            }
        }
    }
}

/// Slots, strategies, ranges and places that are refused.
fn unfit(random: &mut Random, visit: &mut impl FnMut(&Call)) {
    for byte in 0..=u8::MAX {
        let frame = groups(random, 0, 1_000);
        visit(&read(random, frame.clone(), ask(byte, 1, 0, 4)));
        visit(&read(random, frame, ask(byte % 8, byte, 0, 4)));
    }
    let bins = [0, 1, 4, 255, 256, 257];
    for start in bins.into_iter().chain(HUGE) {
        for end in bins.into_iter().chain(HUGE) {
            let slot = random.one(&[0, CPL, LFE]);
            let frame = groups(random, slot, 1_000);
            visit(&read(random, frame, ask(slot, 1, start, end)));
        }
    }
}

/// A set at any place of a frame, of taken groups, of groups with faults or of random bytes; the log may be
/// too short, the limit too low, and something may be unfit.
fn any(random: &mut Random, visit: &mut impl FnMut(&Call)) {
    let slot = random.to(usize::from(LFE)) as u8;
    let faults = random.one(&[20, 200, 10_000]);
    let mut frame = groups(random, slot, faults);
    let mut at = 0;
    if random.to(2) == 0 {
        at = random.to(40);
        let len = 20 + random.to(60);
        frame = random.bytes(len);
    }
    let bits = 8 * frame.len();
    let limit = match random.to(3) {
        0 => random.to(bits),
        _ => bits,
    };
    let mut place = place(random, at, limit);
    let room = match random.to(3) {
        0 => random.to(ELEMENTS),
        _ => ELEMENTS,
    };
    place.count = random.to(2).min(room);
    if random.to(15) == 0 {
        spoil(random, &frame, &mut place);
    }
    if random.to(31) == 0 {
        place.count = random.one(&[room + 1, usize::MAX]);
    }
    let end = 1 + random.to(BINS - 1);
    let start = random.to(end - 1);
    let strategy = 1 + random.to(2) as u8;
    let from: Standing = standing(random, frame, room, place);
    visit(&Call::read_exponents(from, ask(slot, strategy, start, end)));
}
