//! What is refused, each alone and together, and what lies beside it: empty ranges, and exponents
//! outside the range.

use super::{Channels, END, NONE};
use crate::call::{Allocation, Call};
use crate::cases::HUGE;
use crate::random::Random;
use crate::rule::channel::LARGEST_SEGMENT;
use zelamodurk::alloc::{Codes, Segment, BINS};

/// How many random channels there are of each kind.
const RANDOM: usize = 1_000;
const TOGETHER: usize = 3_000;

/// Hands every case to `visit`.
pub fn all(channels: &mut Channels, visit: &mut impl FnMut(&Call)) {
    empty_ranges(channels, visit);
    ends_above(channels, visit);
    exponents_above(channels, visit);
    spoiled(channels, visit);
}

/// Ranges of no bin: zeros, whatever the exponents are and however far the range is.
fn empty_ranges(channels: &mut Channels, visit: &mut impl FnMut(&Call)) {
    let places = [0, 1, 7, 37, 252, 253, 254, 255, 256, 257, 300];
    for start in places.into_iter().chain(HUGE) {
        for end in places.into_iter().chain(HUGE) {
            if end <= start {
                let mut given = channels.over((start, end));
                given.exponents[start % BINS] = 255;
                visit(&Call::allocate(given));
            }
        }
    }
}

/// Ranges that end past the last band.
fn ends_above(channels: &mut Channels, visit: &mut impl FnMut(&Call)) {
    for _ in 0..RANDOM {
        let end = match channels.random.to(3) {
            0 => channels.random.one(&HUGE),
            1 => END + 1 + channels.random.to(600),
            _ => END + 1 + channels.random.to(4),
        };
        let start = channels.random.to(2 * END).min(end - 1);
        visit(&Call::allocate(channels.over((start, end))));
    }
}

/// Exponents above 24: one of the range, and those beside it, which are not looked at.
fn exponents_above(channels: &mut Channels, visit: &mut impl FnMut(&Call)) {
    for _ in 0..RANDOM {
        let (mut inside, mut beside) = (channels.any(), channels.any());
        let above = 25 + channels.random.byte(230);
        let bin = inside.start + channels.random.to(inside.end - inside.start - 1);
        inside.exponents[bin] = above;
        visit(&Call::allocate(inside));
        let (start, end) = (beside.start, beside.end);
        beside.exponents[..start].fill(above);
        beside.exponents[end..].fill(above);
        visit(&Call::allocate(beside));
    }
}

/// What makes a channel unfit.
type Spoil = fn(&mut Allocation);

/// Changes an entry, where the table has it.
fn put<T>(table: &mut [T], at: usize, entry: T) {
    if let Some(room) = table.get_mut(at) {
        *room = entry;
    }
}

/// A segment with one number past its table.
fn segment_past(at: usize) -> Segment {
    let mut numbers = [0; 3];
    numbers[at] = LARGEST_SEGMENT[at] + 1;
    let [offset, len, ba] = numbers;
    Segment { offset, len, ba }
}

/// Has as many segments as there may be, the last of them with one number past its table.
fn last_segment_past(given: &mut Allocation, at: usize) {
    given.delta.resize(7, NONE);
    given.delta.push(segment_past(at));
}

/// Tables, codes, segments, ranges and exponents that are refused; and an empty range, which is not, and
/// which shuts out the refusals of ranges and exponents.
const SPOILS: [Spoil; 44] = [
    |given| given.hearing.to_mut().truncate(149),
    |given| given.hearing.to_mut().resize(151, 0),
    |given| given.hearing.to_mut().clear(),
    |given| put(given.hearing.to_mut(), 0, 4096),
    |given| put(given.hearing.to_mut(), 149, u16::MAX),
    |given| given.log_add.to_mut().truncate(255),
    |given| given.log_add.to_mut().resize(257, 0),
    |given| given.log_add.to_mut().clear(),
    |given| put(given.log_add.to_mut(), 0, 65),
    |given| put(given.log_add.to_mut(), 255, 255),
    |given| given.codes.sdcycod = 4,
    |given| given.codes.fdcycod = 4,
    |given| given.codes.sgaincod = 4,
    |given| given.codes.dbpbcod = 4,
    |given| given.codes.floorcod = 8,
    |given| given.codes.fgaincod = 8,
    |given| given.codes.csnroffst = 64,
    |given| given.codes.fsnroffst = 16,
    |given| given.codes.fscod = 3,
    |given| given.codes = Codes::of_bytes([255; 9]),
    |given| given.leak = Some((8, 0)),
    |given| given.leak = Some((0, 8)),
    |given| given.leak = Some((255, 255)),
    |given| given.delta = vec![segment_past(0)],
    |given| given.delta = vec![segment_past(1)],
    |given| given.delta = vec![segment_past(2)],
    |given| last_segment_past(given, 0),
    |given| last_segment_past(given, 1),
    |given| last_segment_past(given, 2),
    |given| given.delta.resize(9, NONE),
    |given| given.delta.resize(256, NONE),
    |given| given.end = 254,
    |given| given.end = 255,
    |given| given.end = 256,
    |given| given.end = 257,
    |given| given.end = usize::MAX,
    |given| given.end = 1 << 32,
    |given| (given.start, given.end) = (253, 254),
    |given| (given.start, given.end) = (usize::MAX - 1, usize::MAX),
    |given| given.exponents[given.start % BINS] = 25,
    |given| given.exponents[given.end.wrapping_sub(1) % BINS] = 25,
    |given| given.exponents.fill(255),
    |given| given.end = given.start,
    |given| (given.start, given.end) = (usize::MAX, 0),
];

/// Everything that is refused: each alone, each two, and random threes. Of several the first in document
/// 01's order is given.
fn spoiled(channels: &mut Channels, visit: &mut impl FnMut(&Call)) {
    let mut spoil = |spoils: &[Spoil]| {
        let mut given = channels.any();
        for spoil in spoils {
            spoil(&mut given);
        }
        visit(&Call::allocate(given));
    };
    for (n, one) in SPOILS.into_iter().enumerate() {
        spoil(&[one]);
        for other in &SPOILS[..n] {
            spoil(&[one, *other]);
        }
    }
    let mut random = Random::new(21);
    for _ in 0..TOGETHER {
        spoil(&[
            random.one(&SPOILS),
            random.one(&SPOILS),
            random.one(&SPOILS),
        ]);
    }
}
