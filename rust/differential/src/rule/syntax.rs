//! Document 01's rules for elements and their log: "Reading one element tests 6, then 1, then 19."

use super::{first, BAD_ARGUMENT, LOG_FULL, PAST_LIMIT};
use crate::call::{Call, Standing};
use zelamodurk::syntax::{Place, MOST_BITS, MOST_ELEMENTS, POS, WIDTH, WORDS};

/// Elements that don't tile.
pub const NOT_TILED: u8 = 18;

/// 0 for a call of syntax that document 01 takes, or the number that it refuses it with.
pub fn number(call: &Call) -> u8 {
    match call {
        Call::ReadElement { ask, .. } if ask.width > 32 => BAD_ARGUMENT,
        Call::ReadElement { from, ask } => element(from, ask.width),
        Call::ReadRaw { width, .. } if *width > 32 => BAD_ARGUMENT,
        Call::ReadRaw {
            frame,
            place,
            width,
        } => first(&[
            (BAD_ARGUMENT, !is_sound(frame, place)),
            (PAST_LIMIT, passes_limit(place, *width)),
        ]),
        Call::Span { from, width, .. } => element(from, *width),
        Call::CloseSpan { from, start, .. } => closing(from, *start),
        Call::CheckTiling { log, count, total } => first(&[
            (BAD_ARGUMENT, *count > room(log)),
            (NOT_TILED, !tile(log, *count, *total)),
        ]),
        Call::ElementAt { log, count, k } => {
            first(&[(BAD_ARGUMENT, *count > room(log) || k >= count)])
        }
        _ => 0,
    }
}

/// "A cursor's limit is at most 32,768 bits and never past its data."
pub fn is_sound(frame: &[u8], place: &Place) -> bool {
    place.limit <= MOST_BITS && place.limit <= 8 * frame.len()
}

/// "At most 4,096 elements of its room are used."
pub fn room(log: &[u32]) -> usize {
    (log.len() / WORDS).min(MOST_ELEMENTS)
}

/// A limit that is not sound, or a count past the room.
pub fn is_unfit(from: &Standing) -> bool {
    !is_sound(&from.frame, &from.place) || from.place.count > room(&from.log)
}

fn passes_limit(place: &Place, width: usize) -> bool {
    place.pos as u128 + width as u128 > place.limit as u128
}

/// An element of any width at the cursor: 6, 1, 19.
fn element(from: &Standing, width: usize) -> u8 {
    let (place, room) = (&from.place, room(&from.log));
    first(&[
        (BAD_ARGUMENT, is_unfit(from)),
        (PAST_LIMIT, passes_limit(place, width)),
        (LOG_FULL, place.count == room),
    ])
}

/// "Start past the cursor, or cursor past its limit: 6, then 19."
fn closing(from: &Standing, start: usize) -> u8 {
    let (place, room) = (&from.place, room(&from.log));
    first(&[
        (BAD_ARGUMENT, is_unfit(from)),
        (BAD_ARGUMENT, start > place.pos || place.pos > place.limit),
        (LOG_FULL, place.count == room),
    ])
}

/// Whether each of the elements begins where those before it end together, and all end at the total.
pub fn tile(log: &[u32], count: usize, total: usize) -> bool {
    let mut sum: u128 = 0;
    for element in log.chunks_exact(WORDS).take(count) {
        if u128::from(element[POS]) != sum {
            return false;
        }
        sum += u128::from(element[WIDTH]);
    }
    sum == total as u128
}
