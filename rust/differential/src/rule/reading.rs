//! Calls that read on from the cursor: exponent sets, delta segments and walks. "6 for slot, strategy,
//! then range"; then each element is read, "6, then 1, then 19". A walk reads no element.

use super::syntax::{is_sound, is_unfit, room};
use super::{BAD_ARGUMENT, LOG_FULL};
use crate::answers::Answer;
use crate::call::{Call, Walk};
use zelamodurk::alloc::BINS;
use zelamodurk::exponents::Ask;
use zelamodurk::syntax::{POS, WORDS};
use zelamodurk::walks::Groups;

/// No call moves the cursor further.
const FURTHEST: usize = 1 << 20;

/// Whether what a call is refused with comes out of the bits that it reads or of codes that it meets.
pub fn reads_on(call: &Call) -> bool {
    matches!(
        call,
        Call::ReadExponents { .. }
            | Call::ReadDelta { .. }
            | Call::Conventional { .. }
            | Call::Aht(_)
    )
}

/// 6 where document 01 refuses a call that reads on before anything is read, or 0.
pub fn number(call: &Call) -> u8 {
    let unfit = match call {
        Call::ReadExponents { from, ask } => is_unfit_set(ask) || is_unfit(from),
        Call::ReadDelta { from, slot, .. } => *slot > 6 || is_unfit(from),
        Call::Conventional { walk, groups } => is_unfit_walk(walk) || is_unreachable(groups),
        Call::Aht(walk) => is_unfit_walk(walk),
        _ => false,
    };
    BAD_ARGUMENT * u8::from(unfit)
}

/// "Slot above 6, strategy not 1..3; start < end ≤ 256 required."
fn is_unfit_set(ask: &Ask) -> bool {
    let range = ask.start < ask.end && ask.end.0 <= BINS;
    ask.slot > 6 || !(1..=3).contains(&ask.strategy) || !range
}

/// "Range: start ≤ end ≤ 256, else 6."
fn is_unfit_walk(walk: &Walk) -> bool {
    !is_sound(&walk.frame, &walk.place) || walk.start > walk.end || walk.end > BINS
}

/// "A group state no walk can reach gives 6 too": groups of 3, 3 and 2.
fn is_unreachable(groups: &Groups) -> bool {
    groups.g1 > 2 || groups.g2 > 2 || groups.g4 > 1
}

/// The same call with the cursor just past its limit, where it stands so near to the largest number that
/// the Rust's sums come round.
pub fn nearer<'a>(call: &Call<'a>) -> Option<Call<'a>> {
    if call.place()?.pos.checked_add(FURTHEST).is_some() {
        return None;
    }
    let mut near = call.clone();
    let place = match &mut near {
        Call::ReadExponents { from, .. } | Call::ReadDelta { from, .. } => &mut from.place,
        Call::Conventional { walk, .. } | Call::Aht(walk) => &mut walk.place,
        _ => return None,
    };
    place.pos = place.limit + 1;
    Some(near)
}

/// What the Rust answers, where its log has not grown past the room; else 19 at the first element that has
/// no room, those before it logged.
pub fn in_room(call: &Call, answer: Answer) -> Answer {
    let (Some(from), Some(mut place)) = (call.standing(), answer.place) else {
        return answer;
    };
    let room = room(&from.log);
    if place.count <= room {
        return answer;
    }
    let mut full = Answer::refused(LOG_FULL, call);
    full.log[..WORDS * room].copy_from_slice(&answer.log[..WORDS * room]);
    full.bit = answer.log[WORDS * room + POS] as usize;
    (place.pos, place.count) = (full.bit, room);
    full.place = Some(place);
    full
}
