//! "Order over a block: 21; 11; 10 for csnroffst; 10 for parameters. If csnroffst and every present slot's
//! fsnroffst are 0, all zero at once. Else slots 0 to 6, each: 12; 10 for leak; an empty range gives
//! zeros; 6 if end > 253; 8 if an exponent in range is outside 0..24."

use super::channel::{self, BAD_TABLES, CODE_PAST_TABLE, EXPONENT_OUTSIDE};
use super::channel::{LARGEST, LARGEST_LEAK, LARGEST_SEGMENT};
use super::{first, BAD_ARGUMENT};
use crate::call::{Asking, Block};
use zelamodurk::alloc::{Delta, BINS};
use zelamodurk::blocks::{State, SLOTS};
use zelamodurk::exponents::CPL;

/// Something used before it is sent.
const NOT_SENT: u8 = 10;
/// Exponents that don't cover the range.
const NOT_COVERED: u8 = 12;

/// 0 for a block that document 01 takes, or the number that it refuses it with.
pub fn number(given: &Block) -> u8 {
    let state = &given.state;
    let before = first(&[
        (
            BAD_TABLES,
            !channel::are_fit(&given.hearing, &given.log_add),
        ),
        (CODE_PAST_TABLE, is_past(state, given.fscod)),
        (NOT_SENT, !state.csnroffst_sent),
        (NOT_SENT, !state.bai_sent),
    ]);
    if before != 0 || is_silent(given) {
        return before;
    }
    let numbers = (0..SLOTS).map(|n| slot(state, n, given.slots[n].as_ref()));
    numbers.into_iter().find(|number| *number != 0).unwrap_or(0)
}

/// "Codes not yet sent aren't tested, all others are, present slot or not."
fn is_past(state: &State, fscod: u8) -> bool {
    let [.., gain, coarse, fine, rate] = LARGEST;
    let above = |codes: &[u8], most: u8| codes.iter().any(|code| *code > most);
    let leak = above(&[state.cplfleak, state.cplsleak], LARGEST_LEAK);
    (state.bai_sent && channel::above(&state.bai(), &LARGEST))
        || (state.csnroffst_sent && state.csnroffst > coarse)
        || (state.cplleak_sent && leak)
        || above(&state.fgaincod, gain)
        || above(&state.fsnroffst, fine)
        || fscod > rate
        || state.delta.iter().any(is_delta_past)
}

fn is_delta_past(delta: &Delta) -> bool {
    let past = |n: usize| {
        let segment = [delta.offset[n], delta.len[n], delta.ba[n]];
        channel::above(&segment, &LARGEST_SEGMENT)
    };
    delta.count > 8 || (0..usize::from(delta.count)).any(past)
}

/// "If csnroffst and every present slot's fsnroffst are 0."
pub fn is_silent(given: &Block) -> bool {
    let fine = given.slots.iter().zip(given.state.fsnroffst);
    given.state.csnroffst == 0
        && fine
            .into_iter()
            .all(|(slot, fine)| slot.is_none() || fine == 0)
}

fn slot(state: &State, n: usize, asking: Option<&Asking>) -> u8 {
    let Some(asking) = asking else { return 0 };
    let (set, bins) = (&asking.set, asking.start..asking.end);
    let outside = |(bin, exponent): (usize, &u8)| bins.contains(&bin) && *exponent > 24;
    first(&[
        (NOT_COVERED, is_uncovered(asking)),
        (NOT_SENT, n == usize::from(CPL) && !state.cplleak_sent),
        (BAD_ARGUMENT, !bins.is_empty() && asking.end > 253),
        (EXPONENT_OUTSIDE, set.exp.iter().enumerate().any(outside)),
    ])
}

fn is_uncovered(asking: &Asking) -> bool {
    asking.set.start.0 > asking.start || asking.set.end.0 < asking.end
}

/// Whether a slot's pointers are zeros whatever its exponents are, and its range is past the bins: the Rust
/// answers as many zeros as the range says there, "the answer is 256 bins".
pub fn is_zeros_past_the_bins(given: &Block, asking: &Asking) -> bool {
    let empty = asking.end <= asking.start && !is_uncovered(asking);
    (empty || is_silent(given)) && asking.start.max(asking.end) > BINS
}
