//! Document 01's rules, written apart from the core.
//!
//! Bits: "The bits layer tests 6, then 1 for any range (position plus width) past either buffer."
//! Elements and their log: [`syntax`]. Allocation: [`channel`] and [`block`]. Exponents, delta segments and
//! walks: [`reading`].

pub mod block;
pub mod channel;
pub mod frame;
pub mod reading;
pub mod syntax;

use crate::call::Call;
use zelamodurk::syntax::Place;

pub use channel::is_empty_past_the_bins;
use channel::{BAD_TABLES, CODE_PAST_TABLE, EXPONENT_OUTSIDE};
use frame::{BAD_LENGTH, LAST, NO_ROOM_FOR_TAIL};
pub use reading::reads_on;

/// A width above 32, where a width is what is asked for; ranges compared and spans may be wider. A
/// limit, a count, a span's start or an element's place that is unfit.
const BAD_ARGUMENT: u8 = 6;
/// A range past the end of its buffer, or an element past the limit.
const PAST_LIMIT: u8 = 1;
/// A log with no room for one more.
const LOG_FULL: u8 = 19;
/// deltbae 0 in block 0, or above 2.
const BAD_DELTA: u8 = 15;

/// 0 for a call that document 01 takes, or the number that it refuses it with; of a call that reads on, what
/// is tested before anything is read.
pub fn number(call: &Call) -> u8 {
    match call {
        Call::Get { n, .. } | Call::Set { n, .. } if *n > 32 => BAD_ARGUMENT,
        Call::Get { bytes, pos, n } | Call::Set { bytes, pos, n, .. } => past(&[(bytes, *pos)], *n),
        Call::RangeEq { x, a, y, b, n } => past(&[(x, *a), (y, *b)], *n),
        Call::RangeZero { x, a, n } => past(&[(x, *a)], *n),
        Call::Crc16 { .. } | Call::Zeros { .. } => 0,
        Call::ReadElement { .. }
        | Call::ReadRaw { .. }
        | Call::Span { .. }
        | Call::CloseSpan { .. }
        | Call::CheckTiling { .. }
        | Call::ElementAt { .. } => syntax::number(call),
        Call::Allocate(given) => channel::number(given),
        Call::AllocateBlock(given) => block::number(given),
        Call::DeltaCode {
            slot, code, block0, ..
        } => first(&[
            (BAD_ARGUMENT, *slot > 6),
            (BAD_DELTA, (*code == 0 && *block0) || *code > 2),
        ]),
        Call::Probe { frame } => frame::header(frame),
        Call::ReadTail { from, total, .. } => frame::tail(from, *total),
        Call::CrcStatus { frame, codec } | Call::Repair { frame, codec } => {
            frame::length(frame, *codec)
        }
        _ => reading::number(call),
    }
}

/// Whether a refusal is "the port's own": 6, 19, 20, 21, 1 in bits, and 8 and 11 in allocation. So is 1 or 16
/// where position plus width passes the largest number, since the Rust panics or wraps there. 19 in a tail comes
/// where the Rust has read on: [`reading::in_room`].
pub fn is_ports_own(call: &Call, number: u8) -> bool {
    match (number, call) {
        (LOG_FULL, Call::ReadTail { .. }) => false,
        (NO_ROOM_FOR_TAIL, Call::ReadTail { from, .. }) => wraps(&from.place, LAST),
        (BAD_ARGUMENT | LOG_FULL | BAD_LENGTH | BAD_TABLES, _) => true,
        (EXPONENT_OUTSIDE | CODE_PAST_TABLE, Call::Allocate(_) | Call::AllocateBlock(_)) => true,
        (PAST_LIMIT, Call::ReadElement { from, ask }) => wraps(&from.place, ask.width),
        (PAST_LIMIT, Call::ReadRaw { place, width, .. }) => wraps(place, *width),
        (PAST_LIMIT, Call::Span { from, width, .. }) => wraps(&from.place, *width),
        (PAST_LIMIT, _) => true,
        _ => false,
    }
}

/// The number of the first test that holds, or 0.
fn first(tests: &[(u8, bool)]) -> u8 {
    let refused = tests.iter().find(|(_, holds)| *holds);
    refused.map_or(0, |(number, _)| *number)
}

/// 1 where the n bits from one of the positions on pass their buffer. Sums of two `usize` fit a `u128`.
fn past(ranges: &[(&[u8], usize)], n: usize) -> u8 {
    let passes = |&(bytes, pos): &(&[u8], usize)| pos as u128 + n as u128 > 8 * bytes.len() as u128;
    first(&[(PAST_LIMIT, ranges.iter().any(passes))])
}

fn wraps(place: &Place, width: usize) -> bool {
    place.pos.checked_add(width).is_none()
}

/// A run of zero bytes that fits a buffer and leaves the register as n of them do. The polynomial is
/// (x + 1)(x^15 + x + 1), so the register comes round after 2^15 - 1 zero bits, and bytes; runs to
/// 2^16 are left as they are, so that the Rust itself shows it.
pub fn run(n: usize) -> usize {
    if n <= 1 << 16 {
        n
    } else {
        n % ((1 << 15) - 1)
    }
}
