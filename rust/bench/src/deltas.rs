//! Delta segments: their codes, and reading them.

use crate::rust::deltas::Deltas;
use crate::{measure, written, A_TENTH};
use std::hint::black_box;
use zelamodurk::alloc::SEGMENTS;
use zelamodurk::blocks::{self, State, SLOTS};
use zelamodurk::syntax::Place;

/// The widths of deltnseg, and of an offset, a length and a ba.
const DELTNSEG: usize = 3;
const SEGMENT: [usize; 3] = [5, 4, 3];
/// How many codes there are that are taken behind block 0.
const TAKEN: u8 = 3;

/// The rows of this file.
pub fn all(bytes: &[u8]) {
    delta_code(bytes);
    read_delta(bytes);
}

/// Random slots and codes, none of which is refused.
fn delta_code(bytes: &[u8]) {
    let code = |pair: &[u8; 2]| (usize::from(pair[0]) % SLOTS, u32::from(pair[1] % TAKEN));
    let codes: Vec<(usize, u32)> = bytes.as_chunks().0.iter().map(code).collect();
    let (mut state, mut rusts) = (State::default(), Deltas::new(&[]));
    measure(
        "delta code",
        A_TENTH,
        codes.len(),
        || {
            for (slot, code) in &codes {
                let _ = black_box(blocks::delta_code(&mut state, *slot, *code, false));
            }
        },
        || {
            for (slot, code) in &codes {
                black_box(rusts.code(*slot, *code));
            }
        },
    );
}

/// As many segments as there may be. Both log every element, and begin the log anew in each pass.
fn read_delta(bytes: &[u8]) {
    let most = (SEGMENTS as u32 - 1, DELTNSEG);
    let segments = (0..SEGMENTS).flat_map(|_| SEGMENT);
    let values = bytes.iter().map(|byte| u32::from(*byte)).zip(segments);
    let frame = written([most].into_iter().chain(values));
    let begin = Place::new(8 * frame.len());
    let (mut log, mut state) = ([0; 8 * (1 + SEGMENTS * SEGMENT.len())], State::default());
    let mut rusts = Deltas::new(&frame);
    measure(
        "8 delta segments",
        A_TENTH,
        1,
        || {
            let mut place = begin;
            let frame = black_box(&frame);
            let _ = black_box(blocks::read_delta(
                frame, &mut log, &mut place, &mut state, 0,
            ));
        },
        || {
            black_box(rusts.read(black_box(0)));
        },
    );
}
