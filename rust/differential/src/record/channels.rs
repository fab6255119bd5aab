//! The recorded calls of alloc.

use crate::call::{Allocation, Call};
use crate::random::Random;
use crate::rust;
use zelamodurk::alloc::{Codes, Pointers, Segment, BINS};

pub const HEAD: &str = "\
# Answers of the function of alloc. CODES are sdcycod, fdcycod, sgaincod, dbpbcod, floorcod, fgaincod,
# csnroffst, fsnroffst, fscod, LEAK is 1 or 0, cplfleak, cplsleak, DELTA how many segments there are and
# the offsets, lengths and adjustments of eight, HIGH 1 for hebap:
# allocate FIRST SECOND WORDS START END CODES LEAK DELTA HIGH
# FIRST is the exponents, and after the = the pointers; SECOND is LOG_ADD, WORDS is HEARING.
";

pub fn calls() -> Vec<Call<'static>> {
    let mut calls = taken();
    calls.extend(refused());
    calls.into_iter().map(Call::allocate).collect()
}

/// A channel of bins 0 to 252 with the Rust's tables, whose exponents fall and rise by two and less.
fn channel() -> Allocation<'static> {
    let (hearing, log_add) = rust::tables();
    let mut random = Random::new(21);
    let mut exponents = [0; BINS];
    let mut exponent = 12;
    for place in &mut exponents {
        // Steps of -2 raise the next band's power by 256, where the low-frequency compensation begins.
        exponent = (exponent + random.to(4)).clamp(2, 26) - 2;
        *place = exponent as u8;
    }
    Allocation {
        exponents,
        start: 0,
        end: 253,
        codes: Codes::of_bytes([2, 1, 1, 2, 4, 4, 30, 7, 0]),
        leak: None,
        delta: Vec::new(),
        pointers: Pointers::Bap,
        hearing: hearing.into(),
        log_add: log_add.into(),
    }
}

/// Whole channels, the LFE's and the coupling's, at each sampling rate, with segments and without.
fn taken() -> Vec<Allocation<'static>> {
    let segment = |offset, len, ba| Segment { offset, len, ba };
    let with = |codes: [u8; 9]| Allocation {
        codes: Codes::of_bytes(codes),
        ..channel()
    };
    vec![
        channel(),
        Allocation {
            pointers: Pointers::Hebap,
            ..with([3, 3, 3, 3, 7, 7, 40, 15, 1])
        },
        Allocation {
            end: 7,
            ..with([0, 0, 0, 0, 0, 0, 20, 0, 2])
        },
        Allocation {
            start: 37,
            end: 229,
            leak: Some((3, 5)),
            ..channel()
        },
        Allocation {
            delta: vec![segment(2, 5, 0), segment(10, 15, 7), segment(31, 15, 4)],
            ..channel()
        },
        Allocation {
            start: 30,
            end: 31,
            ..with([1, 2, 0, 1, 7, 0, 63, 15, 0])
        },
        with([2, 2, 2, 2, 2, 2, 0, 0, 0]),
        Allocation {
            start: 9,
            end: 9,
            ..channel()
        },
    ]
}

/// Each refusal alone, and the first of several.
fn refused() -> Vec<Allocation<'static>> {
    let mut exponent_past = channel();
    exponent_past.exponents[252] = 25;
    let mut both = exponent_past.clone();
    both.end = 254;
    let mut code_past = both.clone();
    code_past.codes.floorcod = 8;
    let mut table_past = code_past.clone();
    table_past.log_add.to_mut()[255] = 65;
    let mut short = channel();
    short.hearing.to_mut().pop();
    let mut segments = channel();
    segments.delta = vec![
        Segment {
            offset: 0,
            len: 0,
            ba: 0
        };
        9
    ];
    vec![exponent_past, both, code_past, table_past, short, segments]
}
