//! Rows of calls on one cursor, one allocation state and one block's groups: the drop-in core beside the Rust's
//! modules. Whole frames end with the first refusal; here a row goes on behind it, so that what a refused call
//! leaves is compared too.
#![forbid(unsafe_code)]
#![cfg(oracle)]

use differential::random::Random;

/// How many rows; few under an emulator, where each call is sent to another process.
const ROWS: usize = if zelamodurk::EMULATED { 500 } else { 100_000 };
/// How many codes a walk is given.
const CODES: usize = 40;

/// A call, inside document 01's domain.
#[derive(Debug)]
enum Call {
    Role(i16, usize),
    Flag(usize),
    Span(usize),
    Raw(usize),
    /// From so many bits before the cursor, or from bit 0.
    Close(usize),
    Exponents(usize, u8, (usize, usize)),
    ReadDelta(usize),
    DeltaCode(usize, u32, bool),
    Conventional(Vec<u8>, (usize, usize)),
    Aht(Vec<u8>, (usize, usize)),
    /// So many bits before the limit, in AC-3 or not.
    Tail(usize, bool),
    Tiles(usize),
}

/// Where a row begins, and its calls.
#[derive(Debug)]
struct Row {
    data: Vec<u8>,
    limit: usize,
    pos: usize,
    block: i8,
    calls: Vec<Call>,
}

/// Codes up to `most`, at times with one or two that are above.
fn codes(random: &mut Random, most: u8) -> Vec<u8> {
    let above = if random.to(4) == 0 { 2 } else { 0 };
    (0..CODES).map(|_| random.byte(most + above)).collect()
}

fn range(random: &mut Random, start: usize, len: usize) -> (usize, usize) {
    let start = random.to(start);
    (start, start + random.to(len))
}

fn call(random: &mut Random, bits: usize) -> Call {
    let slot = random.to(6);
    match random.to(11) {
        0 => Call::Role(random.to(9) as i16 - 1, random.to(32)),
        1 => Call::Flag(random.to(70_000)),
        2 => Call::Span(random.to(100)),
        3 => Call::Raw(random.to(32)),
        4 => Call::Close(random.to(bits)),
        5 => Call::Exponents(slot, random.byte(4), range(random, CODES, 30)),
        6 => Call::ReadDelta(slot),
        7 => Call::DeltaCode(slot, random.to(4) as u32, random.to(1) == 0),
        8 => Call::Conventional(codes(random, 15), range(random, 10, 30)),
        9 => Call::Aht(codes(random, 19), range(random, 10, 6)),
        10 => Call::Tail(random.to(20), random.to(1) == 0),
        _ => Call::Tiles(random.to(bits)),
    }
}

fn row(random: &mut Random) -> Row {
    let mut data = random.plain_bytes(60);
    // 0x7C has groups of steps that exponents take.
    if random.to(1) == 0 {
        let drawn = data.iter_mut().filter(|_| random.to(2) > 0);
        drawn.for_each(|byte| *byte = 0x7C);
    }
    data.truncate(random.to(60));
    let limit = random.to(8 * data.len());
    Row {
        limit,
        pos: random.to(limit) / (1 + random.to(9)),
        block: random.to(6) as i8 - 1,
        calls: (0..=random.to(8)).map(|_| call(random, limit)).collect(),
        data,
    }
}

/// What a side answers to a call, as text.
macro_rules! answer {
    ($side:ident, $call:expr, $cur:ident, $state:ident, $groups:ident) => {{
        use $side::blocks::{aht, conventional, read_exponents};
        use $side::error::{Error, Result};
        use $side::frame::{read_tail, Codec};
        use $side::syntax::{check_contiguous, Role};
        fn text<T: std::fmt::Debug>(done: Result<T>) -> String {
            let kind = |error| match error {
                Error::Truncated(_) => "truncated",
                Error::Unsupported(_) => "unsupported",
                _ => "invalid",
            };
            format!("{:?}", done.map_err(kind))
        }
        match $call {
            Call::Role(index, width) => text($cur.get_role("a", Role::Dynrng(1), *index, *width)),
            Call::Flag(index) => text($cur.flagi("f", *index)),
            Call::Span(width) => text($cur.span("s", Role::Skipfld, *width)),
            Call::Raw(width) => text($cur.raw(*width, "r")),
            // A cursor past its limit is a known difference.
            Call::Close(_) if $cur.pos > $cur.limit => String::new(),
            Call::Close(back) => {
                let start = $cur.pos.saturating_sub(*back);
                $cur.close_span("c", Role::Mantissas, start);
                String::new()
            }
            Call::Exponents(slot, strategy, (start, end)) => {
                let read = read_exponents(&mut $cur, *slot, *strategy, *start, *end);
                text(read.map(|set| (set.exp, set.start, set.end)))
            }
            Call::ReadDelta(slot) => text($state.read_delta(&mut $cur, *slot)),
            Call::DeltaCode(slot, code, block0) => text($state.delta_code(*slot, *code, *block0)),
            Call::Conventional(codes, (start, end)) => {
                text(conventional(&mut $cur, codes, *start, *end, &mut $groups))
            }
            Call::Aht(codes, (start, end)) => text(aht(&mut $cur, codes, *start, *end)),
            Call::Tail(before, ac3) => {
                let codec = if *ac3 { Codec::Ac3 } else { Codec::Eac3 };
                let total = $cur.limit.saturating_sub(*before);
                text(read_tail(&mut $cur, total, codec))
            }
            Call::Tiles(total) => text(check_contiguous(&$cur.fields, *total)),
        }
    }};
}

/// What a side tells of a row: each answer with the cursor after it, then the elements, the segments, and the
/// groups by what the next mantissas cost.
macro_rules! told {
    ($side:ident, $row:expr) => {{
        use $side::blocks::{conventional, AllocState, Groups};
        use $side::syntax::Cursor;
        let row: &Row = $row;
        let mut cur = Cursor::new(&row.data, row.limit);
        (cur.pos, cur.block) = (row.pos, row.block);
        let (mut state, mut groups) = (AllocState::default(), Groups::default());
        let mut lines = Vec::new();
        for call in &row.calls {
            let answer = answer!($side, call, cur, state, groups);
            let after = (cur.pos, cur.block, cur.limit, cur.fields.len());
            lines.push(format!("{call:?}: {answer}, then {after:?}"));
        }
        let zeros = [0; 8];
        let mut ahead = Cursor::new(&zeros, 64);
        let costs = [1, 1, 2, 2, 4].map(|code| {
            let before = ahead.pos;
            conventional(&mut ahead, &[code], 0, 1, &mut groups).unwrap();
            ahead.pos - before
        });
        lines.push(format!("{:?}", cur.fields));
        lines.push(format!("{:?}, {costs:?}", state.delta));
        lines
    }};
}

#[test]
fn both_leave_the_same_behind() {
    let mut random = Random::new(62);
    let (mut calls, mut refused) = (0, 0);
    for _ in 0..ROWS {
        let row = row(&mut random);
        let ours = told!(parser, &row);
        assert_eq!(told!(oracle, &row), ours, "{row:?}");
        calls += row.calls.len();
        refused += ours.iter().filter(|line| line.contains("Err(")).count();
    }
    // Most calls get to be made, and a good part of them is refused.
    assert!(
        calls > 4 * ROWS && refused > calls / 3,
        "{calls}, {refused}"
    );
}
