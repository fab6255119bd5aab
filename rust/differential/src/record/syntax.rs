//! The recorded calls of syntax.

use crate::answers::expected;
use crate::call::{Call, Standing};
use crate::random::Random;
use crate::scripts;
use zelamodurk::syntax::{Ask, Place, Role, WORDS};

pub const HEAD: &str = "\
# Answers of the functions of syntax. PLACE is POS LIMIT BLOCK COUNT, a role its word:
# read_element FIRST WORDS PLACE NAME ROLE INDEX WIDTH, answers .. POS COUNT
# read_raw FIRST PLACE WIDTH, answers .. POS COUNT
# span FIRST WORDS PLACE NAME ROLE WIDTH, answers .. POS COUNT
# close_span FIRST WORDS PLACE NAME ROLE START, answers .. POS COUNT
# check_tiling WORDS COUNT TOTAL
# element_at WORDS COUNT K, answers .. NAME ROLE BLOCK INDEX POS WIDTH VALUE where taken
# FIRST is the frame, WORDS the log. For element_at the Rust logged so.
";

pub fn calls() -> Vec<Call<'static>> {
    let mut calls = boundary_reads();
    calls.extend(roles());
    calls.extend(boundary_raws());
    calls.extend(boundary_spans());
    calls.extend(boundary_closings());
    calls.extend(tilings());
    calls.extend(looks());
    calls.extend(random_scripts());
    calls
}

const MAX: usize = usize::MAX;
/// Five bytes, no two alike, so that a shifted answer shows.
const FRAME: [u8; 5] = [0x0B, 0x77, 0xA5, 0x5A, 0xC3];
/// Their number of bits.
const END: usize = 40;

/// A cursor over [`FRAME`] in block 2, with a log of so many words that nobody has written.
fn cursor(words: usize, (pos, limit, count): (usize, usize, usize)) -> Standing<'static> {
    let log: Vec<u32> = (0..words as u32).map(|word| 0xC0DE_0000 + word).collect();
    let place = Place {
        pos,
        limit,
        block: 2,
        count,
    };
    Standing::new(&FRAME[..], log, place)
}

/// The same with room for two elements.
fn two(place: (usize, usize, usize)) -> Standing<'static> {
    cursor(2 * WORDS, place)
}

fn read(from: Standing<'static>, width: usize) -> Call<'static> {
    let ask = Ask {
        name: 256,
        role: Role::Plain,
        index: 3,
        width,
    };
    Call::read_element(from, ask)
}

fn boundary_reads() -> Vec<Call<'static>> {
    let mut calls = Vec::new();
    for n in [0, 1, 5, 8, 31, 32, 33, END, MAX] {
        calls.push(read(two((0, END, 0)), n));
    }
    for n in [0, 1, 8, 32] {
        calls.push(read(two((END - n, END, 0)), n));
        calls.push(read(two((END - n + 1, END, 0)), n));
    }
    // Limits before the data's end, past it, and past the most there may be.
    for (pos, limit, n) in [(0, 7, 7), (0, 7, 8), (0, 0, 0), (0, 0, 1), (5, 4, 0)] {
        calls.push(read(two((pos, limit, 0)), n));
    }
    for limit in [END + 1, END + 8, 32_768, 32_769, MAX] {
        calls.push(read(two((0, limit, 0)), 5));
    }
    calls.push(read(two((END, END + 1, 0)), 1));
    // One logged, a full log, and counts past its room, each also with a read past the limit.
    for count in [1, 2, 3, MAX] {
        calls.push(read(two((7, END, count)), 5));
        calls.push(read(two((END, END, count)), 1));
    }
    for (pos, n) in [
        (MAX, 0),
        (MAX, 1),
        (MAX - 31, 32),
        (1 << 63, 8),
        ((1 << 32) + 8, 8),
    ] {
        calls.push(read(two((pos, END, 0)), n));
    }
    for (words, count) in [(0, 0), (7, 0), (8, 0), (8, 1), (15, 1), (15, 2), (0, 1)] {
        calls.push(read(cursor(words, (0, END, count)), 5));
    }
    calls
}

/// Every role, some with a programme, with names, blocks and indices from end to end.
fn roles() -> Vec<Call<'static>> {
    let mut random = Random::new(13);
    let mut calls = Vec::new();
    for number in 0..=20 {
        let mut from = cursor(WORDS, (number as usize, END, 0));
        from.place.block = [-1, 0, 5, i8::MIN, i8::MAX][number as usize % 5];
        let role = Role::of_word(number + 32 * [1, 0, 255][number as usize % 3]);
        let ask = scripts::ask(&mut random, 5);
        calls.push(Call::read_element(from, Ask { role, ..ask }));
    }
    calls
}

fn boundary_raws() -> Vec<Call<'static>> {
    let places = [
        (0, END, 0),
        (0, END, 5),
        (0, END, 32),
        (0, END, 33),
        (0, END, MAX),
        (8, END, 32),
        (9, END, 32),
        (END, END, 0),
        (END + 1, END, 0),
        (3, 7, 5),
        (0, END + 1, 1),
        (END, END + 1, 1),
        (0, 32_769, 1),
        (MAX, END, 0),
        (MAX, END, 1),
    ];
    let raw = |(pos, limit, width)| {
        let place = Place {
            pos,
            ..Place::new(limit)
        };
        Call::read_raw(&FRAME[..], place, width)
    };
    places.map(raw).to_vec()
}

fn boundary_spans() -> Vec<Call<'static>> {
    let span = |(place, width)| Call::span(two(place), (32, Role::AuxBits), width);
    let mut calls = [
        ((0, END, 0), 0),
        ((0, END, 0), 33),
        ((0, END, 0), END),
        ((0, END, 0), END + 1),
        ((0, END, 0), MAX),
        ((8, END, 0), 32),
        ((8, END, 0), 33),
        ((8, END, 0), MAX),
        ((8, END, 0), MAX - 7),
        ((0, 39, 0), END),
        ((END, END, 0), 0),
        ((END + 1, END, 0), 0),
        ((MAX, END, 0), 0),
        ((MAX, END, 0), 1),
        ((0, END + 1, 0), END + 1),
        ((0, 32_769, 0), 5),
        ((8, END, 1), 5),
        ((8, END, 2), 5),
        ((8, END, 2), 33),
        ((8, END, 3), 5),
    ]
    .map(span)
    .to_vec();
    calls.push(Call::span(cursor(0, (0, END, 0)), (32, Role::AuxBits), 5));
    calls
}

fn boundary_closings() -> Vec<Call<'static>> {
    let close = |(place, start)| Call::close_span(two(place), (256, Role::Mantissas), start);
    [
        ((0, END, 0), 0),
        ((END, END, 0), 0),
        ((END, END, 0), END),
        ((END, END, 0), END + 1),
        ((20, END, 0), 7),
        ((20, END, 0), 21),
        ((20, END, 0), MAX),
        ((END + 1, END, 0), 0),
        ((20, 19, 0), 5),
        ((MAX, END, 0), 0),
        ((20, END + 1, 0), 5),
        ((20, 32_769, 0), 5),
        ((20, END, 1), 5),
        ((20, END, 2), 5),
        ((20, END, 2), 21),
        ((20, END, 3), 5),
        ((20, END, MAX), 5),
    ]
    .map(close)
    .to_vec()
}

fn tilings() -> Vec<Call<'static>> {
    const LONG: u32 = u32::MAX;
    let tiling = |spans: &[(u32, u32)], count, total| {
        Call::check_tiling(scripts::spans(spans), count, total)
    };
    let mut calls = Vec::new();
    for (count, total) in [(0, 0), (0, 1), (1, 0), (MAX, 0)] {
        calls.push(tiling(&[], count, total));
    }
    let tiled = [(0, 5), (5, 3)];
    for total in [8, 7, 9, 5, 0, MAX] {
        calls.push(tiling(&tiled, 2, total));
    }
    for (count, total) in [(0, 0), (0, 8), (1, 5), (1, 8), (3, 8), (4097, 8)] {
        calls.push(tiling(&tiled, count, total));
    }
    // A gap, an overlap, a start past 0, two places changed, no width.
    calls.push(tiling(&[(0, 5), (6, 3)], 2, 9));
    calls.push(tiling(&[(0, 5), (4, 3)], 2, 7));
    calls.push(tiling(&[(1, 4), (5, 3)], 2, 8));
    calls.push(tiling(&[(5, 3), (0, 5)], 2, 8));
    calls.push(tiling(&[(0, 0), (0, 8)], 2, 8));
    calls.push(tiling(&[(0, 8), (8, 0)], 2, 8));
    // Ends past the largest word.
    calls.push(tiling(&[(0, LONG), (LONG, LONG)], 2, 2 * LONG as usize));
    calls.push(tiling(&[(0, 5), (5, LONG)], 2, 4));
    calls
}

/// Elements out of logs that the Rust has written, and places that are refused.
fn looks() -> Vec<Call<'static>> {
    let mut random = Random::new(14);
    let mut calls = Vec::new();
    for turn in 0..8 {
        let mut from = two((turn, END, 0));
        for place in 0..2 {
            from.place.block = random.one(&[-1, 0, 5, i8::MIN, i8::MAX]);
            let width = 4 + random.to(12);
            let call = match (turn + place) % 3 {
                0 => Call::span(from.lent(), scripts::title(&mut random), width),
                _ => Call::read_element(from.lent(), scripts::ask(&mut random, width)),
            };
            let Ok(answer) = expected(&call) else {
                return calls;
            };
            scripts::follow(&mut from, answer);
        }
        let log = from.log.into_owned();
        calls.push(Call::element_at(log.clone(), 2, turn % 2));
        match turn {
            0 => calls.push(Call::element_at(log, 2, 2)),
            1 => calls.push(Call::element_at(log, 1, 1)),
            2 => calls.push(Call::element_at(log, 3, 0)),
            3 => calls.push(Call::element_at(log, 2, MAX)),
            4 => calls.push(Call::element_at(log, MAX, 0)),
            _ => {}
        }
    }
    calls.push(Call::element_at(&[][..], 0, 0));
    calls
}

/// Short scripts with room for two elements: each call where the one before it left the cursor.
fn random_scripts() -> Vec<Call<'static>> {
    let mut random = Random::new(15);
    let mut calls = Vec::new();
    for _ in 0..6 {
        let len = 8 + random.to(16);
        let frame = random.bytes(len);
        let log = scripts::unused(&mut random, 2 * WORDS);
        let mut from = Standing::new(frame, log, Place::new(8 * len));
        let mut end = 0;
        for _ in 0..4 {
            let call = scripts::step(&mut random, from.clone(), end);
            let Ok(answer) = expected(&call) else {
                return calls;
            };
            if scripts::follow(&mut from, answer) {
                end = from.place.pos;
            }
            calls.push(call);
        }
    }
    calls
}
