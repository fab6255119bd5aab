//! The cases of syntax: every short read, span, closing and tiling; random scripts, each call of which
//! is made where the one before it left the cursor and the log; and the logs that scripts leave, looked
//! at element by element and tiled, whole and broken.

use crate::answers::{expected, Answer};
use crate::call::{Call, Standing};
use crate::cases::{HUGE, WIDTHS};
use crate::random::Random;
use crate::rust;
use zelamodurk::syntax::{Ask, Place, Role, POS, WIDTH, WORDS};

/// How many scripts there are.
const SCRIPTS: usize = 22_000;
/// Blocks that occur, and those at the ends of an `i8`.
const BLOCKS: [i8; 6] = [-1, 0, 1, 5, i8::MIN, i8::MAX];
/// Indices that occur, and those at the ends of an `i16`.
const INDICES: [i16; 7] = [-1, 0, 1, 4, 300, i16::MIN, i16::MAX];

/// Hands every case to `visit`.
pub fn all(visit: &mut impl FnMut(&Call)) {
    short_cursors(visit);
    short_tilings(visit);
    every_title(visit);
    wild_words(visit);
    long_logs(visit);
    let mut random = Random::new(6);
    for _ in 0..SCRIPTS {
        script(&mut random, visit);
    }
}

/// A name that the Rust has a text for, and a role.
pub fn title(random: &mut Random) -> (u32, Role) {
    let (name, _) = random.one(&rust::NAMES);
    let programme = random.one(&[0, 0, 1, 1, 2, 255]);
    (name, Role::of_word(random.to(20) as u32 + 32 * programme))
}

/// An element to ask for.
pub fn ask(random: &mut Random, width: usize) -> Ask {
    let (name, role) = title(random);
    let index = random.one(&INDICES);
    Ask {
        name,
        role,
        index,
        width,
    }
}

/// Words that no call has written.
pub fn unused(random: &mut Random, words: usize) -> Vec<u32> {
    (0..words).map(|_| random.bits() as u32).collect()
}

/// Every position and limit to 2 bits past a frame of at most a byte, with every width to 40 and every
/// start to 2 bits past the cursor; a log with room for one element, empty, full and past its room.
fn short_cursors(visit: &mut impl FnMut(&Call)) {
    let mut random = Random::new(7);
    for len in 0..=1 {
        let frame = random.bytes(len);
        for limit in 0..=8 * len + 2 {
            for pos in 0..=8 * len + 2 {
                let place = Place {
                    pos,
                    block: random.one(&BLOCKS),
                    ..Place::new(limit)
                };
                (0..=40).for_each(|width| visit(&Call::read_raw(&frame, place, width)));
                for count in 0..=2 {
                    short_logs(&mut random, &frame, Place { count, ..place }, visit);
                }
            }
        }
    }
}

fn short_logs(random: &mut Random, frame: &[u8], place: Place, visit: &mut impl FnMut(&Call)) {
    let words = WORDS + random.to(WORDS - 1);
    let log = unused(random, words);
    let from = || Standing::new(frame, &log, place);
    for width in 0..=40 {
        visit(&Call::read_element(from(), ask(random, width)));
        visit(&Call::span(from(), title(random), width));
    }
    for start in 0..=place.pos + 2 {
        visit(&Call::close_span(from(), title(random), start));
    }
}

/// Words of elements of which only positions and widths are of interest.
pub fn spans(spans: &[(u32, u32)]) -> Vec<u32> {
    let words = |&(pos, width): &(u32, u32)| [0, 0, 0, 0, pos, width, 0, 0];
    spans.iter().flat_map(words).collect()
}

/// Every log of at most three elements with positions to 3 and widths to 2, with every total to 6.
fn short_tilings(visit: &mut impl FnMut(&Call)) {
    let one: Vec<(u32, u32)> = (0..12).map(|i| (i / 3, i % 3)).collect();
    let mut logs: Vec<Vec<(u32, u32)>> = vec![vec![]];
    let mut longest = logs.clone();
    for _ in 0..3 {
        let longer = |log: &Vec<(u32, u32)>| {
            let log = log.clone();
            one.iter().map(move |next| [&log[..], &[*next]].concat())
        };
        longest = longest.iter().flat_map(longer).collect();
        logs.extend_from_slice(&longest);
    }
    for log in &logs {
        let words = spans(log);
        for total in 0..=6 {
            visit(&Call::check_tiling(&words, log.len(), total));
        }
    }
}

/// Every role with every programme, every block, and indices from end to end, logged and looked at.
fn every_title(visit: &mut impl FnMut(&Call)) {
    let roles = (0..=20).flat_map(|number| (0..256).map(move |p| Role::of_word(number + 32 * p)));
    let mut random = Random::new(8);
    for (turn, role) in roles.enumerate() {
        let place = Place {
            block: turn as u8 as i8,
            ..Place::new(8)
        };
        let from = Standing::new(vec![0xA5], unused(&mut random, WORDS), place);
        let ask = Ask {
            role,
            // No divisor of 65,536, so that low and high bytes all occur.
            index: (turn * 12_345) as i16,
            ..ask(&mut random, turn % 9)
        };
        let call = Call::read_element(from, ask);
        visit(&call);
        if let Ok(answer) = expected(&call) {
            visit(&Call::element_at(answer.log, 1, 0));
        }
    }
}

/// Elements out of words that no call has logged: roles that there are not, blocks and indices with
/// bits above their own.
fn wild_words(visit: &mut impl FnMut(&Call)) {
    let mut random = Random::new(9);
    for _ in 0..20_000 {
        let room = random.to(3);
        let words = WORDS * room + random.to(WORDS - 1);
        let mut log = unused(&mut random, words);
        for element in log.chunks_exact_mut(WORDS) {
            element[0] = title(&mut random).0;
        }
        let (count, k) = (random.to(room + 1), random.to(room + 1));
        visit(&Call::element_at(log, count, k));
    }
    for huge in HUGE {
        let log = spans(&[(0, 1), (1, 2)]);
        visit(&Call::element_at(&log, 2, huge));
        visit(&Call::element_at(&log, huge, 0));
        visit(&Call::check_tiling(&log, huge, 3));
        visit(&Call::check_tiling(&log, 2, huge));
    }
}

/// Logs around 4,096 elements, and frames around 4,096 bytes.
fn long_logs(visit: &mut impl FnMut(&Call)) {
    let mut random = Random::new(10);
    let bytes: Vec<(u32, u32)> = (0..4100).map(|k| (8 * k, 8)).collect();
    let log = spans(&bytes);
    for count in [4094, 4095, 4096, 4097, 4100, 4101] {
        for (pos, width) in [(0, 5), (32_760, 8), (32_761, 8), (32_768, 0), (32_769, 0)] {
            for (len, limit) in [(4096, 32_768), (4097, 32_768), (4097, 32_769)] {
                let place = Place {
                    pos,
                    limit,
                    block: 0,
                    count,
                };
                let frame = random.bytes(len);
                let from = || Standing::new(&frame, &log, place);
                visit(&Call::read_raw(&frame, place, width));
                visit(&Call::read_element(from(), ask(&mut random, width)));
                visit(&Call::span(from(), title(&mut random), width));
                visit(&Call::close_span(from(), title(&mut random), pos / 2));
            }
        }
        for off in [0, 1, 8] {
            visit(&Call::check_tiling(&log, count, 8 * count - off));
            visit(&Call::element_at(&log, 4096, count - off));
        }
    }
}

/// A script: calls at the cursor, each logged element looked at, and at times a call from a place where
/// the cursor is not; then the whole log.
fn script(random: &mut Random, visit: &mut impl FnMut(&Call)) {
    let mut standing = beginning(random);
    // Where the next element must begin for the log to tile.
    let mut end = standing.place.pos;
    for _ in 0..random.to(16) {
        standing.place.block = random.one(&BLOCKS);
        if random.to(2) == 0 {
            let place = astray(random, &standing);
            visit(&step(random, standing.lent().at(place), end));
        }
        let call = step(random, standing.lent(), end);
        visit(&call);
        // A difference between the Rust and document 01 is told by the visit.
        let Ok(answer) = expected(&call) else { return };
        if follow(&mut standing, answer) {
            let Place { pos, count, .. } = standing.place;
            visit(&Call::element_at(&*standing.log, count, count - 1));
            end = pos;
        }
    }
    look(random, &standing, end, visit);
}

/// Puts the cursor and the log to where a call left them. Whether it logged an element.
pub fn follow(standing: &mut Standing, after: Answer) -> bool {
    let Some(place) = after.place else {
        return false;
    };
    // A raw read answers no log; a log of no words stays so.
    if !after.log.is_empty() {
        standing.log = after.log.into();
    }
    let logged = place.count > standing.place.count;
    standing.place = place;
    logged
}

/// A frame, a log and a cursor to begin with: mostly at bit 0 with nothing logged.
fn beginning(random: &mut Random) -> Standing<'static> {
    let len = random.to(40);
    let limit = match random.to(15) {
        0 => 8 * len + 1 + random.to(8),
        1 => random.one(&[32_768, 32_769, usize::MAX]),
        2..=5 => random.to(8 * len),
        _ => 8 * len,
    };
    let room = random.to(12);
    let words = WORDS * room + random.to(WORDS - 1);
    let mut place = Place::new(limit);
    if random.to(7) == 0 {
        place.pos = random.to(8 * len + 1);
        place.count = random.to(room);
    }
    let mut log = unused(random, words);
    for element in log.chunks_exact_mut(WORDS) {
        element[0] = title(random).0;
    }
    Standing::new(random.bytes(len), log, place)
}

/// A place near the largest number, past the data, or past the log's room.
fn astray(random: &mut Random, standing: &Standing) -> Place {
    let (bits, room) = (8 * standing.frame.len(), standing.log.len() / WORDS);
    let mut place = standing.place;
    match random.to(5) {
        0 => place.pos = usize::MAX - random.to(40),
        1 => place.pos = random.one(&HUGE),
        2 => place.limit = bits + 1 + random.to(8),
        3 => place.limit = random.one(&HUGE),
        4 => place.count = room + 1 + random.to(1),
        _ => place.count = random.one(&HUGE),
    }
    place
}

/// The next call. A span that was read through is mostly closed before something else is logged, so
/// that many logs tile.
pub fn step<'a>(random: &mut Random, from: Standing<'a>, end: usize) -> Call<'a> {
    let open = from.place.pos != end && random.to(3) > 0;
    match random.to(7) {
        0 | 1 => Call::read_raw(from.frame, from.place, width(random)),
        2 => {
            let start = start(random, from.place.pos);
            Call::close_span(from, title(random), start)
        }
        _ if open => Call::close_span(from, title(random), end),
        3 | 4 => {
            let width = span_width(random, from.place);
            Call::span(from, title(random), width)
        }
        _ => {
            let width = width(random);
            Call::read_element(from, ask(random, width))
        }
    }
}

/// A width to 40, mostly a small one.
fn width(random: &mut Random) -> usize {
    match random.to(7) {
        0 => random.to(40),
        1 => random.one(&WIDTHS),
        _ => random.to(12),
    }
}

/// Any width: a huge one, one that ends around the limit, or a small one.
fn span_width(random: &mut Random, place: Place) -> usize {
    match random.to(7) {
        0 => random.one(&HUGE),
        1 => (place.limit.saturating_sub(place.pos)).saturating_add(random.to(1)),
        2 => usize::MAX - random.to(64),
        _ => random.to(30),
    }
}

/// A span's start before, at or past the cursor.
fn start(random: &mut Random, pos: usize) -> usize {
    match random.to(3) {
        0 => pos.saturating_add(1 + random.to(8)),
        1 => pos,
        2 => random.one(&HUGE),
        _ => pos.saturating_sub(random.to(40)),
    }
}

/// Every element of the log and the place after them; whether they tile, and whether they do with
/// something wrong.
fn look(random: &mut Random, standing: &Standing, end: usize, visit: &mut impl FnMut(&Call)) {
    let (log, count) = (&*standing.log, standing.place.count);
    for k in 0..=count {
        visit(&Call::element_at(log, count, k));
    }
    let past = log.len() / WORDS + 1 + random.to(1);
    visit(&Call::element_at(log, past, 0));
    visit(&Call::check_tiling(log, past, end));
    visit(&Call::check_tiling(log, count, end));
    visit(&Call::check_tiling(log, count, end.wrapping_add(1)));
    visit(&Call::check_tiling(log, count, end.wrapping_sub(1)));
    for _ in 0..4 {
        let (log, count) = broken(random, log, count);
        visit(&Call::check_tiling(log, count, end));
    }
}

/// The log's elements with a gap, an overlap, one left out, one twice, two changed places, one of no
/// width more, or numbers near the largest.
fn broken(random: &mut Random, log: &[u32], count: usize) -> (Vec<u32>, usize) {
    let mut elements: Vec<Vec<u32>> = log.chunks(WORDS).take(count).map(<[u32]>::to_vec).collect();
    if elements.is_empty() {
        return (spans(&[(0, random.to(2) as u32)]), 1);
    }
    let (at, other) = (random.to(count - 1), random.to(count - 1));
    let near = random.one(&[1, u32::MAX]);
    let copy = elements[at].clone();
    match random.to(7) {
        0 => elements[at][POS] = copy[POS].wrapping_add(near),
        1 => elements[at][WIDTH] = copy[WIDTH].wrapping_add(near),
        2 => elements.swap(at, other),
        3 => drop(elements.remove(at)),
        4 => elements.insert(at, copy),
        5 => {
            elements.insert(at, copy);
            elements[at][WIDTH] = 0;
        }
        6 => elements[at][WIDTH] = u32::MAX - random.to(1) as u32,
        _ => elements[at][POS] = u32::MAX - random.to(1) as u32,
    }
    (elements.concat(), elements.len())
}
