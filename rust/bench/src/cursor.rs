//! The cursor and its log: reads, spans, tiling, and what a role is.

use crate::rust::cursor::{self as rust, Reader};
use crate::{measure, A_TENTH, BYTES};
use std::hint::black_box;
use zelamodurk::syntax::{self, names, Place, Role};

/// The elements of a log, some as many as a frame has, and the width of each.
pub const ELEMENTS: usize = 700;
pub const WIDTH: usize = 5;
/// The width of a span: the bits of the buffer are enough for as many of them.
const SPAN: usize = 8 * BYTES / ELEMENTS;
/// The name and the role of a span.
const SPANNED: (u32, Role) = (names::AUXBITS, Role::AuxBits);
/// A role that is nothing, and one of each kind.
const ROLES: [Role; 4] = [Role::Plain, Role::Compr(0), Role::Crc2, Role::Mantissas];

/// The rows of this file.
pub fn all(frame: &[u8]) {
    read_element(frame);
    read_raw(frame);
    span(frame);
    close_span(frame);
    check_tiling(frame);
    roles(frame);
}

/// A place at the frame's start, and room for the elements.
pub fn empty_log(frame: &[u8]) -> (Place, Vec<u32>) {
    (Place::new(8 * frame.len()), vec![0; 8 * ELEMENTS])
}

/// Reads and logs the elements from the frame's start on.
pub fn read_all(frame: &[u8], log: &mut [u32], place: &mut Place) {
    for index in 0..ELEMENTS {
        let ask = syntax::Ask {
            name: names::EXPS,
            role: Role::Plain,
            index: index as i16,
            width: WIDTH,
        };
        let _ = black_box(syntax::read_element(frame, log, place, &ask));
    }
}

/// The same by the Rust.
fn rust_reads_all(reader: &mut Reader) {
    reader.rewind();
    for index in 0..ELEMENTS {
        black_box(reader.read(index as i16, WIDTH));
    }
}

/// Both write all elements to a log that has the room, and begin it anew in each pass.
fn read_element(frame: &[u8]) {
    let (begin, mut log) = empty_log(frame);
    let mut reader = Reader::new(frame);
    measure(
        "logged read of 5 bits",
        1.5,
        ELEMENTS,
        || {
            let mut place = begin;
            read_all(frame, &mut log, &mut place);
        },
        || rust_reads_all(&mut reader),
    );
}

/// Both begin at the frame's start in each pass.
fn read_raw(frame: &[u8]) {
    let limit = 8 * frame.len();
    let mut reader = Reader::new(frame);
    measure(
        "raw read of 5 bits",
        A_TENTH,
        ELEMENTS,
        || {
            let mut pos = 0;
            for _ in 0..ELEMENTS {
                let _ = black_box(syntax::read_raw(frame, &mut pos, limit, WIDTH));
            }
        },
        || {
            reader.rewind();
            for _ in 0..ELEMENTS {
                black_box(reader.raw(WIDTH));
            }
        },
    );
}

/// Spans one behind the other; the log as with reads.
fn span(frame: &[u8]) {
    let (begin, mut log) = empty_log(frame);
    let mut reader = Reader::new(frame);
    let (name, role) = SPANNED;
    measure(
        "span",
        A_TENTH,
        ELEMENTS,
        || {
            let mut place = begin;
            for _ in 0..ELEMENTS {
                let _ = black_box(syntax::span(frame, &mut log, &mut place, name, role, SPAN));
            }
        },
        || {
            reader.rewind();
            for _ in 0..ELEMENTS {
                black_box(reader.span(SPAN));
            }
        },
    );
}

/// Spans from different starts up to a cursor that stays; the log as with reads.
fn close_span(frame: &[u8]) {
    let (mut begin, mut log) = empty_log(frame);
    begin.pos = ELEMENTS;
    let mut reader = Reader::new(frame);
    let (name, role) = SPANNED;
    measure(
        "closing of a span",
        A_TENTH,
        ELEMENTS,
        || {
            let mut place = begin;
            for start in 0..ELEMENTS {
                let closed = syntax::close_span(frame, &mut log, &mut place, name, role, start);
                let _ = black_box(closed);
            }
        },
        || {
            reader.rewind_to(begin.pos);
            for start in 0..ELEMENTS {
                reader.close_span(start);
            }
        },
    );
}

/// Logs that tile, so that both sides look at every element.
fn check_tiling(frame: &[u8]) {
    let (mut place, mut log) = empty_log(frame);
    read_all(frame, &mut log, &mut place);
    let mut reader = Reader::new(frame);
    rust_reads_all(&mut reader);
    let total = ELEMENTS * WIDTH;
    measure(
        "tiling of 700 elements",
        1.0,
        1,
        || {
            let _ = black_box(syntax::check_tiling(black_box(&log), place.count, total));
        },
        || {
            black_box(black_box(&reader).tiles(total));
        },
    );
}

/// The three tests of random roles.
fn roles(bytes: &[u8]) {
    let chosen = || bytes.iter().map(|byte| usize::from(*byte) % ROLES.len());
    let ours: Vec<Role> = chosen().map(|at| ROLES[at]).collect();
    let rusts: Vec<rust::Role> = chosen().map(|at| rust::ROLES[at]).collect();
    measure(
        "three tests of a role",
        A_TENTH,
        ours.len(),
        || {
            for role in &ours {
                black_box((role.is_drc(), role.is_checksum(), role.is_span()));
            }
        },
        || {
            for role in &rusts {
                black_box((
                    rust::is_drc(*role),
                    rust::is_checksum(*role),
                    rust::is_span(*role),
                ));
            }
        },
    );
}
