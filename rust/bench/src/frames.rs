//! Whole frames: headers, tails, checksums.

use crate::cursor::{empty_log, read_all, ELEMENTS, WIDTH};
use crate::rust::frames as rust;
use crate::{measure, CALLS, FRAME};
use std::hint::black_box;
use zelamodurk::bits;
use zelamodurk::frame::{self, Codec};

/// The bytes that a probe looks at.
const HEADER: usize = 6;

/// The rows of this file.
pub fn all(buffer: &[u8]) {
    probe(buffer);
    let frame = &buffer[..FRAME];
    // crc1 takes the Rust sixteen runs over the frame.
    for (codec, status, repair, limit) in [
        (Codec::Ac3, "status, AC-3 frame", "repair, AC-3 frame", 0.3),
        (
            Codec::Eac3,
            "status, E-AC-3 frame",
            "repair, E-AC-3 frame",
            1.0,
        ),
    ] {
        crc_status(status, frame, codec);
        repaired(repair, limit, frame, codec);
    }
    read_tail(frame);
}

/// Headers of both syntaxes and of any size. None is refused, since the Rust writes a text for it then.
fn headers(buffer: &[u8]) -> Vec<[u8; HEADER]> {
    let header = |turn: usize| {
        let byte = |at: usize| buffer[(HEADER * turn + at) % buffer.len()];
        let (fscod, frmsizecod) = (byte(0) % 3, byte(1) % 38);
        let bsid = [8, 16, 6, 12][turn % 4];
        [
            0x0B,
            0x77,
            byte(2),
            byte(3),
            fscod << 6 | frmsizecod,
            bsid << 3,
        ]
    };
    (0..CALLS).map(header).collect()
}

fn probe(buffer: &[u8]) {
    let headers = headers(buffer);
    measure(
        "probe",
        1.5,
        headers.len(),
        || {
            for header in &headers {
                let _ = black_box(frame::probe(black_box(header)));
            }
        },
        || {
            for header in &headers {
                black_box(rust::probe(black_box(header)));
            }
        },
    );
}

fn crc_status(name: &str, frame: &[u8], codec: Codec) {
    measure(
        name,
        1.0,
        1,
        || {
            let _ = black_box(frame::crc_status(black_box(frame), codec));
        },
        || {
            black_box(rust::crc_status(black_box(frame), codec));
        },
    );
}

/// Both repair a frame of their own again and again: a good frame takes as long as a broken one.
fn repaired(name: &str, limit: f64, frame: &[u8], codec: Codec) {
    let (mut ours, mut rusts) = (frame.to_vec(), frame.to_vec());
    measure(
        name,
        limit,
        1,
        || {
            let _ = black_box(frame::repair(black_box(&mut ours), codec));
        },
        || rust::repair(black_box(&mut rusts), codec),
    );
}

/// A tail with no user bits behind elements that tile, so that both sides look at every element. Both write
/// the tail's own behind them anew in each pass.
fn read_tail(frame: &[u8]) {
    let mut frame = frame.to_vec();
    let total = 8 * frame.len();
    let _ = bits::set(&mut frame, total - 18, 1, 0);
    let (mut begin, mut log) = empty_log(&frame);
    read_all(&frame, &mut log, &mut begin);
    log.resize(8 * (ELEMENTS + 4), 0);
    let mut tail = rust::Tail::new(&frame, ELEMENTS, WIDTH);
    measure(
        "tail after 700 elements",
        1.0,
        1,
        || {
            let mut place = begin;
            let _ = black_box(frame::read_tail(
                &frame,
                &mut log,
                &mut place,
                total,
                Codec::Ac3,
            ));
        },
        || {
            black_box(tail.read(total));
        },
    );
}
