//! Bits of lent bytes, and CRC-16.

use crate::rust::bytes as rust;
use crate::{measure, Ask, A_TENTH, BYTES, FRAME};
use std::hint::black_box;
use zelamodurk::{bits, crc};

/// The range that is compared, and where it begins: inside a byte.
const RANGE: usize = 32_000;
const FROM: usize = 3;

/// The rows of this file.
pub fn all(buffer: &[u8], calls: &[Ask]) {
    get(buffer, calls);
    set(buffer, calls);
    crc16(buffer);
    range_eq(buffer);
    range_zero();
}

fn get(buffer: &[u8], calls: &[Ask]) {
    measure(
        "get, widths 0 to 32",
        1.2,
        calls.len(),
        || {
            for ask in calls {
                let _ = black_box(bits::get(buffer, ask.pos, ask.n));
            }
        },
        || {
            for ask in calls {
                black_box(rust::get(buffer, ask.pos, ask.n));
            }
        },
    );
}

fn set(buffer: &[u8], calls: &[Ask]) {
    let (mut ours, mut rusts) = (buffer.to_vec(), buffer.to_vec());
    measure(
        "set, widths 0 to 32",
        1.0,
        calls.len(),
        || {
            for ask in calls {
                let _ = black_box(bits::set(&mut ours, ask.pos, ask.n, ask.value));
            }
        },
        || {
            for ask in calls {
                rust::set(&mut rusts, ask.pos, ask.n, ask.value);
            }
        },
    );
}

fn crc16(buffer: &[u8]) {
    let frame = &buffer[..FRAME];
    measure(
        "crc16 of 1,792 bytes",
        1.0,
        1,
        || {
            black_box(crc::crc16(0, black_box(frame)));
        },
        || {
            black_box(rust::crc16(0, black_box(frame)));
        },
    );
}

/// Equal ranges, so that both sides look at every bit.
fn range_eq(buffer: &[u8]) {
    let other = buffer.to_vec();
    let (x, y) = (buffer, &other[..]);
    measure(
        "range_eq of 32,000 bits",
        0.5,
        1,
        || {
            let _ = black_box(bits::range_eq(
                black_box(x),
                FROM,
                black_box(y),
                FROM,
                RANGE,
            ));
        },
        || {
            black_box(rust::range_eq(
                black_box(x),
                FROM,
                black_box(y),
                FROM,
                RANGE,
            ));
        },
    );
}

/// Zeros, so that both sides look at every bit.
fn range_zero() {
    let zeros = [0; BYTES];
    measure(
        "range_zero of 32,000 bits",
        A_TENTH,
        1,
        || {
            let _ = black_box(bits::range_zero(black_box(&zeros), FROM, RANGE));
        },
        || {
            black_box(rust::range_zero(black_box(&zeros), FROM, RANGE));
        },
    );
}
