//! Measures the core beside the Rust that it was ported from: both in one run, through the calls
//! that a program makes, best of many passes. It measures and judges nothing: the status is 0.
//!
//! Every function of the core has a row, but a run of zeros and a look at an element: the Rust has no
//! such functions.
#![forbid(unsafe_code)]

mod bytes;
mod channel;
mod cursor;
mod deltas;
mod frames;
mod rust;
mod slots;
mod whole;

use std::time::Instant;
use zelamodurk::bits;

/// The buffer's bytes, and the calls in a pass of short operations.
const BYTES: usize = 4096;
const CALLS: usize = 4096;
/// A frame of 448 kbit/s at 48 kHz.
const FRAME: usize = 1792;
/// The limit of what was never given one: what passes it is explained in docs/PERFORMANCE.md.
const A_TENTH: f64 = 1.1;

fn main() {
    let (buffer, calls) = inputs();
    println!(
        "{:<26}{:>12}{:>12}{:>10}{:>8}",
        "operation", "ours, ns", "Rust, ns", "ratio", "limit"
    );
    bytes::all(&buffer, &calls);
    cursor::all(&buffer);
    channel::all(&buffer);
    slots::all(&buffer);
    deltas::all(&buffer);
    frames::all(&buffer);
    whole::all();
    if zelamodurk::EMULATED {
        println!("the core ran under the kit's emulator here: these times say nothing");
    }
}

/// Bytes of these values and widths, one after another.
fn written(values: impl IntoIterator<Item = (u32, usize)>) -> Vec<u8> {
    let (mut bytes, mut pos) = (vec![0; BYTES], 0);
    for (value, width) in values {
        let _ = bits::set(&mut bytes, pos, width, value);
        pos += width;
    }
    bytes.truncate(pos.div_ceil(8));
    bytes
}

/// A call's position, width and value.
#[derive(Clone, Copy)]
struct Ask {
    pos: usize,
    n: usize,
    value: u32,
}

/// Random bytes, and calls at random positions with widths from 0 to 32.
fn inputs() -> (Vec<u8>, Vec<Ask>) {
    let mut state: u64 = 7;
    // Knuth's generator, of which the high bits are good.
    let mut next = move || {
        state = state.wrapping_mul(6_364_136_223_846_793_005);
        state = state.wrapping_add(1_442_695_040_888_963_407);
        (state >> 32) as usize
    };
    let buffer = (0..BYTES).map(|_| next() as u8).collect();
    let ask = |_| {
        let n = next() % 33;
        Ask {
            pos: next() % (8 * BYTES - n + 1),
            n,
            value: next() as u32,
        }
    };
    (buffer, (0..CALLS).map(ask).collect())
}

/// How many passes: enough for the best one to be undisturbed.
fn passes() -> u32 {
    if zelamodurk::EMULATED {
        3
    } else {
        2000
    }
}

fn time(pass: &mut impl FnMut()) -> f64 {
    let start = Instant::now();
    pass();
    start.elapsed().as_nanos() as f64
}

/// The best times of both sides, in nanoseconds.
struct Times {
    ours: f64,
    rusts: f64,
}

impl Times {
    /// Times so many passes of both sides in turn.
    fn best_of(passes: u32, mut ours: impl FnMut(), mut rusts: impl FnMut()) -> Times {
        let mut best = Times {
            ours: f64::INFINITY,
            rusts: f64::INFINITY,
        };
        for _ in 0..passes {
            best.ours = best.ours.min(time(&mut ours));
            best.rusts = best.rusts.min(time(&mut rusts));
        }
        best
    }

    fn ratio(&self) -> f64 {
        self.ours / self.rusts
    }

    /// Prints a row.
    fn tell(&self, name: &str, limit: f64) {
        let Times { ours, rusts } = self;
        if rust::PRESENT {
            let ratio = self.ratio();
            let over = if ratio > limit { "  over" } else { "" };
            println!("{name:<26}{ours:>12.1}{rusts:>12.1}{ratio:>10.2}{limit:>8.1}{over}");
        } else {
            println!("{name:<26}{ours:>12.1}{:>12}{:>10}{limit:>8.1}", "-", "-");
        }
    }
}

/// Times both sides, and prints the row of one of `calls` calls.
fn measure(name: &str, limit: f64, calls: usize, ours: impl FnMut(), rusts: impl FnMut()) {
    let best = Times::best_of(passes(), ours, rusts);
    let each = Times {
        ours: best.ours / calls as f64,
        rusts: best.rusts / calls as f64,
    };
    each.tell(name, limit);
}
