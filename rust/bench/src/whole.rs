//! Whole frames by the Rust's own parser, over the Rust's modules and over the drop-in core.

use crate::{measure, passes, rust::whole, Times};
use differential::streams;
use std::hint::black_box;
use zelamodurk::frame::Codec;

/// At most this much of the Rust's time.
const LIMIT: f64 = 1.3;

/// A row for the frames of each stream, one after another, and one for the frame that compares worst where
/// it is parsed by itself again and again. Without the Rust there is no parser, and no row; nor is there one for a
/// stream that can't be cut, or has no frame.
pub fn all() {
    if !whole::lend() {
        return;
    }
    let mut all = Vec::new();
    for file in streams::files(Codec::Eac3).unwrap_or_default() {
        let frames = streams::cut(&file).unwrap_or_default();
        if frames.is_empty() {
            continue;
        }
        let name = file.file_stem().unwrap_or_default().to_string_lossy();
        parse(&format!("parse, {name}"), &frames);
        all.extend(frames);
    }
    if let Some(worst) = worst(&all) {
        parse("parse, worst frame alone", std::slice::from_ref(worst));
    }
}

fn drop_in(frames: &[Vec<u8>]) {
    for frame in black_box(frames) {
        black_box(whole::drop_in(frame));
    }
}

fn original(frames: &[Vec<u8>]) {
    for frame in black_box(frames) {
        black_box(whole::original(frame));
    }
}

/// The row of one of these frames, parsed one after another.
fn parse(name: &str, frames: &[Vec<u8>]) {
    let (ours, rusts) = (|| drop_in(frames), || original(frames));
    measure(name, LIMIT, frames.len(), ours, rusts);
}

/// The frame that compares worst, by a quarter of the passes for each: there are many.
fn worst(frames: &[Vec<u8>]) -> Option<&Vec<u8>> {
    let ratio = |frame| {
        let frame = std::slice::from_ref(frame);
        let (ours, rusts) = (|| drop_in(frame), || original(frame));
        Times::best_of(passes().div_ceil(4), ours, rusts).ratio()
    };
    let ratios = frames.iter().map(|frame| (ratio(frame), frame));
    let worst = ratios.max_by(|(a, _), (b, _)| a.total_cmp(b));
    worst.map(|(_, frame)| frame)
}
