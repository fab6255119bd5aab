//! The frames of real streams: their length, their checksums as they are and with one bit broken, and their
//! tails.
#![forbid(unsafe_code)]

use differential::call::{Call, Standing};
use differential::frames::CODECS;
use differential::random::Random;
use differential::scripts::spans;
use differential::streams;
use differential::tally::Tally;
use std::thread;
use zelamodurk::frame::{self, Codec, Status};
use zelamodurk::syntax::{Place, WORDS};
use zelamodurk::EMULATED;

/// How many bits of each frame are broken under an emulator.
const BROKEN: usize = 24;

/// Every frame of every stream.
fn frames() -> Vec<(Codec, Vec<u8>)> {
    let of = |codec| streams::frames(codec).unwrap().into_iter();
    let with = |codec| of(codec).map(move |frame| (codec, frame));
    CODECS.into_iter().flat_map(with).collect()
}

fn good(codec: Codec) -> Status {
    Status {
        crc1: (codec == Codec::Ac3).then_some(true),
        crc2: true,
    }
}

/// Cutting the streams shows that every frame is as long as its header says: the next one begins there.
#[test]
fn every_frame_is_good_and_a_repair_leaves_it() {
    let frames = frames();
    for codec in CODECS {
        assert!(frames.iter().any(|(of, _)| *of == codec));
    }
    for (codec, bytes) in frames {
        assert_eq!(frame::crc_status(&bytes, codec), Ok(good(codec)));
        let mut repaired = bytes.clone();
        frame::repair(&mut repaired, codec).unwrap();
        assert!(repaired == bytes, "a repair changed a good frame");
    }
}

/// Where the checksums of a frame stand, and its reserved bit, which a repair may invert.
fn may_change(codec: Codec, len: usize, at: usize) -> u8 {
    match (codec, at) {
        (Codec::Ac3, 2 | 3) => 0xFF,
        (Codec::Ac3, _) if at == len - 3 => 1,
        _ if at >= len - 2 => 0xFF,
        _ => 0,
    }
}

/// Breaks a bit, sees it in the status, and repairs the frame.
fn broken_bit_is_repaired(codec: Codec, good_frame: &[u8], bit: usize) {
    let mut frame = good_frame.to_vec();
    frame[bit / 8] ^= 0x80 >> (bit % 8);
    let words = frame.len() / 2;
    let five = 16 * (words / 2 + words / 8);
    let seen = Status {
        crc1: (codec == Codec::Ac3).then_some(bit >= five),
        crc2: false,
    };
    assert_eq!(frame::crc_status(&frame, codec), Ok(seen), "bit {bit}");
    let broken = frame.clone();
    frame::repair(&mut frame, codec).unwrap();
    assert_eq!(frame::crc_status(&frame, codec), Ok(good(codec)));
    for (at, (now, then)) in frame.iter().zip(&broken).enumerate() {
        let other = now ^ then;
        assert_eq!(other & !may_change(codec, words * 2, at), 0, "byte {at}");
    }
}

/// Breaks one bit after the other behind the sync word, which is 16 bits: all, and under an emulator some.
fn broken_bits_are_repaired(codec: Codec, frame: &[u8]) {
    let bits = 16..8 * frame.len();
    if EMULATED {
        let mut random = Random::new(60);
        let some = (0..BROKEN).map(|_| bits.start + random.to(bits.len() - 1));
        some.for_each(|bit| broken_bit_is_repaired(codec, frame, bit));
    } else {
        bits.for_each(|bit| broken_bit_is_repaired(codec, frame, bit));
    }
}

#[test]
fn any_broken_bit_shows_and_is_repaired() {
    let frames = frames();
    let share = frames.len() / thread::available_parallelism().map_or(1, usize::from) + 1;
    thread::scope(|scope| {
        for part in frames.chunks(share) {
            scope.spawn(move || {
                for (codec, frame) in part {
                    broken_bits_are_repaired(*codec, frame);
                }
            });
        }
    });
}

/// A cursor behind one element, from the frame's start to the position.
fn behind(frame: &[u8], pos: usize) -> Standing<'_> {
    let mut log = spans(&[(0, pos as u32)]);
    log.resize(WORDS * 6, 0);
    let place = Place {
        pos,
        block: 5,
        count: 1,
        ..Place::new(8 * frame.len())
    };
    Standing::new(frame, log, place)
}

/// Headers, checksums and repairs of good and of broken frames, and tails from every bit of the last 64.
#[test]
#[cfg_attr(not(oracle), ignore = "the Rust is not there")]
fn the_core_agrees_with_the_rust_on_every_frame() {
    let (mut tally, mut random) = (Tally::default(), Random::new(61));
    for (codec, mut frame) in frames() {
        let total = 8 * frame.len();
        tally.compare(&Call::probe(&frame));
        for pos in (total - 64..=total).chain([0, total / 2]) {
            tally.compare(&Call::read_tail(behind(&frame, pos), total, codec));
        }
        for _ in 0..3 {
            tally.compare(&Call::crc_status(&frame, codec));
            tally.compare(&Call::repair(&frame, codec));
            let bit = random.to(total - 1);
            frame[bit / 8] ^= 0x80 >> (bit % 8);
        }
    }
    assert_eq!(tally.differs, None);
}
