//! Frames made of random bits behind a header, so that what no stream at hand has is met too: spectral
//! extension, offsets and gains by block, delta segments of coupling, mixing data. Nearly all random
//! exponents and gain words are refused; each that is gets one that passes, until something else is refused or
//! the frame is taken.

use super::refusal::{Refusal, GAIN, GROUP};
use super::Told;
use crate::random::Random;
use crate::rust;
use zelamodurk::bits;

/// How often a frame is mended: more than it can have groups.
const MENDED: usize = 2500;
/// The group of three steps of 0, and the bits of an absolute exponent.
const LEVEL: u32 = 62;
const ABSOLUTE: usize = 4;

/// A frame of random bits.
pub fn frame(random: &mut Random) -> Vec<u8> {
    let mut frame = bytes(random);
    header(random, &mut frame);
    for _ in 0..MENDED {
        let Some(Told::Refused(refusal)) = rust::over_drop_in(&frame) else {
            break;
        };
        if !mend(&mut frame, &refusal) {
            break;
        }
    }
    frame
}

/// Bytes of up to the longest frame, of which at times few bits are set.
fn bytes(random: &mut Random) -> Vec<u8> {
    let len = random.one(&[4096, 4096, 2048, 512]);
    let mut bytes = random.bytes(len);
    if random.to(1) == 0 {
        let others = random.bytes(len);
        bytes
            .iter_mut()
            .zip(others)
            .for_each(|(to, and)| *to &= and);
    }
    bytes
}

/// A header that the parser takes, with any strmtyp, fscod, number of blocks and channels.
fn header(random: &mut Random, frame: &mut [u8]) {
    let words = frame.len() / 2;
    let numbers = [
        (16, 0x0B77),
        (2, random.to(2)),
        (3, random.to(7)),
        (11, words - 1),
        (2, random.to(2)),
        (2, random.one(&[0, 1, 1, 2, 2, 3])),
        (3, random.to(7)),
        (1, random.to(1)),
        (5, 11 + random.to(5)),
    ];
    let mut pos = 0;
    for (width, number) in numbers {
        let _ = bits::set(frame, pos, width, number as u32);
        pos += width;
    }
}

/// Sets what was refused to what passes; false where that is nothing of these.
fn mend(frame: &mut [u8], refusal: &Refusal) -> bool {
    let Some(bit) = refusal.bit() else {
        return false;
    };
    let (width, number) = match refusal.number {
        7 => (GROUP, LEVEL),
        8 if bits::get(frame, bit - GROUP, GROUP) != Ok(LEVEL) => (GROUP, LEVEL),
        // The absolute exponent of coupling is too large by itself.
        8 => return bits::set(frame, bit - GROUP - ABSOLUTE, ABSOLUTE, 8).is_ok(),
        14 => (GAIN, 0),
        _ => return false,
    };
    bits::set(frame, bit - width, width, number).is_ok()
}
