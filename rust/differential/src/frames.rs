//! The cases of frames: every header, tails of every short frame and random ones, and checksums of every
//! length, good, broken and such that a repair inverts the reserved bit.

use crate::answers::expected;
use crate::call::{Call, Standing};
use crate::cases::HUGE;
use crate::random::Random;
use crate::rule::frame::{AUXDATAL, LAST};
use crate::scripts::{spans, unused};
use zelamodurk::frame::Codec;
use zelamodurk::syntax::{Place, WORDS};
use zelamodurk::{bits, crc};

/// Both syntaxes.
pub const CODECS: [Codec; 2] = [Codec::Ac3, Codec::Eac3];
/// How many random headers and tails there are.
const HEADERS: usize = 40_000;
const TAILS: usize = 120_000;
/// The longest frame.
const LONGEST: usize = 4096;

/// Hands every case to `visit`.
pub fn all(visit: &mut impl FnMut(&Call)) {
    every_size(visit);
    every_sync(visit);
    random_headers(visit);
    short_tails(visit);
    rooms(visit);
    unfit_tails(visit);
    let mut random = Random::new(41);
    for _ in 0..TAILS {
        visit(&any_tail(&mut random));
    }
    checksums(visit);
    unfit_lengths(visit);
    inverted(visit);
}

/// Every bsid with every byte of fscod and frmsizecod, and with every frmsiz.
fn every_size(visit: &mut impl FnMut(&Call)) {
    let mut random = Random::new(40);
    for bsid in 0..32 {
        let byte5 = bsid << 3 | random.to(7) as u8;
        for byte4 in 0..=255 {
            let crc1 = random.bytes(2);
            visit(&Call::probe(
                &[0x0B, 0x77, crc1[0], crc1[1], byte4, byte5][..],
            ));
        }
        for frmsiz in 0..2048_u16 {
            let [high, low] = (frmsiz | (random.to(31) as u16) << 11).to_be_bytes();
            let byte4 = random.bits() as u8;
            visit(&Call::probe(&[0x0B, 0x77, high, low, byte4, byte5][..]));
        }
    }
}

/// Every first word, before every bsid in turn; and what is too short for a header, with and without a sync
/// word.
fn every_sync(visit: &mut impl FnMut(&Call)) {
    for word in 0..=u16::MAX {
        let [high, low] = word.to_be_bytes();
        visit(&Call::probe(&[high, low, 0, 0, 0, low][..]));
    }
    for start in [[0x0B, 0x77], [0x0B, 0x76], [0x77, 0x0B]] {
        for byte5 in [0x40, 0x48, 0x80, 0xFF] {
            let bytes = [start[0], start[1], 0x00, 0x3F, 0x3F, byte5, 0xFF];
            (0..=7).for_each(|len| visit(&Call::probe(&bytes[..len])));
        }
    }
}

/// Random bytes, most of them with a sync word and enough for a header.
fn random_headers(visit: &mut impl FnMut(&Call)) {
    let mut random = Random::new(42);
    for _ in 0..HEADERS {
        let len = match random.to(15) {
            0 => random.to(5),
            _ => 6 + random.to(4),
        };
        let mut bytes = random.bytes(len);
        if len >= 2 && random.to(7) > 0 {
            bytes[..2].copy_from_slice(&[0x0B, 0x77]);
            // At times one bit of it is another.
            if random.to(7) == 0 {
                bytes[random.to(1)] ^= 1 << random.to(7);
            }
        }
        visit(&Call::probe(bytes));
    }
}

/// A log of one element from bit 0 to a position, with room for so many, and the cursor at the position.
fn after_one(random: &mut Random, frame: &[u8], pos: usize, room: usize) -> Standing<'static> {
    let words = WORDS * room + random.to(WORDS - 1);
    let mut log = unused(random, words);
    let place = Place {
        pos,
        block: random.one(&[-1, 0, 5, i8::MIN, i8::MAX]),
        count: room.min(1),
        ..Place::new(8 * frame.len())
    };
    if room > 0 {
        log[..WORDS].copy_from_slice(&spans(&[(0, pos as u32)]));
    }
    Standing::new(frame.to_vec(), log, place)
}

/// Every position and total to 2 bits past a frame of 3 to 6 bytes, with both values of auxdatae and an
/// auxdatal that just fits, or just doesn't.
fn short_tails(visit: &mut impl FnMut(&Call)) {
    let mut random = Random::new(43);
    for len in 3..=6 {
        for total in 0..=8 * len + 2 {
            for pos in 0..=total + 2 {
                for (turn, over) in [(0, 0), (1, 0), (1, 1)] {
                    let mut frame = random.bytes(len);
                    end_with(&mut frame, total, turn, room_for_user(total, pos) + over);
                    let from = after_one(&mut random, &frame, pos, 6);
                    visit(&Call::read_tail(from, total, random.one(&CODECS)));
                }
            }
        }
    }
}

/// The bits of auxbits where auxdatal stands behind them, 0 where it has no room.
fn room_for_user(total: usize, pos: usize) -> usize {
    total.saturating_sub(pos).saturating_sub(AUXDATAL + LAST)
}

/// Writes auxdatae where it is in a frame of so many bits, and auxdatal before it; what is not there is left
/// out.
fn end_with(frame: &mut [u8], total: usize, auxdatae: u32, auxdatal: usize) {
    let Some(at) = total.checked_sub(LAST) else {
        return;
    };
    let _ = bits::set(frame, at, 1, auxdatae);
    if auxdatae == 1 && at >= AUXDATAL {
        let _ = bits::set(frame, at - AUXDATAL, AUXDATAL, auxdatal as u32);
    }
}

/// Logs with room for no element to seven, with and without auxdatal, one that fits and one that doesn't; a
/// count at, before and past the room.
fn rooms(visit: &mut impl FnMut(&Call)) {
    let mut random = Random::new(44);
    for room in 0..=7 {
        for (auxdatae, auxdatal) in [(0, 0), (1, 0), (1, 24), (1, 25)] {
            for codec in CODECS {
                let mut frame = random.bytes(8);
                end_with(&mut frame, 64, auxdatae, auxdatal);
                let from = || after_one(&mut Random::new(room as u64), &frame, 8, room);
                visit(&Call::read_tail(from(), 64, codec));
                for count in (0..=room + 2).chain(HUGE) {
                    let place = Place {
                        count,
                        ..from().place
                    };
                    visit(&Call::read_tail(from().at(place), 64, codec));
                }
            }
        }
    }
}

/// Totals, limits and positions around the end of short frames and of the longest, and huge ones.
fn unfit_tails(visit: &mut impl FnMut(&Call)) {
    let mut random = Random::new(45);
    for len in [8, 4095, 4096, 4097] {
        let mut frame = random.bytes(len);
        let end = 8 * len;
        end_with(&mut frame, end, 1, 0);
        let near = [end - 8, end - 1, end, end + 1, end + 8, 32_768, 32_769];
        let mut numbers: Vec<[usize; 3]> = Vec::new();
        for pos in [0, end - 33, end - 32, end - 31, end - 18, end - 17, end] {
            for total in near {
                numbers.extend(near.map(|limit| [total, limit, pos]));
            }
            numbers.extend(HUGE.map(|huge| [huge, end, pos]));
            numbers.extend(HUGE.map(|huge| [end, huge, pos]));
            numbers.extend(HUGE.map(|huge| [huge, huge, pos]));
        }
        numbers.extend(HUGE.map(|huge| [end, end, huge]));
        numbers.extend(HUGE.map(|huge| [huge, huge, huge]));
        for [total, limit, pos] in numbers {
            let mut from = after_one(&mut random, &frame, pos, 6);
            from.place.limit = limit;
            visit(&Call::read_tail(from, total, random.one(&CODECS)));
        }
    }
}

/// A random tail: mostly of a whole frame whose log tiles it up to the cursor.
fn any_tail(random: &mut Random) -> Call<'static> {
    let len = match random.to(63) {
        0 => random.to(LONGEST),
        _ => random.to(40),
    };
    let mut frame = random.bytes(len);
    let total = match random.to(9) {
        0 => random.to(8 * len + 1),
        _ => 8 * len,
    };
    let pos = match random.to(3) {
        0 => total.saturating_sub(LAST + AUXDATAL + random.to(3)),
        1 => total.saturating_sub(random.to(LAST + AUXDATAL + 2)),
        _ => random.to(total),
    };
    let most = room_for_user(total, pos);
    let auxdatal = match random.to(3) {
        0 => random.to(most),
        1 => most,
        2 => most + 1,
        _ => random.to((1 << AUXDATAL) - 1),
    };
    end_with(&mut frame, total, random.to(1) as u32, auxdatal);
    let from = tiled(random, frame, pos);
    let place = strayed(random, &from, total);
    Call::read_tail(from.at(place), total, random.one(&CODECS))
}

/// A log whose elements tile what is before the cursor, at times with a bit too many or too few, and room for
/// some more.
fn tiled(random: &mut Random, frame: Vec<u8>, pos: usize) -> Standing<'static> {
    let mut widths = Vec::new();
    let mut at = 0;
    while at < pos && widths.len() < 8 {
        let width = 1 + random.to(pos - at - 1);
        widths.push((at as u32, width as u32));
        at += width;
    }
    widths.push((at as u32, (pos - at) as u32));
    if random.to(9) == 0 {
        let broken = random.to(widths.len() - 1);
        let (start, width) = &mut widths[broken];
        let number = if random.to(1) == 0 { start } else { width };
        *number = number.wrapping_add(random.one(&[1, u32::MAX]));
    }
    let mut log = spans(&widths);
    let more = WORDS * random.to(8) + random.to(WORDS - 1);
    log.extend(unused(random, more));
    let place = Place {
        pos,
        block: random.bits() as i8,
        count: widths.len(),
        ..Place::new(8 * frame.len())
    };
    Standing::new(frame, log, place)
}

/// The cursor's place, at times with another limit, count or position.
fn strayed(random: &mut Random, from: &Standing, total: usize) -> Place {
    let mut place = from.place;
    match random.to(39) {
        0 => place.limit = place.limit.wrapping_add(random.one(&[1, usize::MAX, 8])),
        1 => place.limit = total + random.to(2),
        2 => place.limit = random.one(&HUGE),
        3 => place.count = from.log.len() / WORDS + random.to(2),
        4 => place.count -= 1,
        5 => place.pos = random.one(&HUGE),
        6 => place.pos = usize::MAX - random.to(40),
        _ => {}
    }
    place
}

/// Random bytes of every length to the longest, and zeros and ones of some: the status, the repair, the
/// status after it, and both again with one bit broken.
fn checksums(visit: &mut impl FnMut(&Call)) {
    let mut random = Random::new(46);
    for len in (4..=LONGEST).step_by(2) {
        for codec in CODECS {
            let bytes = random.bytes(len);
            mended(&mut random, &bytes, codec, visit);
            if len < 64 || len % 512 == 0 {
                mended(&mut random, &vec![0x00; len], codec, visit);
                mended(&mut random, &vec![0xFF; len], codec, visit);
            }
        }
    }
}

fn mended(random: &mut Random, frame: &[u8], codec: Codec, visit: &mut impl FnMut(&Call)) {
    let Some(mut frame) = both(frame, codec, visit) else {
        return;
    };
    let bit = random.to(8 * frame.len() - 1);
    frame[bit / 8] ^= 0x80 >> (bit % 8);
    both(&frame, codec, visit);
}

/// The status of a frame, its repair, and the status and repair after that. The frame that is repaired, or
/// none where that is refused.
fn both(frame: &[u8], codec: Codec, visit: &mut impl FnMut(&Call)) -> Option<Vec<u8>> {
    visit(&Call::crc_status(frame, codec));
    let repair = Call::repair(frame, codec);
    visit(&repair);
    // A difference between the Rust and document 01 is told by the visit.
    let answer = expected(&repair).ok()?;
    if answer.number != 0 {
        return None;
    }
    visit(&Call::crc_status(&answer.after, codec));
    visit(&Call::repair(&answer.after, codec));
    Some(answer.after)
}

/// Odd lengths, and such as are too short or too long.
fn unfit_lengths(visit: &mut impl FnMut(&Call)) {
    let mut random = Random::new(47);
    let long = [4098, 4100, 8192, 32_768, 65_536, 65_544];
    for len in (0..8).chain((9..=LONGEST + 1).step_by(2)).chain(long) {
        let bytes = random.bytes(len);
        for codec in CODECS {
            visit(&Call::crc_status(&bytes, codec));
            visit(&Call::repair(&bytes, codec));
        }
    }
}

/// Frames of every length whose crc2 would be the sync word.
fn inverted(visit: &mut impl FnMut(&Call)) {
    let mut random = Random::new(48);
    let words = words_by_crc();
    for len in (8..=LONGEST).step_by(2) {
        for codec in CODECS {
            let mut frame = random.bytes(len);
            clash(&mut frame, codec, &words);
            both(&frame, codec, visit);
        }
    }
}

/// The word of each CRC: what brings the register from 0 to it.
fn words_by_crc() -> Vec<u16> {
    let mut words = vec![0; 1 << 16];
    for word in 0..=u16::MAX {
        words[usize::from(crc::crc16(0, &word.to_be_bytes()))] = word;
    }
    words
}

/// Sets the word before crc2 so that crc2 would be the sync word, in a frame of an even length from 8 on. In
/// AC-3 the register is 0 at the 5/8 point once crc1 is good.
fn clash(frame: &mut [u8], codec: Codec, words: &[u16]) {
    let count = frame.len() / 2;
    let (start, at) = match codec {
        Codec::Ac3 => (2 * (count / 2 + count / 8), frame.len() - 4),
        Codec::Eac3 => (2, frame.len() - 4),
    };
    // What the register holds is added to the word.
    let held = crc::crc16(0, &frame[start..at]);
    let word = words[0x0B77] ^ held;
    frame[at..at + 2].copy_from_slice(&word.to_be_bytes());
}
