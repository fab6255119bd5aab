//! Frames. Probe: "3, 2, then bsid". Tail: "6 above the limit, then 16"; "if they'd begin before the cursor,
//! 17"; then the elements, "auxdatal (17 if above auxbits' width)"; "last, 18". Checksums: "even lengths to
//! 4,096, from 8 for AC-3 and 4 for E-AC-3; else 20".

use super::syntax::{is_unfit, room, tile, NOT_TILED};
use super::{first, BAD_ARGUMENT, LOG_FULL};
use crate::call::Standing;
use zelamodurk::frame::Codec;

const NO_SYNC: u8 = 2;
const SHORT_HEADER: u8 = 3;
const BAD_SIZE: u8 = 4;
const BAD_BSID: u8 = 5;
/// A total below the position + 18.
pub const NO_ROOM_FOR_TAIL: u8 = 16;
const BAD_AUX: u8 = 17;
/// A length unfit for a CRC.
pub const BAD_LENGTH: u8 = 20;

/// The last bits of a frame: auxdatae, one reserved bit, crc2.
pub const LAST: usize = 18;
/// The bits of auxdatal, which stand before them.
pub const AUXDATAL: usize = 14;

/// The n bits from a bit on, as a number. Bits that are not there are 0.
pub fn bits(frame: &[u8], pos: usize, n: usize) -> usize {
    let bit = |at: usize| frame.get(at / 8).map_or(0, |byte| byte >> (7 - at % 8) & 1);
    (pos..pos + n).fold(0, |number, at| 2 * number + usize::from(bit(at)))
}

/// 0 for a header that document 01 takes, or the number that it refuses it with.
pub fn header(frame: &[u8]) -> u8 {
    let bsid = bits(frame, 40, 5);
    let (fscod, frmsizecod) = (bits(frame, 32, 2), bits(frame, 34, 6));
    first(&[
        (SHORT_HEADER, frame.len() < 6),
        (NO_SYNC, bits(frame, 0, 16) != 0x0B77),
        (BAD_SIZE, bsid <= 8 && (fscod == 3 || frmsizecod > 37)),
        (BAD_BSID, bsid == 9 || bsid == 10 || bsid > 16),
    ])
}

/// The same of a tail. Its own elements follow the cursor and end at the total, so all tile the frame where
/// those before them tile what is before the cursor.
pub fn tail(from: &Standing, total: usize) -> u8 {
    let (frame, place, room) = (&from.frame, &from.place, room(&from.log));
    let left = room.saturating_sub(place.count);
    let has_aux = bits(frame, total.saturating_sub(LAST), 1) == 1;
    let auxdatal_at = total.saturating_sub(LAST + AUXDATAL);
    let aux = usize::from(has_aux);
    let passes = |n: usize| place.pos as u128 + n as u128 > total as u128;
    first(&[
        (BAD_ARGUMENT, total > place.limit || is_unfit(from)),
        (NO_ROOM_FOR_TAIL, passes(LAST)),
        (BAD_AUX, has_aux && passes(AUXDATAL + LAST)),
        (LOG_FULL, left < 1 + aux),
        (
            BAD_AUX,
            has_aux && place.pos.saturating_add(bits(frame, auxdatal_at, AUXDATAL)) > auxdatal_at,
        ),
        (LOG_FULL, left < 4 + aux),
        (NOT_TILED, !tile(&from.log, place.count, place.pos)),
    ])
}

/// The same of a frame whose checksums are asked for.
pub fn length(frame: &[u8], codec: Codec) -> u8 {
    let least = match codec {
        Codec::Ac3 => 8,
        Codec::Eac3 => 4,
    };
    let fit = (least..=4096).contains(&frame.len()) && frame.len().is_multiple_of(2);
    first(&[(BAD_LENGTH, !fit)])
}
