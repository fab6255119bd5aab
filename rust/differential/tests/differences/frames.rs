//! The places of frame. A tail is changed in one way from one that both take: 3 zero bytes, of which 6 bits are
//! one element, in block 5; auxbits have no bit.

use crate::{core_refuses, differ, rust_does, Rust, MAX};
use differential::call::{Call, Standing};
use differential::scripts::spans;
use differential::{core, rust};
use zelamodurk::frame::{self, Codec, Status, UserBits};
use zelamodurk::syntax::{Place, WORDS};

/// A cursor in a frame of zeros, behind one element, with room for five more.
fn behind(bytes: usize, pos: usize) -> Standing<'static> {
    let place = Place {
        pos,
        block: 5,
        count: 1,
        ..Place::new(8 * bytes)
    };
    let mut log = spans(&[(0, pos as u32)]);
    log.resize(WORDS * 6, 0);
    Standing::new(vec![0; bytes], log, place)
}

fn tail(from: Standing, total: usize) -> Call {
    Call::read_tail(from, total, Codec::Ac3)
}

/// Holds the Rust to a number, the position and the block of its cursor, and the count of its log; nothing is
/// asked where it is not there.
#[track_caller]
fn rust_leaves(call: &Call, number: u8, (pos, block, count): (usize, i8, usize)) {
    let Some(asked) = rust::ask(call) else {
        return;
    };
    assert!(!asked.panicked, "the Rust: {call}");
    let place = asked.answer.place.unwrap();
    assert_eq!(asked.answer.number, number, "the Rust: {call}");
    assert_eq!((place.pos, place.block, place.count), (pos, block, count));
}

/// The Rust takes the call, and leaves the cursor so; the core refuses it.
#[track_caller]
fn only_the_rust_takes(call: &Call, left: (usize, i8, usize), number: u8) {
    rust_leaves(call, 0, left);
    core_refuses(call, number);
}

#[test]
fn a_tail_is_taken_by_both() {
    let call = tail(behind(3, 6), 24);
    rust_leaves(&call, 0, (24, -1, 5));
    let answer = core::answer(&call).unwrap();
    assert_eq!(answer.number, 0);
    // Where the user bits stand is told by the core alone.
    let user = UserBits { start: 6, width: 0 };
    assert_eq!(answer.user, Some(user));
}

#[test]
fn tails_with_a_total_past_the_data() {
    let far = |limit, total| {
        let mut from = behind(3, 7);
        from.place.limit = limit;
        tail(from, total)
    };
    // The limit keeps the Rust from reading crc2; without it, it reads past the data.
    let call = far(24, 25);
    rust_leaves(&call, 1, (9, -1, 4));
    core_refuses(&call, 6);
    differ(&far(25, 25), Rust::Panics, 6);
    differ(&far(43, 43), Rust::Panics, 6);
    differ(&far(24, MAX), Rust::Panics, 6);
}

#[test]
fn tails_with_a_total_past_the_limit() {
    let mut from = behind(4, 14);
    from.place.limit = 31;
    let call = tail(from, 32);
    rust_leaves(&call, 1, (16, -1, 4));
    core_refuses(&call, 6);
}

#[test]
fn tails_with_an_unsound_limit() {
    let mut from = behind(3, 6);
    from.place.limit = 25;
    only_the_rust_takes(&tail(from, 24), (24, -1, 5), 6);
    let from = behind(4097, 32_750);
    only_the_rust_takes(&tail(from, 32_768), (32_768, -1, 5), 6);
}

#[test]
fn tails_whose_position_overflows() {
    // Position and 18 come round to a small number. The Rust logs auxbits at that position with a width of
    // 7, which brings the cursor round to bit 6, and the rest behind it; they don't tile.
    let mut from = behind(3, 6);
    from.place.pos = MAX;
    let call = tail(from, 24);
    if cfg!(debug_assertions) {
        rust_does(&call, &Rust::Panics);
    } else {
        rust_leaves(&call, 18, (24, -1, 5));
    }
    core_refuses(&call, 16);
}

#[test]
fn tails_with_a_full_log() {
    // The Rust's log grows. The core has logged what there was room for.
    for (room, pos) in [(1, 6), (2, 6), (3, 7), (4, 8)] {
        let mut from = behind(3, 6);
        from.log.to_mut().truncate(WORDS * room);
        let call = tail(from, 24);
        rust_leaves(&call, 0, (24, -1, 5));
        let answer = core::answer(&call).unwrap();
        assert_eq!((answer.number, answer.bit), (19, pos));
        let place = answer.place.unwrap();
        assert_eq!((place.pos, place.block, place.count), (pos, -1, room));
    }
}

#[test]
fn tails_with_a_count_past_the_room() {
    // The Rust counts for itself: it has one element, and logs four.
    let mut from = behind(3, 6);
    from.log.to_mut().truncate(8);
    from.place.count = 2;
    only_the_rust_takes(&tail(from, 24), (24, -1, 6), 6);
}

/// A frame of 5 bytes whose auxdatae is 1, with an auxdatal.
fn with_auxdatal(pos: usize, auxdatal: u32) -> Call<'static> {
    let mut from = behind(5, pos);
    let frame = from.frame.to_mut();
    zelamodurk::bits::set(frame, 22, 1, 1).unwrap();
    zelamodurk::bits::set(frame, 8, 14, auxdatal).unwrap();
    tail(from, 40)
}

#[test]
fn auxdatal_is_refused_by_both() {
    // It overlaps: nothing is logged, and the block is as before.
    let call = with_auxdatal(9, 0);
    rust_leaves(&call, 17, (9, 5, 1));
    core_refuses(&call, 17);
    // It exceeds the two bits of auxbits: both are logged.
    let call = with_auxdatal(6, 3);
    rust_leaves(&call, 17, (22, -1, 3));
    let answer = core::answer(&call).unwrap();
    let place = answer.place.unwrap();
    assert_eq!((answer.number, answer.bit), (17, 22));
    assert_eq!((place.pos, place.block, place.count), (22, -1, 3));
    // It is as long as they are.
    let call = with_auxdatal(6, 2);
    rust_leaves(&call, 0, (40, -1, 6));
    let user = core::answer(&call).unwrap().user;
    assert_eq!(user, Some(UserBits { start: 6, width: 2 }));
}

/// What the Rust says of checksums, or none where it panics; nothing is asked where it is not there.
#[track_caller]
fn rust_says(frame: &[u8], codec: Codec, status: Option<Status>) {
    if let Some(asked) = rust::ask(&Call::crc_status(frame, codec)) {
        assert_eq!(asked.answer.status, status, "{codec:?}, {frame:02x?}");
    }
    core_refuses(&Call::crc_status(frame, codec), 20);
}

const fn both(crc1: bool, crc2: bool) -> Option<Status> {
    Some(Status {
        crc1: Some(crc1),
        crc2,
    })
}

const fn second(crc2: bool) -> Option<Status> {
    Some(Status { crc1: None, crc2 })
}

#[test]
fn the_status_of_short_frames() {
    let ones = [0xFF; 8];
    (0..4).for_each(|len| rust_says(&ones[..len], Codec::Ac3, None));
    // crc1 is good over no bytes, whatever the frame holds.
    (4..8).for_each(|len| rust_says(&ones[..len], Codec::Ac3, both(true, false)));
    (0..2).for_each(|len| rust_says(&ones[..len], Codec::Eac3, None));
    // So is crc2 in a frame of two bytes.
    rust_says(&ones[..2], Codec::Eac3, second(true));
    rust_says(&ones[..3], Codec::Eac3, second(false));
}

#[test]
fn the_status_of_odd_and_long_frames() {
    for len in [9, 4097, 4098] {
        rust_says(&vec![0x00; len], Codec::Ac3, both(true, true));
        rust_says(&vec![0xFF; len], Codec::Ac3, both(false, false));
    }
    for len in [5, 4097, 4098] {
        rust_says(&vec![0x00; len], Codec::Eac3, second(true));
        rust_says(&vec![0xFF; len], Codec::Eac3, second(false));
    }
}

#[test]
fn the_repair_of_short_frames() {
    // In AC-3 the Rust has cleared crc1 when it panics.
    for len in 0..8 {
        let mut cleared = vec![0xFF; len];
        cleared
            .iter_mut()
            .skip(2)
            .take(2)
            .for_each(|byte| *byte = 0);
        let call = Call::repair(vec![0xFF; len], Codec::Ac3);
        differ(&call, Rust::PanicsHavingWritten(cleared), 20);
    }
    for len in 0..4 {
        let call = Call::repair(vec![0xFF; len], Codec::Eac3);
        differ(&call, Rust::PanicsHavingWritten(vec![0xFF; len]), 20);
    }
}

/// The Rust repairs a frame that the core refuses.
#[track_caller]
fn only_the_rust_repairs(len: usize, codec: Codec, status: Option<Status>) {
    let call = Call::repair(vec![0xFF; len], codec);
    core_refuses(&call, 20);
    if let Some(asked) = rust::ask(&call) {
        assert!(!asked.panicked);
        rust_says(&asked.answer.after, codec, status);
    }
}

#[test]
fn the_repair_of_odd_and_long_frames() {
    for len in [9, 4097, 4098] {
        only_the_rust_repairs(len, Codec::Ac3, both(true, true));
    }
    for len in [5, 4097, 4098] {
        only_the_rust_repairs(len, Codec::Eac3, second(true));
    }
}

/// 128 bytes: the first six, zeros, the last five.
fn with_zeros(crc1: [u8; 2], last: [u8; 3], crc2: [u8; 2]) -> Vec<u8> {
    let [high, low] = crc1;
    let first = [0x0B, 0x77, high, low, 0x00, 0x40];
    [&first[..], &[0; 117], &last, &crc2].concat()
}

#[test]
fn the_reserved_bit_is_inverted_by_both() {
    for last in [[0x00, 0xBC, 0x95], [0x01, 0x3C, 0x90]] {
        let call = Call::repair(with_zeros([0; 2], last, [0; 2]), Codec::Ac3);
        let [before, high, low] = last;
        let repaired = with_zeros([0x7F, 0xE1], [before, high, low ^ 1], [0x8B, 0x72]);
        assert_eq!(core::answer(&call).unwrap().after, repaired);
        rust_does(&call, &Rust::Leaves(repaired.clone()));
        assert!(frame::crc_status(&repaired, Codec::Ac3).unwrap().is_good());
        // crc2 would have been the sync word: it is the CRC of the bytes before it, and zeros change nothing.
        assert_eq!(zelamodurk::crc::crc16(0, &last), 0x0B77);
    }
}
