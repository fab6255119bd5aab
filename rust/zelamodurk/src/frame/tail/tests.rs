use super::*;
use crate::syntax::{self, names, Role};
use crate::{bits, Why};

/// A frame of 64 bits, of which the first 10 are one element, with auxdatae and, where that is 1, auxdatal.
fn tail(auxdatal: Option<u32>) -> ([u8; 8], Vec<u32>, Place) {
    let mut frame = [0x55; 8];
    bits::set(&mut frame, 46, 1, auxdatal.is_some().into()).unwrap();
    if let Some(length) = auxdatal {
        bits::set(&mut frame, 32, 14, length).unwrap();
    }
    let mut log = vec![0; 8 * 6];
    let mut place = Place::new(64);
    syntax::span(&frame, &mut log, &mut place, 300, Role::Plain, 10).unwrap();
    place.block = 5;
    (frame, log, place)
}

/// The name, position and width of every element.
fn logged(log: &[u32], count: usize) -> Vec<(u32, u32, u32)> {
    let element = |k| syntax::element_at(log, count, k).unwrap();
    let told = |k| (element(k).name, element(k).pos, element(k).width);
    (0..count).map(told).collect()
}

#[test]
fn a_tail_without_auxiliary_data() {
    let (frame, mut log, mut place) = tail(None);
    let user = read_tail(&frame, &mut log, &mut place, 64, Codec::Ac3).unwrap();
    assert_eq!((user.start, user.width, user.end()), (10, 0, 10));
    assert_eq!((place.pos, place.block, place.count), (64, -1, 5));
    let elements = [
        (300, 0, 10),
        (names::AUXBITS, 10, 36),
        (names::AUXDATAE, 46, 1),
        (names::CRCRSV, 47, 1),
        (names::CRC2, 48, 16),
    ];
    assert_eq!(logged(&log, place.count), elements);
}

#[test]
fn a_tail_with_auxiliary_data() {
    for length in [0, 5, 22] {
        let (frame, mut log, mut place) = tail(Some(length));
        let user = read_tail(&frame, &mut log, &mut place, 64, Codec::Eac3).unwrap();
        let width = length as usize;
        assert_eq!(
            (user.start, user.width, user.end()),
            (10, width, 10 + width)
        );
        assert_eq!((place.pos, place.block, place.count), (64, -1, 6));
        let elements = [
            (300, 0, 10),
            (names::AUXBITS, 10, 22),
            (names::AUXDATAL, 32, 14),
            (names::AUXDATAE, 46, 1),
            (names::ENCINFO, 47, 1),
            (names::CRC2, 48, 16),
        ];
        assert_eq!(logged(&log, place.count), elements);
    }
}

/// What a tail is refused for, and the place after it.
fn refusal_of(
    (frame, mut log, mut place): ([u8; 8], Vec<u32>, Place),
    total: usize,
) -> (Why, usize, Place) {
    let refusal = read_tail(&frame, &mut log, &mut place, total, Codec::Ac3).unwrap_err();
    (refusal.why, refusal.bit, place)
}

#[test]
fn a_tail_that_is_refused_before_it_is_read_moves_nothing() {
    let at = |pos| {
        let (frame, log, place) = tail(Some(0));
        (frame, log, Place { pos, ..place })
    };
    for (pos, total, why) in [
        (10, 65, Why::BadArgument),
        (47, 64, Why::NoRoomForTail),
        (usize::MAX, 64, Why::NoRoomForTail),
        (33, 64, Why::BadAux),
        (46, 64, Why::BadAux),
    ] {
        assert_eq!(refusal_of(at(pos), total), (why, pos, at(pos).2));
    }
}

#[test]
fn a_tail_that_is_refused_later_stays_logged_so_far() {
    let moved = |pos, count| Place {
        pos,
        count,
        ..Place::new(64)
    };
    let (why, bit, place) = refusal_of(tail(Some(23)), 64);
    assert_eq!((why, bit, place), (Why::BadAux, 46, moved(46, 3)));
    // 10 bits are a gap in front of the tail.
    let (frame, log, place) = tail(Some(0));
    let gap = (frame, log, Place { pos: 20, ..place });
    let (why, bit, place) = refusal_of(gap, 64);
    assert_eq!((why, bit, place), (Why::NotTiled, 64, moved(64, 6)));
    // A log with room for so many elements.
    for (room, pos) in [(1, 10), (2, 32), (3, 46), (4, 47), (5, 48)] {
        let (frame, mut log, place) = tail(Some(0));
        log.truncate(8 * room);
        let (why, bit, place) = refusal_of((frame, log, place), 64);
        assert_eq!((why, bit, place), (Why::LogFull, pos, moved(pos, room)));
    }
}
