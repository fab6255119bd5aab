//! The places of docs/DIFFERENCES.md: what the Rust does, and what the core does.
//! The Rust's half holds in the profile that this is built in; `./test` builds for release.
#![forbid(unsafe_code)]

mod frames;
mod slots;

use differential::answers::Answer;
use differential::call::{Allocation, Call, Standing};
use differential::{core, rust};
use zelamodurk::alloc::{Codes, Pointers, Segment, BINS};
use zelamodurk::syntax::{Ask, Place, Role, WORDS};

const MAX: usize = usize::MAX;

/// What the Rust does at a place.
#[derive(Clone, Debug, PartialEq, Eq)]
enum Rust {
    Panics,
    Answers(u32),
    Leaves(Vec<u8>),
    PanicsHavingWritten(Vec<u8>),
    /// The value, and where the cursor stands then.
    Reads(u32, usize),
    /// The value, the position and width of the element, and where the cursor stands then.
    Logs(u32, (usize, usize), usize),
    /// Where the cursor stands then.
    PanicsHavingRead(usize),
    /// With a number.
    Refuses(u8),
}

/// Holds the Rust to what is said of it; nothing is asked where it is not there.
#[track_caller]
fn rust_does(call: &Call, does: &Rust) {
    let Some(asked) = rust::ask(call) else {
        return;
    };
    let answer = asked.answer;
    let pos = answer.place.map_or(0, |place| place.pos);
    let seen = match (does, asked.panicked) {
        (Rust::PanicsHavingWritten(_), true) => Rust::PanicsHavingWritten(answer.after),
        (Rust::PanicsHavingRead(_), true) => Rust::PanicsHavingRead(pos),
        (_, true) => Rust::Panics,
        (_, false) if answer.number > 0 => Rust::Refuses(answer.number),
        (Rust::Leaves(_), false) => Rust::Leaves(answer.after),
        (Rust::Reads(..), false) => Rust::Reads(answer.value, pos),
        (Rust::Logs(..), false) => Rust::Logs(answer.value, asked.last.unwrap_or_default(), pos),
        (_, false) => Rust::Answers(answer.value),
    };
    assert_eq!(seen, *does, "the Rust: {call}");
}

/// Panics with debug assertions, and answers without them.
fn only_debug_panics(answers: Rust) -> Rust {
    if cfg!(debug_assertions) {
        Rust::Panics
    } else {
        answers
    }
}

/// Holds the core to a refusal that finds nothing and changes nothing.
#[track_caller]
fn core_refuses(call: &Call, number: u8) {
    let answer = core::answer(call).unwrap();
    assert_eq!(answer, Answer::refused(number, call), "the core: {call}");
}

#[track_caller]
fn differ(call: &Call, does: Rust, number: u8) {
    rust_does(call, &does);
    core_refuses(call, number);
}

#[test]
fn get_wider_than_32_to_63() {
    let bytes = [0x12, 0x34, 0x56, 0x78, 0x9A, 0xBC, 0xDE, 0xF0, 0x11];
    // The Rust keeps the low 32 bits of what it read.
    for (n, low) in [
        (33, 0x2468_ACF1),
        (34, 0x48D1_59E2),
        (40, 0x3456_789A),
        (48, 0x5678_9ABC),
        (57, 0xF135_79BD),
        (63, 0x4D5E_6F78),
    ] {
        differ(
            &Call::get(&bytes[..], 0, n),
            only_debug_panics(Rust::Answers(low)),
            6,
        );
    }
}

#[test]
fn get_of_64_and_wider() {
    let bytes = [0xFF; 16];
    // The shift by the width comes round: 64 bits are none, 65 are one.
    differ(
        &Call::get(&bytes[..], 0, 64),
        only_debug_panics(Rust::Answers(0)),
        6,
    );
    differ(
        &Call::get(&bytes[..], 0, 65),
        only_debug_panics(Rust::Answers(1)),
        6,
    );
    differ(&Call::get(&bytes[..], 0, MAX), Rust::Panics, 6);
    // Position and width come round to a place before the position.
    differ(
        &Call::get(&bytes[..], 8, MAX),
        only_debug_panics(Rust::Answers(0)),
        6,
    );
}

#[test]
fn reads_past_the_buffer() {
    let zeros = [0; 4];
    for (pos, n) in [(0, 33), (31, 2), (32, 1), (1000, 8)] {
        if n <= 32 {
            differ(&Call::get(&zeros[..], pos, n), Rust::Panics, 1);
        }
        differ(&Call::range_zero(&zeros[..], pos, n), Rust::Panics, 1);
        let (x, y) = ((&zeros[..], pos), (&[0; 256][..], pos));
        differ(&Call::range_eq(x, y, n), Rust::Panics, 1);
        differ(&Call::range_eq(y, x, n), Rust::Panics, 1);
    }
    differ(&Call::get(&[][..], 0, 1), Rust::Panics, 1);
}

#[test]
fn reads_whose_end_overflows() {
    let zeros = [0; 4];
    for (pos, n) in [(MAX, 1), (MAX, 2), (MAX - 7, 9), (MAX - 30, 32)] {
        differ(&Call::get(&zeros[..], pos, n), Rust::Panics, 1);
        differ(&Call::range_zero(&zeros[..], pos, n), Rust::Panics, 1);
        let (x, y) = ((&zeros[..], pos), (&zeros[..], 0));
        differ(&Call::range_eq(x, y, n), Rust::Panics, 1);
        differ(&Call::range_eq(y, x, n), Rust::Panics, 1);
    }
}

#[test]
fn set_wider_than_32() {
    // The shift by 32 comes round: the value's low bit is written first, and then all 32.
    let written = Rust::Leaves(vec![0xFF, 0xFF, 0x80, 0x00, 0x80]);
    let call = Call::set(&[0; 5][..], 0, 33, 0xFFFF_0001);
    differ(&call, only_debug_panics(written), 6);
}

#[test]
fn set_past_the_end() {
    // The Rust has written the bits that fit when it panics.
    let call = Call::set(&[0, 0][..], 12, 8, 0xFF);
    differ(&call, Rust::PanicsHavingWritten(vec![0x00, 0x0F]), 1);
    let call = Call::set(&[0xFF, 0xFF][..], 15, 2, 0);
    differ(&call, Rust::PanicsHavingWritten(vec![0xFF, 0xFE]), 1);
    differ(&Call::set(&[0, 0][..], MAX, 1, 1), Rust::Panics, 1);
}

#[test]
fn no_bits_past_the_end() {
    let bytes = [0xFF; 2];
    for pos in [17, 24, 1000, MAX] {
        differ(&Call::get(&bytes[..], pos, 0), Rust::Answers(0), 1);
        differ(
            &Call::set(&bytes[..], pos, 0, 0),
            Rust::Leaves(bytes.to_vec()),
            1,
        );
        differ(&Call::range_zero(&bytes[..], pos, 0), Rust::Answers(1), 1);
        let (x, y) = ((&bytes[..], pos), (&bytes[..], 0));
        differ(&Call::range_eq(x, y, 0), Rust::Answers(1), 1);
        differ(&Call::range_eq(y, x, 0), Rust::Answers(1), 1);
    }
}

#[test]
fn no_bits_at_the_end_are_taken_by_both() {
    let bytes = [0xFF; 2];
    for call in [
        Call::get(&bytes[..], 16, 0),
        Call::range_zero(&bytes[..], 16, 0),
        Call::range_eq((&bytes[..], 16), (&[][..], 0), 0),
    ] {
        let answer = core::answer(&call).unwrap();
        assert_eq!(answer.number, 0);
        rust_does(&call, &Rust::Answers(answer.value));
    }
}

#[test]
fn early_mismatch_in_a_range_past_the_end() {
    let (zeros, ones) = ([0; 4], [0xFF; 4]);
    let call = Call::range_eq((&zeros[..], 0), (&ones[..], 0), 40);
    differ(&call, Rust::Answers(0), 1);
    differ(&Call::range_zero(&ones[..], 0, 40), Rust::Answers(0), 1);
    differ(&Call::range_zero(&ones[..], 0, MAX), Rust::Answers(0), 1);
}

#[test]
fn crc_of_any_bytes_is_the_rusts() {
    // No place of crc differs; the Rust runs zeros over a buffer, and the core without one.
    for call in [
        Call::crc16(0, &[0x01][..]),
        Call::crc16(0xFFFF, &[][..]),
        Call::zeros(0x8005, 4096),
    ] {
        let answer = core::answer(&call).unwrap();
        assert_eq!(answer.number, 0);
        rust_does(&call, &Rust::Answers(answer.value));
    }
    assert_eq!(
        core::answer(&Call::crc16(0, &[0x01][..])).unwrap().value,
        0x8005
    );
}

/// Room for one element, and a cursor that has logged nothing.
fn cursor(frame: &[u8], pos: usize, limit: usize) -> Standing<'_> {
    let place = Place {
        pos,
        ..Place::new(limit)
    };
    Standing::new(frame, vec![0; WORDS], place)
}

/// A plain element without an index.
fn read(from: Standing, width: usize) -> Call {
    let ask = Ask {
        name: 0,
        role: Role::Plain,
        index: -1,
        width,
    };
    Call::read_element(from, ask)
}

fn raw(from: Standing, width: usize) -> Call {
    Call::read_raw(from.frame, from.place, width)
}

fn span(from: Standing, width: usize) -> Call {
    Call::span(from, (0, Role::AuxBits), width)
}

fn close(from: Standing, start: usize) -> Call {
    Call::close_span(from, (0, Role::Mantissas), start)
}

#[test]
fn reads_wider_than_32() {
    let frame = [0x12, 0x34, 0x56, 0x78, 0x9A];
    let from = || cursor(&frame, 0, 40);
    // The Rust keeps the low 32 bits of what it read.
    let logs = Rust::Logs(0x2468_ACF1, (0, 33), 33);
    differ(&read(from(), 33), only_debug_panics(logs), 6);
    let reads = Rust::Reads(0x2468_ACF1, 33);
    differ(&raw(from(), 33), only_debug_panics(reads), 6);
}

#[test]
fn reads_with_the_limit_past_the_data() {
    differ(&read(cursor(&[], 0, 1), 1), Rust::Panics, 6);
    differ(&raw(cursor(&[], 0, 1), 1), Rust::Panics, 6);
    // Bits that are there are read.
    let from = || cursor(&[0xFF], 0, 9);
    differ(&read(from(), 1), Rust::Logs(1, (0, 1), 1), 6);
    differ(&raw(from(), 1), Rust::Reads(1, 1), 6);
}

#[test]
fn spans_with_the_limit_past_the_data() {
    differ(&span(cursor(&[], 0, 1), 1), Rust::Logs(0, (0, 1), 1), 6);
    differ(&close(cursor(&[], 1, 1), 0), Rust::Logs(0, (0, 1), 1), 6);
}

#[test]
fn limits_above_32768() {
    let frame = [0xFF; 4097];
    let from = || cursor(&frame, 1, 32_769);
    differ(&read(from(), 1), Rust::Logs(1, (1, 1), 2), 6);
    differ(&raw(from(), 1), Rust::Reads(1, 2), 6);
    differ(&span(from(), 1), Rust::Logs(0, (1, 1), 2), 6);
    differ(&close(from(), 0), Rust::Logs(0, (0, 1), 1), 6);
}

#[test]
fn elements_whose_end_overflows() {
    let frame = [0xFF];
    for (pos, width) in [(MAX, 1), (MAX, 2), (MAX - 31, 32)] {
        differ(&read(cursor(&frame, pos, 8), width), Rust::Panics, 1);
        differ(&raw(cursor(&frame, pos, 8), width), Rust::Panics, 1);
    }
    // Position and width come round to a bit before the limit, where the cursor then stands.
    for (pos, width) in [(MAX, 1), (1, MAX)] {
        let logs = Rust::Logs(0, (pos, width), 0);
        let call = span(cursor(&frame, pos, 8), width);
        differ(&call, only_debug_panics(logs), 1);
    }
}

#[test]
fn an_index_above_32767() {
    // The Rust takes any index and logs its low 16 bits; the core is handed an i16.
    if let Some(index) = rust::index(40_000) {
        assert_eq!(index, -25_536);
    }
    let mut log = [0; WORDS];
    let ask = Ask {
        name: 0,
        role: Role::Plain,
        index: -25_536,
        width: 1,
    };
    let mut place = Place::new(8);
    assert_eq!(
        zelamodurk::syntax::read_element(&[0xFF], &mut log, &mut place, &ask),
        Ok(1)
    );
    assert_eq!(log[3], 40_000);
    let element = zelamodurk::syntax::element_at(&log, 1, 0).unwrap();
    assert_eq!(element.index, -25_536);
}

#[test]
fn a_span_that_starts_past_the_cursor() {
    // The difference comes round.
    let logs = Rust::Logs(0, (1, MAX), 0);
    let call = close(cursor(&[0xFF], 0, 8), 1);
    differ(&call, only_debug_panics(logs), 6);
}

#[test]
fn a_span_closed_past_the_limit() {
    let call = close(cursor(&[0xFF], 1, 0), 0);
    differ(&call, Rust::Logs(0, (0, 1), 1), 6);
}

/// A read, a span and a closing at the start of a byte of ones, with a log that is full.
fn the_rusts_log_grows(from: impl Fn() -> Standing<'static>) {
    differ(&read(from(), 1), Rust::Logs(1, (0, 1), 1), 19);
    differ(&span(from(), 1), Rust::Logs(0, (0, 1), 1), 19);
    differ(&close(from(), 0), Rust::Logs(0, (0, 0), 0), 19);
}

#[test]
fn a_full_log() {
    let none = Place::new(8);
    let from = || Standing::new(&[0xFF][..], &[][..], none);
    the_rusts_log_grows(from);
}

#[test]
fn a_log_of_more_than_4096_elements() {
    let full = Place {
        count: 4096,
        ..Place::new(8)
    };
    let from = || Standing::new(&[0xFF][..], vec![0; WORDS * 4097], full);
    the_rusts_log_grows(from);
}

#[test]
fn a_count_past_the_room() {
    // The Rust counts for itself.
    let past = Place {
        count: 2,
        ..Place::new(8)
    };
    let from = || cursor(&[0xFF], 0, 8).at(past);
    differ(&read(from(), 1), Rust::Logs(1, (0, 1), 1), 6);
    differ(&span(from(), 1), Rust::Logs(0, (0, 1), 1), 6);
    differ(&close(from(), 0), Rust::Logs(0, (0, 0), 0), 6);
    differ(&Call::check_tiling(&[][..], 1, 0), Rust::Answers(0), 6);
    // A raw read looks at no count in either.
    let call = raw(from(), 1);
    assert_eq!(core::answer(&call).unwrap().value, 1);
    rust_does(&call, &Rust::Reads(1, 1));
}

#[test]
fn no_bits_at_the_limit_are_taken_by_both() {
    let from = |pos| cursor(&[0xFF], pos, 8);
    let call = read(from(8), 0);
    assert_eq!(core::answer(&call).unwrap().number, 0);
    rust_does(&call, &Rust::Logs(0, (8, 0), 8));
    // A bit further both refuse them.
    for call in [read(from(9), 0), raw(from(9), 0), span(from(9), 0)] {
        core_refuses(&call, 1);
        if let Some(asked) = rust::ask(&call) {
            assert_eq!((asked.panicked, asked.answer.number), (false, 1));
        }
    }
}

#[test]
fn tiling_whose_end_overflows() {
    // The Rust's fields hold any number; here the last end comes round to the total.
    if let Some(asked) = rust::tiles(&[(0, 5), (5, MAX)], 4) {
        assert_eq!(asked.panicked, cfg!(debug_assertions));
        assert_eq!(asked.answer.number, 0);
    }
    // The core's log holds words of 32 bits, whose sums fit a usize.
    let log = [0, 0, 0, 0, 0, 5, 0, 0, 0, 0, 0, 0, 5, u32::MAX, 0, 0];
    core_refuses(&Call::check_tiling(&log[..], 2, 4), 18);
    let end = 5 + u32::MAX as usize;
    let call = Call::check_tiling(&log[..], 2, end);
    assert_eq!(core::answer(&call).unwrap().number, 0);
}

/// A channel of bin 0 alone that is taken, with pointer 5, changed in one way.
fn channel(change: impl FnOnce(&mut Allocation)) -> Call<'static> {
    let (hearing, log_add) = rust::tables();
    let mut given = Allocation {
        exponents: [0; BINS],
        start: 0,
        end: 1,
        codes: Codes::of_bytes([0, 0, 0, 0, 0, 0, 20, 0, 0]),
        leak: None,
        delta: Vec::new(),
        pointers: Pointers::Bap,
        hearing: hearing.into(),
        log_add: log_add.into(),
    };
    change(&mut given);
    Call::allocate(given)
}

/// The pointer of bin 0, and 0 in all others.
fn pointer(first: u8) -> Rust {
    let mut pointers = vec![0; BINS];
    pointers[0] = first;
    Rust::Leaves(pointers)
}

fn segment(offset: u8, len: u8, ba: u8) -> Segment {
    Segment { offset, len, ba }
}

#[test]
fn a_channel_of_one_bin_is_taken_by_both() {
    let call = channel(|_| ());
    assert_eq!(core::answer(&call).unwrap().number, 0);
    rust_does(&call, &pointer(5));
}

#[test]
fn codes_past_their_tables() {
    let changes: [fn(&mut Codes); 7] = [
        |codes| codes.sdcycod = 4,
        |codes| codes.fdcycod = 4,
        |codes| codes.sgaincod = 4,
        |codes| codes.dbpbcod = 4,
        |codes| codes.floorcod = 8,
        |codes| codes.fgaincod = 8,
        |codes| codes.fscod = 3,
    ];
    for change in changes {
        let call = channel(|given| change(&mut given.codes));
        differ(&call, Rust::Panics, 11);
    }
}

#[test]
fn offsets_past_their_tables() {
    let call = channel(|given| given.codes.csnroffst = 64);
    differ(&call, pointer(15), 11);
    let call = channel(|given| given.codes.fsnroffst = 16);
    differ(&call, pointer(6), 11);
}

#[test]
fn leaks_past_their_tables() {
    for leak in [(8, 0), (0, 8)] {
        differ(&channel(|given| given.leak = Some(leak)), pointer(5), 11);
    }
}

#[test]
fn segments_past_their_tables() {
    for (past, first) in [((32, 1, 0), 5), ((0, 16, 0), 9), ((0, 1, 8), 0)] {
        let (offset, len, ba) = past;
        let call = channel(|given| given.delta = vec![segment(offset, len, ba)]);
        differ(&call, pointer(first), 11);
    }
    let call = channel(|given| given.delta = vec![segment(0, 0, 0); 9]);
    differ(&call, pointer(5), 11);
}

#[test]
fn a_code_past_its_table_with_an_empty_range() {
    let call = channel(|given| {
        given.codes.fscod = 3;
        given.end = 0;
    });
    differ(&call, pointer(0), 11);
}

#[test]
fn ranges_that_end_above_253() {
    for (start, end) in [(0, 254), (253, 254), (0, MAX)] {
        let call = channel(|given| (given.start, given.end) = (start, end));
        differ(&call, Rust::Panics, 6);
    }
}

#[test]
fn exponents_above_24() {
    for exponent in [25, 255] {
        let call = channel(|given| given.exponents[0] = exponent);
        differ(&call, pointer(0), 8);
    }
    // Beside the range they are not looked at by either.
    let call = channel(|given| given.exponents[1] = 25);
    assert_eq!(core::answer(&call).unwrap().number, 0);
    rust_does(&call, &pointer(5));
}

#[test]
fn exponents_that_are_no_bytes() {
    // The Rust takes numbers of 16 bits, and as many as there are; the core is handed 256 bytes.
    let Call::Allocate(given) = channel(|_| ()) else {
        unreachable!()
    };
    if rust::PRESENT {
        let first = |exp: &[i16]| rust::pointers_by(&given, exp);
        assert_eq!(first(&[0]), Some(vec![5]));
        assert_eq!(first(&[-1]), Some(vec![5]));
        assert_eq!(first(&[i16::MAX]), Some(vec![0]));
        assert_eq!(first(&[]), None);
    }
}

#[test]
fn empty_ranges_past_the_bins() {
    // The Rust answers as many zeros as the start says, and panics where no memory holds them.
    for (start, does) in [(257, Rust::Leaves(vec![0; 257])), (MAX, Rust::Panics)] {
        let call = channel(|given| (given.start, given.end) = (start, 0));
        rust_does(&call, &does);
        let answer = core::answer(&call).unwrap();
        assert_eq!((answer.number, answer.after), (0, vec![0; BINS]));
    }
}

#[test]
fn tables_that_are_unfit() {
    // The Rust has its own.
    let changes: [fn(&mut Allocation); 6] = [
        |given| given.hearing.to_mut().truncate(149),
        |given| given.hearing.to_mut().push(0),
        |given| given.hearing.to_mut()[149] = 4096,
        |given| given.log_add.to_mut().truncate(255),
        |given| given.log_add.to_mut().push(0),
        |given| given.log_add.to_mut()[255] = 65,
    ];
    for change in changes {
        differ(&channel(change), pointer(5), 21);
    }
}
