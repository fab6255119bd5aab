//! What the drop-in refuses where the original panics, wraps, or answers what document 01 refuses. With
//! `allocation.rs` and `lent.rs` it tries each entry of the lists in the crate's documentation.
#![forbid(unsafe_code)]

mod said;

use ddpmeta_core::bits::{self, Writer};
use ddpmeta_core::blocks::{aht, conventional, read_exponents, AllocState, Groups};
use ddpmeta_core::crc;
use ddpmeta_core::frame::{
    ac3_five_eighths_bits, crc_status, fix_crcs, probe, read_tail, Codec, Frame,
};
use ddpmeta_core::syntax::{check_contiguous, Cursor, Field, Role};
use said::{panics, refuses};

fn field(pos: usize, width: usize) -> Field {
    Field {
        name: "a",
        role: Role::Plain,
        block: -1,
        index: -1,
        pos,
        width,
        value: 0,
    }
}

#[test]
fn bits_panic() {
    let (x, mut y) = ([0; 4], [0; 4]);
    assert_eq!(panics(|| bits::get(&x, 0, 33)), 6);
    assert_eq!(panics(|| bits::get(&x, 1, 32)), 1);
    assert_eq!(panics(|| bits::get(&x, 33, 0)), 1);
    assert_eq!(panics(|| bits::set(&mut y, 0, 33, 0)), 6);
    assert_eq!(panics(|| bits::set(&mut y, 1, 32, 0)), 1);
    assert_eq!(panics(|| bits::set(&mut y, 33, 0, 0)), 1);
    for (at, width) in [(1, 32), (33, 0), (usize::MAX, 1)] {
        assert_eq!(panics(|| bits::range_eq(&x, at, &y, 0, width)), 1);
        assert_eq!(panics(|| bits::range_eq(&x, 0, &y, at, width)), 1);
        assert_eq!(panics(|| bits::range_zero(&x, at, width)), 1);
    }
    assert_eq!(y, [0; 4]);
    assert_eq!(panics(|| crc::append_frame_crc(&mut vec![0])), 20);
}

/// What it refuses changes nothing in a writer.
#[test]
fn a_writer_panics() {
    let (src, mut writer) = ([0xFF; 8], Writer::new());
    writer.put(3, 5);
    for width in [33, 800, usize::MAX - 10, usize::MAX] {
        assert_eq!(panics(|| writer.put(width, 0)), 6);
    }
    for width in [usize::MAX - 2, usize::MAX] {
        assert_eq!(panics(|| writer.zeros(width)), 6);
    }
    for (pos, width) in [(1, 64), (65, 0), (usize::MAX, 1), (1, usize::MAX)] {
        assert_eq!(panics(|| writer.copy(&src, pos, width)), 1);
    }
    writer.copy(&src, 64, 0);
    assert_eq!((writer.len(), writer.into_bytes()), (3, vec![0xA0]));
}

#[test]
fn checksums_panic() {
    for (codec, len) in [
        (Codec::Ac3, 6),
        (Codec::Eac3, 2),
        (Codec::Eac3, 9),
        (Codec::Ac3, 4098),
    ] {
        let mut frame = vec![0; len];
        assert_eq!(panics(|| crc_status(codec, &frame)), 20);
        assert_eq!(panics(|| fix_crcs(codec, &mut frame)), 20);
    }
}

#[test]
fn a_span_that_cannot_be_closed_panics() {
    let frame = [0; 4];
    let mut cursor = Cursor::new(&frame, 32);
    assert_eq!(panics(|| cursor.close_span("a", Role::Plain, 1)), 6);
    cursor.pos = 33;
    assert_eq!(panics(|| cursor.close_span("a", Role::Plain, 0)), 6);
    assert!(cursor.fields.is_empty());
    let mut cursor = Cursor::new(&frame[..1], 16);
    cursor.pos = 12;
    assert_eq!(panics(|| cursor.close_span("a", Role::Plain, 4)), 6);
    assert!(cursor.fields.is_empty());
}

#[test]
fn numbers_that_no_usize_has_panic() {
    assert_eq!(panics(|| field(usize::MAX, 1).end()), 6);
    assert_eq!(panics(|| ac3_five_eighths_bits(usize::MAX)), 6);
    let frame = |bytes| Frame {
        codec: Codec::Ac3,
        bytes,
        fields: Vec::new(),
        bsid: 8,
        acmod: 2,
        lfeon: false,
        fscod: 0,
        strmtyp: 0,
        substreamid: 0,
        numblks: 6,
        block_starts: Vec::new(),
        mantissa_starts: Vec::new(),
        audio_end: 0,
        aht_tags: 0,
        aht_slots: Vec::new(),
        spx_blocks: 0,
        cpl_blocks: 0,
    };
    assert_eq!(frame(usize::MAX / 8).total_bits(), usize::MAX - 7);
    assert_eq!(panics(|| frame(usize::MAX / 8 + 1).total_bits()), 6);
}

/// The numbers that the readers refuse with where the cursor stands.
fn each_reader_refuses(cursor: &mut Cursor<'_>) -> [u8; 7] {
    let groups = &mut Groups::default();
    [
        refuses(cursor.get("a", 1)),
        refuses(cursor.raw(1, "a")),
        refuses(cursor.span("a", Role::Plain, 1)),
        refuses(conventional(cursor, &[3], 0, 1, groups)),
        refuses(aht(cursor, &[8], 0, 1)),
        refuses(read_exponents(cursor, 0, 1, 0, 4)),
        refuses(AllocState::default().read_delta(cursor, 0)),
    ]
}

/// The original wraps there in a release build, and reads at the frame's start.
#[test]
fn an_end_past_every_number_is_refused() {
    let frame = [0; 8];
    let mut cursor = Cursor::new(&frame, 64);
    cursor.pos = usize::MAX;
    assert_eq!(each_reader_refuses(&mut cursor), [1; 7]);
    assert_eq!(refuses(read_tail(&mut cursor, 64, Codec::Ac3)), 16);
    assert_eq!((cursor.pos, cursor.fields.len()), (usize::MAX, 0));
    cursor.pos = 1;
    assert_eq!(refuses(cursor.span("a", Role::Plain, usize::MAX)), 1);
}

#[test]
fn readers_refuse() {
    let frame = [0; 8];
    let mut cursor = Cursor::new(&frame, 64);
    assert_eq!(refuses(cursor.get("a", 33)), 6);
    assert_eq!(refuses(cursor.raw(33, "a")), 6);
    assert_eq!(refuses(cursor.span("a", Role::Plain, 65)), 1);
    assert_eq!(refuses(read_exponents(&mut cursor, 7, 1, 0, 4)), 6);
    assert_eq!(refuses(AllocState::default().read_delta(&mut cursor, 7)), 6);
    assert_eq!(refuses(AllocState::default().delta_code(7, 2, false)), 6);
    assert_eq!(refuses(read_tail(&mut cursor, 65, Codec::Ac3)), 6);
    let groups = &mut Groups::default();
    for (start, end, len) in [(0, 5, 4), (2, 1, 4), (0, 257, 300)] {
        let codes = vec![0; len];
        assert_eq!(
            refuses(conventional(&mut cursor, &codes, start, end, groups)),
            6
        );
        assert_eq!(refuses(aht(&mut cursor, &codes, start, end)), 6);
    }
    assert_eq!((cursor.pos, cursor.fields.len()), (0, 0));
    assert_eq!(refuses(probe(&[0x0B, 0x77, 0, 0, 0, 0x48])), 5);
}

/// Where a limit is not sound, what is sound of it is read.
#[test]
fn a_limit_that_is_not_sound_refuses_what_passes_the_sound_part() {
    let frame = vec![0; 5000];
    for (bytes, limit, sound) in [(8, 65, 64), (5000, 40_000, 32_768)] {
        let mut cursor = Cursor::new(&frame[..bytes], limit);
        cursor.pos = sound - 1;
        assert_eq!(cursor.get("a", 1), Ok(0));
        assert_eq!(each_reader_refuses(&mut cursor), [6; 7]);
        assert_eq!(refuses(read_tail(&mut cursor, limit, Codec::Ac3)), 6);
        assert_eq!((cursor.pos, cursor.fields.len()), (sound, 1));
    }
}

#[test]
fn too_many_elements_are_refused() {
    let mut fields: Vec<Field> = (0..4097).map(|at| field(at, 1)).collect();
    assert_eq!(refuses(check_contiguous(&fields, 4097)), 6);
    assert_eq!(check_contiguous(&fields[..4096], 4096), Ok(()));
    assert_eq!(refuses(check_contiguous(&[field(0, 1 << 32)], 1 << 32)), 6);
    let frame = [0; 1024];
    let mut cursor = Cursor::new(&frame, 8192);
    cursor.fields.push(field(1 << 32, 0));
    assert_eq!(refuses(read_tail(&mut cursor, 8192, Codec::Ac3)), 6);
    for (count, number) in [(4097, 6), (4096, 19), (4093, 19)] {
        let mut cursor = Cursor::new(&frame, 8192);
        fields.truncate(count);
        cursor.fields.clone_from(&fields);
        cursor.pos = count;
        assert_eq!(refuses(read_tail(&mut cursor, 8192, Codec::Ac3)), number);
    }
}

#[test]
fn codes_past_their_tables_are_refused() {
    let state = |bai| AllocState {
        bai,
        ..AllocState::default()
    };
    assert_eq!(refuses(state(None).params(0)), 10);
    assert_eq!(refuses(state(Some([4, 0, 0, 0, 0])).params(0)), 11);
    assert_eq!(refuses(state(Some([0, 0, 0, 0, 8])).params(0)), 11);
    assert_eq!(state(Some([3, 3, 3, 3, 7])).params(9).unwrap().floor, -2048);
}
