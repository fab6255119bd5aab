//! The recorded answers' calls, and their text: boundary cases first, then random ones. The text is
//! the same each time.

use crate::answers::witnessed;
use crate::call::Call;
use crate::random::Random;
use crate::vectors::{self, FORM};
use std::collections::HashSet;

mod channels;
mod picked;
mod syntax;

/// The files' texts, in the order of [`vectors::FILES`].
pub fn texts() -> Result<[String; 9], String> {
    Ok([
        text(BITS_HEAD, &bits_calls())?,
        text(CRC_HEAD, &crc_calls())?,
        text(syntax::HEAD, &syntax::calls())?,
        text(channels::HEAD, &channels::calls())?,
        text(picked::SETS_HEAD, &picked::sets()?)?,
        text(picked::WALKS_HEAD, &picked::walks()?)?,
        text(picked::DELTAS_HEAD, &picked::deltas()?)?,
        text(picked::BLOCKS_HEAD, &picked::blocks()?)?,
        text(picked::FRAMES_HEAD, &picked::frames()?)?,
    ])
}

const BITS_HEAD: &str = "\
# Answers of the functions of bits:
# get FIRST POS N
# set FIRST POS N V
# range_eq FIRST SECOND A B N
# range_zero FIRST A N
";

const CRC_HEAD: &str = "\
# Answers of the functions of crc:
# crc16 FIRST INIT
# zeros INIT N
";

/// How a file was recorded.
const RECORDED: &str = "\
# Recorded from the Rust, saindriches/ddpmeta at 7e6cb39a55, by
#   cargo run --release -p differential -- record
";

fn text(head: &str, calls: &[Call]) -> Result<String, String> {
    let mut text = format!("{head}{FORM}{RECORDED}");
    let mut seen = HashSet::new();
    // The lists of boundaries overlap: a call is recorded once.
    for call in calls.iter().filter(|call| seen.insert(call.to_string())) {
        let (answer, by) = witnessed(call).map_err(|why| format!("{call}: {why}"))?;
        text.push_str(&vectors::line(call, &answer, by)?);
        text.push('\n');
    }
    vectors::file(text)
}

/// Five bytes, no two alike, so that a shifted answer shows.
const BYTES: [u8; 5] = [0x0B, 0x77, 0xA5, 0x5A, 0xC3];
/// Their number of bits.
const END: usize = 40;

/// Positions and widths inside, at and past the end of [`BYTES`].
fn near() -> Vec<(usize, usize)> {
    let mut pairs = vec![(0, END), (0, 64)];
    for n in [0, 1, 7, 8, 9, 31, 32, 33] {
        pairs.extend([(0, n), (7, n), (END - n, n), (END - n + 1, n)]);
    }
    pairs
}

/// Positions and widths near the largest number, and such whose sum comes round to a small one.
fn far() -> Vec<(usize, usize)> {
    const MAX: usize = usize::MAX;
    vec![
        (MAX, 0),
        (MAX, 1),
        (MAX, 32),
        (MAX, 33),
        (MAX, MAX),
        (MAX - 7, 8),
        (MAX - 31, 32),
        (MAX - 15, 24),
        (1 << 63, 8),
        (1 << 61, 8),
        (1 << 61, 0),
        ((1 << 32) + 8, 8),
        (0, MAX),
        (8, MAX),
        (8, MAX - 7),
        (0, 1 << 32),
        (0, (1 << 32) + 8),
        (0, 1 << 61),
    ]
}

fn bits_calls() -> Vec<Call<'static>> {
    let mut calls = boundary_bits();
    calls.extend(boundary_ranges());
    calls.extend(random_bits());
    calls
}

fn boundary_bits() -> Vec<Call<'static>> {
    let mut calls = Vec::new();
    for (pos, n) in near().into_iter().chain(far()) {
        calls.push(Call::get(&BYTES[..], pos, n));
    }
    for (turn, (pos, n)) in near().into_iter().chain(far()).enumerate() {
        // Ones above the width too: a set takes the value's low bits.
        let value = [u32::MAX, 0, 0xFFFF_0001][turn % 3];
        calls.push(Call::set(&BYTES[..], pos, n, value));
    }
    for (pos, n) in [(0, 0), (0, 1), (1, 0), (0, 33)] {
        calls.push(Call::get(&[][..], pos, n));
        calls.push(Call::set(&[][..], pos, n, 1));
        calls.push(Call::range_zero(&[][..], pos, n));
        calls.push(Call::range_eq((&[][..], pos), (&[][..], 0), n));
    }
    // The first bits fit: the Rust writes them before it panics.
    calls.push(Call::set(&[0, 0][..], 12, 8, 0xFF));
    calls
}

fn boundary_ranges() -> Vec<Call<'static>> {
    const ZEROS: [u8; 5] = [0; 5];
    const LAST: [u8; 5] = [0, 0, 0, 0, 1];
    let mut calls = Vec::new();
    for (a, n) in near().into_iter().chain(far()) {
        calls.push(Call::range_zero(&ZEROS[..], a, n));
    }
    for (a, n) in [(0, 39), (0, 40), (39, 1), (7, 32), (8, 32), (8, 31)] {
        calls.push(Call::range_zero(&LAST[..], a, n));
        calls.push(Call::range_eq((&LAST[..], a), (&ZEROS[..], a), n));
    }
    for (a, n) in far() {
        calls.push(Call::range_eq((&ZEROS[..], a), (&ZEROS[..], 0), n));
        calls.push(Call::range_eq((&ZEROS[..], 0), (&ZEROS[..], a), n));
    }
    // The bits differ at once, and the range passes the end: the Rust looks no further.
    calls.push(Call::range_eq((&[0; 4][..], 0), (&[0xFF; 4][..], 0), 40));
    calls.push(Call::range_zero(&[0xFF; 4][..], 0, 40));
    calls
}

fn random_bits() -> Vec<Call<'static>> {
    let mut random = Random::new(11);
    let mut calls = Vec::new();
    for _ in 0..20 {
        let bytes = random.bytes(64);
        let n = random.to(32);
        calls.push(Call::get(bytes, random.to(512 - n), n));
        let len = 1 + random.to(30);
        let bytes = random.bytes(len);
        let n = random.to(32).min(8 * len);
        let value = random.bits() as u32;
        calls.push(Call::set(bytes, random.to(8 * len - n), n, value));
        let len = 1 + random.to(47);
        let x = random.plain_bytes(len);
        let n = random.to(8 * len);
        calls.push(Call::range_zero(x, random.to(8 * len - n), n));
        calls.push(same_range(&mut random));
    }
    calls
}

/// A comparison of a buffer with itself or with a copy that has one bit changed.
fn same_range(random: &mut Random) -> Call<'static> {
    let len = 1 + random.to(31);
    let x = random.bytes(len);
    let mut y = x.clone();
    if random.to(1) == 1 {
        y[random.to(len - 1)] ^= 1 << random.to(7);
    }
    let n = random.to(8 * len);
    let a = random.to(8 * len - n);
    Call::range_eq((x, a), (y, a), n)
}

fn crc_calls() -> Vec<Call<'static>> {
    let mut calls = boundary_crcs();
    let mut random = Random::new(12);
    for len in (1..=64).step_by(3) {
        let init = random.bits() as u16;
        calls.push(Call::crc16(init, random.bytes(len)));
    }
    for _ in 0..24 {
        let init = random.bits() as u16;
        calls.push(Call::zeros(init, random.to(4096)));
    }
    calls
}

fn boundary_crcs() -> Vec<Call<'static>> {
    let mut calls = Vec::new();
    for init in [0, 1, 0x8000, 0x8005, 0xFFFF] {
        calls.push(Call::crc16(init, &[][..]));
        for byte in [0x00, 0x01, 0x80, 0xFF] {
            calls.push(Call::crc16(init, vec![byte]));
        }
        for n in [0, 1, 2, 4095, 4096] {
            calls.push(Call::zeros(init, n));
        }
    }
    calls.push(Call::crc16(0, &b"123456789"[..]));
    calls.push(Call::crc16(0, &[0x80, 0x05][..]));
    calls.push(Call::crc16(0, &[0x01, 0x80, 0x05][..]));
    calls.push(Call::crc16(0x0B77, &[0x0B, 0x77][..]));
    calls
}
