//! The drop-in core beside the Rust's modules: the same answers of the functions that the parser doesn't call.
#![forbid(unsafe_code)]
#![cfg(oracle)]

use differential::random::Random;

/// Numbers that both sides are given, inside document 01's domain.
struct Given {
    x: Vec<u8>,
    y: Vec<u8>,
    a: usize,
    b: usize,
    n: usize,
    value: u32,
    codes: [u8; 9],
    exponents: Vec<i16>,
    range: (usize, usize),
    leak: Option<(i32, i32)>,
    delta: Vec<[u8; 3]>,
}

fn given(random: &mut Random) -> Given {
    let len = 8 + 2 * random.to(60);
    let n = random.to(32);
    let most = [3, 3, 3, 3, 7, 7, 63, 15, 2];
    let range = match random.to(2) {
        0 => (0, 7),
        1 => (0, random.to(253)),
        _ => (37 + 12 * random.to(14), 37 + 12 * (4 + random.to(14))),
    };
    let leak = |random: &mut Random| 768 + 256 * random.to(7) as i32;
    Given {
        x: random.plain_bytes(len),
        y: random.plain_bytes(len),
        a: random.to(8 * len - n),
        b: random.to(8 * len - n),
        n,
        value: random.bits() as u32,
        codes: most.map(|most| random.to(most) as u8),
        exponents: (0..256).map(|_| random.to(24) as i16).collect(),
        range,
        leak: (random.to(1) == 0).then(|| (leak(random), leak(random))),
        delta: (0..random.to(8))
            .map(|_| [31, 15, 7].map(|most| random.to(most) as u8))
            .collect(),
    }
}

/// All that a side answers, as text: both sides' types have the same names.
macro_rules! answers {
    ($side:ident, $given:expr) => {{
        use $side::alloc::{allocate, Channel, DeltaSeg};
        use $side::blocks::AllocState;
        use $side::frame::Codec;
        use $side::tables::{BAP, FAST_GAIN, HEBAP};
        use $side::{bits, crc, frame};
        let given: &Given = $given;
        let Given {
            x,
            y,
            a,
            b,
            n,
            value,
            ..
        } = given;
        let (a, b, n, value) = (*a, *b, *n, *value);
        let mut set = x.clone();
        bits::set(&mut set, a, n, value);
        let mut writer = bits::Writer::new();
        writer.put(n, value);
        writer.copy(x, a, 8 * x.len() - a);
        writer.zeros(b);
        writer.put(32 - n, value);
        let mut ended = x.clone();
        crc::append_frame_crc(&mut ended);
        let status = [Codec::Ac3, Codec::Eac3].map(|codec| {
            let before = frame::crc_status(codec, x);
            let mut mended = x.clone();
            frame::fix_crcs(codec, &mut mended);
            (before, frame::crc_status(codec, &mended), mended)
        });
        let [sd, fd, sg, db, fl, fgain, csnr, fsnr, fscod] = given.codes;
        let state = AllocState {
            bai: Some([sd, fd, sg, db, fl]),
            ..AllocState::default()
        };
        let params = state.params(fscod.into()).ok();
        let delta: Vec<DeltaSeg> = (given.delta.iter())
            .map(|&[offset, len, ba]| DeltaSeg { offset, len, ba })
            .collect();
        let channel = Channel {
            exp: &given.exponents,
            start: given.range.0,
            end: given.range.1,
            fgain: FAST_GAIN[usize::from(fgain)].into(),
            snroffset: 4 * (16 * (i32::from(csnr) - 15) + i32::from(fsnr)),
            leak: given.leak,
            delta: &delta,
        };
        let pointers =
            params.map(|params| [&BAP, &HEBAP].map(|table| allocate(&channel, &params, table)));
        format!(
            "{:?}",
            (
                (
                    bits::get(x, a, n),
                    set,
                    bits::range_eq(x, a, y, b, n),
                    bits::range_zero(x, a, n)
                ),
                (writer.len(), writer.is_empty(), writer.into_bytes()),
                (
                    crc::crc16(value as u16, x),
                    crc::frame_crc_ok(x),
                    crc::frame_crc_ok(&ended),
                    ended
                ),
                (
                    status,
                    frame::ac3_five_eighths_bits(x.len()),
                    params,
                    pointers
                ),
                frame::probe(&[0x0B, 0x77, x[0], x[1], x[2] % 38, x[3] % 64]).ok(),
            )
        )
    }};
}

#[test]
fn both_answer_the_same() {
    differential::rust::lend().unwrap();
    let mut random = Random::new(61);
    for _ in 0..2000 {
        let given = given(&mut random);
        assert_eq!(answers!(oracle, &given), answers!(parser, &given));
    }
}

/// What a frame's lookups answer.
macro_rules! lookups {
    ($side:ident, $frame:expr) => {{
        use $side::syntax::Role;
        let frame = $side::eac3::parse($frame).unwrap();
        format!(
            "{:?}",
            (
                (
                    frame.total_bits(),
                    frame.aux_padding(),
                    frame.named("acmod"),
                    frame.named("none")
                ),
                (
                    frame.find(Role::Dynrng(0), 0),
                    frame.value(Role::AuxDataE, -1)
                ),
                frame.all(Role::Mantissas).collect::<Vec<_>>(),
            )
        )
    }};
}

#[test]
fn lookups_answer_the_same() {
    differential::rust::lend().unwrap();
    for frame in differential::whole::frames().unwrap() {
        assert_eq!(lookups!(oracle, &frame), lookups!(parser, &frame));
    }
}

/// A log has room for 4,096 elements; the longest frame of the streams has 871, and that of the samples 630.
#[test]
fn no_frame_comes_near_a_full_log() {
    let frames = differential::whole::frames().unwrap();
    let count = |frame: &Vec<u8>| oracle::eac3::parse(frame).unwrap().fields.len();
    let most = frames.iter().map(count).max();
    assert!(matches!(most, Some(871 | 630)), "{most:?}");
}
