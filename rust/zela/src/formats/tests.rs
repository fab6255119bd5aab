use super::*;
use crate::core;
use crate::frames::{Frames, Item};

const MONO: &[u8] = include_bytes!("../../../../samples/a_mono_48_64k.ac3");
const STEREO: &[u8] = include_bytes!("../../../../samples/a_st_44_192k.ac3");
const EAC3: &[u8] = include_bytes!("../../../../samples/e_mono_48.eac3");
const EAC3_44: &[u8] = include_bytes!("../../../../samples/e_st_44.eac3");

/// A frame of another substream: strmtyp and substreamid in the third byte's top bits.
fn of_substream(strmtyp: u8, id: u8) -> Vec<u8> {
    let mut frame = EAC3[..256].to_vec();
    frame[2] |= strmtyp << 6 | id << 3;
    core::repair(&mut frame, core::Codec::Eac3).unwrap();
    frame
}

/// What is known of a stream, and its changes by byte and words.
fn followed(bytes: &[u8]) -> (Formats, Vec<(u64, String)>) {
    let (mut formats, mut changes) = (Formats::default(), Vec::new());
    let mut frames = Frames::new(bytes);
    let tell = |bad: Bad| (bad.place.offset, bad.trouble.to_string());
    while let Some((place, item)) = frames.next().unwrap() {
        match item {
            Item::Frame(frame) => changes.extend(formats.add(place, &frame).into_iter().map(tell)),
            Item::Gap(_) => formats.interrupt(),
        }
    }
    changes.extend(formats.complete().map(tell));
    (formats, changes)
}

fn changes(bytes: &[u8]) -> Vec<u64> {
    followed(bytes).1.into_iter().map(|(at, _)| at).collect()
}

#[test]
fn one_format_is_told_once() {
    for (stream, layout, rate) in [
        (MONO, "1/0", 48_000),
        (STEREO, "2/0", 44_100),
        (EAC3, "1/0", 48_000),
        (EAC3_44, "2/0", 44_100),
    ] {
        let (formats, changes) = followed(stream);
        assert_eq!(changes, []);
        assert_eq!(formats.layout().as_deref(), Some(layout));
        assert_eq!(formats.rate(), Some(rate));
        assert!(!formats.bit_rate_varies());
    }
}

#[test]
fn a_change_is_told_where_it_begins() {
    let bytes = [MONO, STEREO].concat();
    let (formats, changes) = followed(&bytes);
    let words = "the format changes from AC-3 1/0 48 kHz to AC-3 2/0 44.1 kHz";
    assert_eq!(changes, [(3328, words.to_string())]);
    assert_eq!(formats.layout().as_deref(), Some("varies"));
    assert_eq!(formats.rate(), None);
    assert!(formats.bit_rate_varies());
}

#[test]
fn a_change_of_the_codec_alone_is_one_too() {
    assert_eq!(changes(&[MONO, EAC3].concat()), [3328]);
}

#[test]
fn a_last_frame_of_another_format_is_told() {
    let frame = &STEREO[..836.min(STEREO.len())];
    let length = core::probe(frame).unwrap().bytes;
    assert_eq!(changes(&[MONO, &STEREO[..length]].concat()), [3328]);
}

#[test]
fn substreams_are_of_one_unit() {
    let first = &EAC3[..256];
    let unit = [
        first,
        &of_substream(1, 0),
        &of_substream(0, 1),
        &of_substream(1, 0),
    ]
    .concat();
    let (formats, changes) = followed(&unit.repeat(3));
    assert_eq!(changes, []);
    assert_eq!(formats.layout().as_deref(), Some("1/0+3"));
    assert!(!formats.bit_rate_varies());
}

#[test]
fn a_substream_that_goes_or_comes_is_a_change() {
    let first = &EAC3[..256];
    let with = [first, &of_substream(1, 0)].concat();
    let bytes = [&with.repeat(2)[..], &first.repeat(2), &with.repeat(2)].concat();
    let (_, changes) = followed(&bytes);
    let one = "E-AC-3 1/0 48 kHz";
    let two = format!("{one} with dependent 0 {one}");
    let goes = (1024, format!("the format changes from {two} to {one}"));
    let comes = (1536, format!("the format changes from {one} to {two}"));
    assert_eq!(changes, [goes, comes]);
}

#[test]
fn a_damaged_frame_is_no_change() {
    let with = [&EAC3[..256], &of_substream(1, 0)].concat();
    let bytes = with.repeat(4);
    for at in 0..bytes.len() {
        let mut damaged = bytes.clone();
        damaged[at] ^= 0x10;
        assert_eq!(changes(&damaged), [], "byte {at}");
    }
    // acmod of an AC-3 frame.
    let mut damaged = MONO.to_vec();
    damaged[512 + 6] ^= 0xC0;
    assert_eq!(changes(&damaged), []);
}

#[test]
fn a_damaged_frame_of_two_programmes_is_no_change() {
    let [dependent, second] = [of_substream(1, 0), of_substream(0, 1)];
    let unit = [&EAC3[..256], &dependent, &second, &dependent].concat();
    let bytes = unit.repeat(4);
    for at in 0..bytes.len() {
        let mut damaged = bytes.clone();
        damaged[at] ^= 0x10;
        assert_eq!(changes(&damaged), [], "byte {at}");
        // Nor is a loss of a hundred bytes.
        let mut cut = bytes.clone();
        cut.drain(at..bytes.len().min(at + 100));
        let whole_frames_are_lost = at % 256 == 0 && at + 100 >= bytes.len();
        assert!(
            whole_frames_are_lost || changes(&cut).is_empty(),
            "cut at {at}"
        );
    }
}

#[test]
fn a_change_between_damaged_frames_is_told() {
    // Every second frame is bad from the start of the second stream on.
    let mut bytes = [MONO, EAC3].concat();
    for frame in (0..13).step_by(2) {
        bytes[MONO.len() + frame * 256 + 100] ^= 1;
    }
    let (formats, changes) = followed(&bytes);
    assert_eq!(changes.len(), 1);
    assert_eq!(changes[0].0, 3328 + 256);
    assert_eq!(formats.layout().as_deref(), Some("1/0"));
    // So it is where every frame but one in two is bad from the start.
    let mut bytes = [MONO, STEREO].concat();
    (0..13)
        .step_by(2)
        .for_each(|frame| bytes[frame * 256 + 100] ^= 1);
    assert_eq!(self::changes(&bytes), [3328]);
}

#[test]
fn a_change_beside_damage_is_told_once_it_is_sure() {
    let bytes = [&MONO[..768], &MONO[..100], STEREO].concat();
    assert_eq!(changes(&bytes), [868]);
}

#[test]
fn a_frame_without_the_one_it_depends_on_is_a_change() {
    let (first, dependent) = (&EAC3[..256], of_substream(1, 0));
    let with = [first, &dependent].concat();
    let bytes = [&with.repeat(2)[..], &dependent, &with].concat();
    assert_eq!(changes(&bytes), [1024, 1280]);
    assert_eq!(changes(&[&dependent, &with.repeat(2)[..]].concat()), [256]);
}

#[test]
fn frames_that_only_depend_are_of_one_format() {
    let bytes = of_substream(1, 0).repeat(5);
    let (formats, changes) = followed(&bytes);
    assert_eq!(changes, []);
    assert_eq!(formats.layout().as_deref(), Some("1/0"));
}

#[test]
fn a_stream_without_end_of_substreams_takes_no_room() {
    // Each independent substream but the first, and each that depends on it, again and again.
    let mut unit = Vec::new();
    for id in 1..8 {
        unit.extend(of_substream(0, id));
        (0..8).for_each(|id| unit.extend(of_substream(1, id)));
    }
    let (formats, _) = followed(&unit.repeat(20));
    assert!(formats.unit.formats.len() <= 72 && formats.known.formats.len() <= 72);
}

#[test]
fn frames_without_the_one_they_depend_on_take_no_room() {
    let mut lost = EAC3[..256].to_vec();
    lost[100] ^= 1;
    let pair = [lost, of_substream(1, 0)].concat();
    let (formats, changes) = followed(&[&EAC3[..256], &pair.repeat(1000)].concat());
    assert_eq!(changes, []);
    assert_eq!(formats.layout().as_deref(), Some("1/0"));
    assert!(formats.unit.formats.len() <= 2 && formats.known.formats.len() <= 2);
}

#[test]
fn a_change_beside_damage_is_told_once_and_in_its_place() {
    let with = |frame: &[u8]| {
        let mut dependent = frame.to_vec();
        dependent[2] |= 0x40;
        core::repair(&mut dependent, core::Codec::Eac3).unwrap();
        [frame, &dependent].concat()
    };
    let mut other = EAC3[..256].to_vec();
    other[4] ^= 0x40;
    core::repair(&mut other, core::Codec::Eac3).unwrap();
    let mut damaged = with(&other);
    damaged[256 + 100] ^= 1;
    let units = [
        with(&EAC3[..256]).repeat(3),
        damaged,
        with(&other).repeat(3),
    ];
    let (_, changes) = followed(&units.concat());
    assert_eq!(changes.len(), 1);
    assert_eq!(changes[0].0, 3 * 512);
}

#[test]
fn a_bit_rate_varies_by_more_than_a_word() {
    let mut long = EAC3[..256].to_vec();
    long.splice(200..200, [0; 64]);
    long[3] = (long.len() / 2 - 1) as u8;
    core::repair(&mut long, core::Codec::Eac3).unwrap();
    let (formats, changes) = followed(&[EAC3, &long].concat());
    assert_eq!(changes, []);
    assert!(formats.bit_rate_varies());
    // A word more, as at 44.1 kHz.
    let mut word = EAC3[..256].to_vec();
    word.splice(200..200, [0; 2]);
    word[3] = (word.len() / 2 - 1) as u8;
    core::repair(&mut word, core::Codec::Eac3).unwrap();
    assert!(!followed(&[EAC3, &word].concat()).0.bit_rate_varies());
}
