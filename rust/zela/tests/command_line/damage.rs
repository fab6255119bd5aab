//! Many damaged files, made of the samples by a fixed rule: each run ends well, what is written is good, and
//! the commands agree on what is bad.

use crate::fix::{frames, units};
use crate::json::Json;
use crate::room::{ac3, eac3, sample, sealed, Room};
use zelamodurk::frame::{self, Codec};

const FILES: usize = if zelamodurk::EMULATED { 20 } else { 300 };

/// Numbers that look like chance, the same each time.
struct Chance(u64);

impl Chance {
    fn below(&mut self, bound: usize) -> usize {
        self.0 ^= self.0 << 13;
        self.0 ^= self.0 >> 7;
        self.0 ^= self.0 << 17;
        (self.0 % bound as u64) as usize
    }

    /// One change: a byte, a run of bytes lost, a run said twice, bytes put in, or the end.
    fn damage(&mut self, bytes: &mut Vec<u8>) {
        if bytes.is_empty() {
            return;
        }
        let at = self.below(bytes.len());
        let end = bytes.len().min(at + 1 + self.below(700));
        match self.below(8) {
            0..4 => bytes[at] ^= 1 << self.below(8),
            4 => drop(bytes.drain(at..end)),
            5 => bytes.extend_from_within(at..end),
            6 => drop(bytes.splice(at..at, vec![0x0B; end - at])),
            _ => bytes.truncate(at),
        }
    }

    /// One of the streams, damaged or not.
    fn file(&mut self, streams: &[Vec<u8>]) -> Vec<u8> {
        let mut bytes = streams[self.below(streams.len())].clone();
        for _ in 0..self.below(6) {
            self.damage(&mut bytes);
        }
        bytes
    }
}

/// Streams of one substream.
fn plain() -> Vec<Vec<u8>> {
    vec![ac3(), eac3(), sample("a_st_44_192k.ac3")]
}

/// The object that a run writes of one file.
fn told(text: &str) -> Json {
    Json::of(text).list()[0].clone()
}

/// A count, or a place in bytes.
fn count(number: &Json) -> usize {
    let Json::Number(number) = number else {
        panic!("no number: {number:?}")
    };
    *number as usize
}

/// A file, and what a check says of it.
struct File {
    bytes: Vec<u8>,
    status: i32,
    checked: Json,
    /// The bad places.
    places: Vec<Json>,
}

impl File {
    /// Checks these bytes.
    fn of(room: &Room, bytes: Vec<u8>) -> File {
        room.put("in", &bytes);
        let words = [
            "check",
            "--all",
            "--allow-changes",
            "--format",
            "json",
            "in",
        ];
        let ran = room.run(&words);
        assert_eq!(ran.err, "");
        let checked = told(&ran.out);
        let is_bad = |place: &&Json| place.at("what") != &Json::Text("change".to_string());
        let places = checked.at("places").list().iter().filter(is_bad);
        File {
            bytes,
            status: ran.status,
            places: places.cloned().collect(),
            checked,
        }
    }

    /// Writes it anew by these words, and gives the record of that and what was written. Where there is no AC-3
    /// nothing is.
    fn rewritten(&self, room: &Room, words: &[&str]) -> Option<(i32, Json, Vec<u8>)> {
        // Where there is no frame nothing is written, and this stays.
        room.put("out", &ac3());
        let shown = ["--all", "--format", "json", "in", "out"];
        let ran = room.run(&[words, &shown].concat());
        room.writes(&["check", "-q", "--allow-changes", "out"], 0, "", "");
        if self.status == 4 {
            let why = match self.bytes.is_empty() {
                true => "the file is empty",
                false => "there is no whole frame",
            };
            let err = format!("zela: in: no AC-3 here: {why}; nothing is written\n");
            ran.is(4, "", &err);
            assert_eq!(room.get("out"), ac3());
            return None;
        }
        assert_eq!(ran.err, "");
        let done = told(&ran.out);
        let has_frames = done.at("frames") != &Json::Number(0.0);
        assert_eq!(done.at("written"), &Json::Flag(has_frames));
        let out = if has_frames { room.get("out") } else { vec![] };
        assert_eq!(frames(&out).len(), count(done.at("frames")));
        Some((ran.status, done, out))
    }

    /// What stands before each bad place, and behind the last.
    fn stretches(&self) -> Vec<&[u8]> {
        let mut at = 0;
        let mut stretches = Vec::new();
        for place in &self.places {
            let byte = count(place.at("byte"));
            stretches.push(&self.bytes[at..byte]);
            at = byte + count(place.at("bytes"));
        }
        stretches.push(&self.bytes[at..]);
        stretches
    }

    /// How many whole frames have bad checksums.
    fn bad_frames(&self) -> usize {
        let is_frame = |place: &&Json| place.at("what") == &Json::Text("checksum".to_string());
        self.places.iter().filter(is_frame).count()
    }
}

/// What a fix did with a file.
struct Fixed {
    /// How many frames stand in at each place.
    stand_ins: Vec<usize>,
    /// How many frames that stand in are written.
    repeated: usize,
    /// How many good frames are left out.
    incomplete: usize,
    out: Vec<u8>,
}

/// Fixes a file, and compares the record with the check's.
fn fixed(room: &Room, file: &File, bad: &str) -> Option<Fixed> {
    let (status, done, out) = file.rewritten(room, &["fix", "--bad", bad])?;
    let is_written = done.at("written") == &Json::Flag(true);
    assert_eq!(status, if is_written { file.status } else { 4 });
    for key in [
        "bad_offset",
        "bad_seconds",
        "bad_refusal",
        "bad_words",
        "bad_places",
    ] {
        assert_eq!(done.at(key), file.checked.at(key), "{key}");
    }
    let sizes = file.places.iter().map(|place| count(place.at("bytes")));
    assert_eq!(count(done.at("bad_bytes")), sizes.sum());
    let places = done.at("places").list();
    assert_eq!(places.len(), file.places.len());
    for (own, checked) in places.iter().zip(&file.places) {
        let Json::Object(pairs) = own else { panic!() };
        assert_eq!(&Json::Object(pairs[..pairs.len() - 1].to_vec()), checked);
    }
    let fixed = Fixed {
        stand_ins: places
            .iter()
            .map(|own| count(own.at("stand_ins")))
            .collect(),
        repeated: count(done.at("repeated")),
        incomplete: count(done.at("incomplete_frames")),
        out,
    };
    let good = count(file.checked.at("frames")) - file.bad_frames();
    let written = count(done.at("frames"));
    assert_eq!(written + fixed.incomplete, good + fixed.repeated);
    Some(fixed)
}

#[test]
fn what_is_bad_is_left_out_and_nothing_else() {
    let room = Room::of("damage_left_out");
    let mut chance = Chance(0x0B77);
    for number in 0..FILES {
        let file = File::of(&room, chance.file(&plain()));
        let Some(fixed) = fixed(&room, &file, "drop") else {
            continue;
        };
        assert_eq!(fixed.repeated + fixed.incomplete, 0, "file {number}");
        assert_eq!(fixed.stand_ins.iter().sum::<usize>(), 0, "file {number}");
        assert_eq!(fixed.out, file.stretches().concat(), "file {number}");
    }
}

#[test]
fn earlier_good_frames_stand_in_and_nothing_else() {
    let room = Room::of("damage_stand_ins");
    let mut chance = Chance(0x0B77);
    for number in 0..FILES {
        let file = File::of(&room, chance.file(&plain()));
        let Some(fixed) = fixed(&room, &file, "repeat") else {
            continue;
        };
        assert_eq!(fixed.incomplete, 0, "file {number}");
        assert_eq!(fixed.stand_ins.iter().sum::<usize>(), fixed.repeated);
        let mut rest = fixed.out.as_slice();
        let mut earlier = Vec::new();
        // None stands in behind the last stretch.
        let counts = fixed.stand_ins.into_iter().chain([0]);
        for (stretch, count) in file.stretches().into_iter().zip(counts) {
            rest = rest.strip_prefix(stretch).unwrap();
            earlier.extend(frames(stretch));
            for frame in frames(rest).into_iter().take(count) {
                assert!(earlier.contains(&frame), "file {number}");
                rest = &rest[frame.len()..];
            }
        }
        assert_eq!(rest, [], "file {number}");
    }
}

/// A stream of several substreams: its units have frames of these stream types, numbers and lengths.
fn form(unit: &[(u8, u8, usize)]) -> Vec<u8> {
    let stream = eac3();
    let frame = |start: &[u8], (strmtyp, id, length): (u8, u8, usize)| {
        let mut frame = start[..length].to_vec();
        frame[2] = strmtyp << 6 | id << 3;
        frame[3] = (length / 2 - 1) as u8;
        sealed(frame)
    };
    let units = stream.chunks(256).map(|start| {
        let frames = unit.iter().map(|kind| frame(start, *kind));
        frames.collect::<Vec<_>>().concat()
    });
    units.collect::<Vec<_>>().concat()
}

/// Streams of several substreams, of the same lengths and of others, and of two programmes; and one of one substream
/// whose frames have two lengths in no order.
fn forms() -> Vec<Vec<u8>> {
    let (first, dependent) = ((0, 0, 120), (1, 0, 64));
    let lengths = [200, 90, 90, 200, 200, 200, 90].map(|length| (0, 0, length));
    vec![
        units().repeat(3),
        form(&[first, dependent, (0, 1, 90)]),
        form(&[(0, 0, 100), (1, 0, 100), (1, 1, 100)]),
        form(&[first, dependent, (1, 1, 80), (0, 1, 90), dependent]),
        form(&lengths),
    ]
}

#[test]
fn of_several_substreams_good_frames_alone_are_written_and_in_order() {
    let room = Room::of("damage_substreams");
    let streams = forms();
    let mut chance = Chance(0x0B77);
    for number in 0..2 * FILES {
        let file = File::of(&room, chance.file(&streams));
        let good = file.stretches().concat();
        let good = frames(&good);
        // A unit that lacks a frame would be a change of format.
        let is_good = |bad: &str| {
            if file.checked.at("format_changes") == &Json::Number(0.0) {
                let checked = room.run(&["check", "-q", "out"]);
                assert_eq!(checked.status, 0, "file {number}, {bad}");
            }
        };
        if let Some(fixed) = fixed(&room, &file, "drop") {
            let mut left = good.iter();
            let mut follows = |frame: &&[u8]| left.any(|next| next == frame);
            assert!(frames(&fixed.out).iter().all(&mut follows), "file {number}");
            is_good("drop");
        }
        if let Some(fixed) = fixed(&room, &file, "repeat") {
            let is_one = |frame: &&[u8]| good.contains(frame);
            assert!(frames(&fixed.out).iter().all(is_one), "file {number}");
            assert_eq!(fixed.stand_ins.iter().sum::<usize>(), fixed.repeated);
            is_good("repeat");
        }
    }
}

/// A frame without its checksums, and without the bit before the last of them, which helps an AC-3 frame to
/// have one.
fn inner(frame: &[u8]) -> &[u8] {
    let start = match frame::probe(frame).unwrap().codec {
        Codec::Ac3 => 4,
        Codec::Eac3 => 2,
    };
    &frame[start..frame.len() - 3]
}

#[test]
fn whole_frames_are_resealed_as_they_are() {
    let room = Room::of("damage_resealed");
    let streams = [plain(), vec![units()]].concat();
    let mut chance = Chance(0x0B77);
    for number in 0..FILES {
        let file = File::of(&room, chance.file(&streams));
        let Some((status, done, out)) = file.rewritten(&room, &["reseal"]) else {
            continue;
        };
        let whole = done.at("left_out_places") == &Json::Number(0.0);
        let is_written = done.at("written") == &Json::Flag(true);
        let expected = if is_written { i32::from(!whole) } else { 4 };
        assert_eq!(status, expected, "file {number}");
        assert_eq!(done.at("left_out_bytes"), file.checked.at("skipped_bytes"));
        assert_eq!(done.at("frames"), file.checked.at("frames"));
        assert_eq!(count(done.at("resealed")), file.bad_frames());
        let gaps = file.places.len() - file.bad_frames();
        assert_eq!(count(done.at("left_out_places")), gaps);
        let mut bytes = file.bytes.clone();
        for gap in done.at("left_out_at").list().iter().rev() {
            let start = count(gap.at("byte"));
            bytes.drain(start..start + count(gap.at("bytes")));
        }
        let (old, new) = (frames(&bytes), frames(&out));
        let inner = |frames: Vec<&'_ [u8]>| -> Vec<Vec<u8>> {
            frames
                .into_iter()
                .map(|frame| inner(frame).to_vec())
                .collect()
        };
        assert_eq!(inner(old), inner(new), "file {number}");
        assert!(file.status != 0 || out == file.bytes, "file {number}");
    }
}
