//! `zela fix`: what is left out, what stands in, and what is told of it.

use crate::json::Json;
use crate::room::{ac3, eac3, gone, noise, sample, sealed, wrong, Ran, Room};
use std::ffi::OsStr;
use std::fs::{self, OpenOptions};
use std::io::Write;
use std::ops::Range;
use std::os::unix::ffi::OsStrExt;
use std::os::unix::fs::{symlink, MetadataExt, PermissionsExt};
use std::os::unix::process::CommandExt;
use std::process::{Command, Output, Stdio};
use std::thread;
use zelamodurk::frame;

/// The last line where something is left out.
const EARLIER: &str =
    "What follows a place comes earlier by what is left out; --bad repeat puts earlier frames there.\n";

/// The report of a run that wrote so many frames, with a line for each place.
fn report(frames: usize, places: &[String], end: &str) -> String {
    let lines: String = places.iter().map(|line| format!("    {line}\n")).collect();
    let places = match places.len() {
        1 => "1 place was".to_string(),
        many => format!("{many} places were"),
    };
    format!("out: written, {frames} frames\n{places} bad:\n{lines}{end}")
}

/// The frames of good bytes.
pub fn frames(mut bytes: &[u8]) -> Vec<&[u8]> {
    let mut frames = Vec::new();
    while !bytes.is_empty() {
        let (frame, rest) = bytes.split_at(frame::probe(bytes).unwrap().bytes);
        frames.push(frame);
        bytes = rest;
    }
    frames
}

/// Some frames of a good stream, by their numbers.
fn some(stream: &[u8], numbers: impl IntoIterator<Item = usize>) -> Vec<u8> {
    let frames = frames(stream);
    let numbers = numbers.into_iter();
    numbers.flat_map(|number| frames[number].to_vec()).collect()
}

/// Fixes `in` to `out`, and gives what `out` holds.
#[track_caller]
fn fixes(room: &Room, words: &[&str], status: i32, report: &str) -> Vec<u8> {
    let words = [&["fix"], words, &["in", "out"]].concat();
    let _ = fs::remove_file(room.path("out"));
    room.writes(&words, status, report, "");
    assert_eq!(room.list(), ["in", "out"]);
    let check = room.run(&["check", "-q", "--allow-changes", "out"]);
    assert_eq!(check.status, 0, "what was written is not good");
    room.get("out")
}

/// A file with one bad place, what is left without it, and what each lost frame is replaced by.
struct Case<'a> {
    test: &'a str,
    bytes: &'a [u8],
    place: &'a str,
    left: Vec<u8>,
    /// How many good frames of other substreams are left out with it.
    beside: usize,
    /// What is done at the place with `--bad repeat`.
    done: &'a str,
    filled: Vec<u8>,
}

impl Case<'_> {
    #[track_caller]
    fn holds(&self) {
        let room = Room::of(self.test);
        room.put("in", self.bytes);
        let place = self.place;
        let count = frames(&self.left).len();
        let end = beside(self.beside) + EARLIER;
        let dropped = report(count, &[format!("{place}: left out")], &end);
        for words in [&[][..], &["--bad", "drop"]] {
            assert_eq!(fixes(&room, words, 1, &dropped), self.left);
        }
        let done = [format!("{place}: {}", self.done)];
        let repeated = report(frames(&self.filled).len(), &done, "");
        let out = fixes(&room, &["--bad", "repeat"], 1, &repeated);
        assert_eq!(out, self.filled);
    }
}

/// The line for good frames that are left out with bad ones.
fn beside(frames: usize) -> String {
    let frames = match frames {
        0 => return String::new(),
        1 => "1 good frame".to_string(),
        many => format!("{many} good frames"),
    };
    format!("{frames} left out: other substreams of the same time are lost.\n")
}

const ONE: &str = "an earlier frame stands in";
const NONE: &str = "left out, and nothing stands in";

/// The numbers of 13 frames, with others in some of their places.
fn with(places: Range<usize>, others: &[usize]) -> Vec<usize> {
    [
        (0..places.start).collect(),
        others.to_vec(),
        (places.end..13).collect(),
    ]
    .concat()
}

#[test]
fn a_bad_checksum() {
    // crc2 of the third frame, and a byte of it.
    let cases = [("ac3", ac3(), 766), ("eac3", eac3(), 700)];
    for (codec, stream, at) in cases {
        Case {
            test: &format!("fix_a_bad_checksum_{codec}"),
            bytes: &wrong(stream.clone(), at, 0xFF),
            place: "byte 512, frame 2, 00:00:00.064: crc2 is bad",
            left: some(&stream, with(2..3, &[])),
            beside: 0,
            done: ONE,
            filled: some(&stream, with(2..3, &[1])),
        }
        .holds();
    }
}

#[test]
fn a_frame_that_breaks_off() {
    for (codec, stream) in [("ac3", ac3()), ("eac3", eac3())] {
        Case {
            test: &format!("fix_breaks_off_{codec}"),
            bytes: &[&stream[..612], &stream[1024..]].concat(),
            place: "byte 512, frame 2, 00:00:00.064: refusal 1, \
                the frame breaks off after 100 of 256 bytes, 156 short",
            left: some(&stream, with(2..4, &[])),
            beside: 0,
            done: ONE,
            filled: some(&stream, with(2..4, &[1])),
        }
        .holds();
    }
}

#[test]
fn the_last_frame_is_cut_off() {
    for (codec, stream) in [("ac3", ac3()), ("eac3", eac3())] {
        Case {
            test: &format!("fix_cut_off_{codec}"),
            // Little more than a header is left.
            bytes: &stream[..3072 + 10],
            place: "byte 3,072, frame 12, 00:00:00.384: refusal 1, \
                the frame breaks off after 10 of 256 bytes, 246 short",
            left: some(&stream, 0..12),
            beside: 0,
            done: ONE,
            filled: some(&stream, with(12..13, &[11])),
        }
        .holds();
    }
}

#[test]
fn a_broken_sync_word() {
    for (codec, stream) in [("ac3", ac3()), ("eac3", eac3())] {
        Case {
            test: &format!("fix_a_broken_sync_word_{codec}"),
            bytes: &wrong(stream.clone(), 1024, 1),
            place: "byte 1,024, frame 4, 00:00:00.128: \
                256 bytes in no frame: refusal 2, the first 16 bits aren't 0x0B77",
            left: some(&stream, with(4..5, &[])),
            beside: 0,
            done: ONE,
            filled: some(&stream, with(4..5, &[3])),
        }
        .holds();
    }
}

#[test]
fn bytes_in_no_frame_are_counted_by_their_length() {
    let cases = [
        (100, 0, NONE),
        (127, 0, NONE),
        (128, 1, ONE),
        (383, 1, ONE),
        (384, 2, "2 earlier frames stand in"),
        (1000, 4, "4 earlier frames stand in"),
    ];
    for (count, repeated, done) in cases {
        let thousands = if count == 1000 {
            "1,000"
        } else {
            &count.to_string()
        };
        Case {
            test: "fix_bytes_in_no_frame",
            bytes: &[&ac3()[..512], &noise(count), &ac3()[512..]].concat(),
            place: &format!(
                "byte 512, frame 2, 00:00:00.064: \
                 {thousands} bytes in no frame: refusal 2, the first 16 bits aren't 0x0B77"
            ),
            left: ac3(),
            beside: 0,
            done,
            filled: some(&ac3(), with(2..2, &vec![1; repeated])),
        }
        .holds();
    }
}

#[test]
fn a_frame_of_a_wrong_length() {
    // 768 bytes in place of 256.
    Case {
        test: "fix_a_wrong_length",
        bytes: &wrong(eac3(), 512 + 2, 1),
        place: "byte 512, frame 2, 00:00:00.064: refusal 1, \
            the frame breaks off after 256 of 768 bytes, 512 short",
        left: some(&eac3(), with(2..3, &[])),
        beside: 0,
        done: ONE,
        filled: some(&eac3(), with(2..3, &[1])),
    }
    .holds();
}

#[test]
fn a_header_that_says_something_else() {
    // The layout of the third frame: nothing like it was there before.
    Case {
        test: "fix_another_header",
        bytes: &wrong(ac3(), 512 + 6, 0x40),
        place: "byte 512, frame 2, 00:00:00.064: crc1 and crc2 are bad",
        left: some(&ac3(), with(2..3, &[])),
        beside: 0,
        done: ONE,
        filled: some(&ac3(), with(2..3, &[1])),
    }
    .holds();
}

/// 44.1 kHz: frames of 834 and 836 bytes in turn, six of them.
fn in_turn() -> Vec<u8> {
    some(&sample("a_st_44_192k.ac3"), [0, 1, 0, 2, 0, 3])
}

#[test]
fn a_frame_of_the_same_length_stands_in() {
    let lengths: Vec<usize> = frames(&in_turn()).iter().map(|frame| frame.len()).collect();
    assert_eq!(lengths, [834, 836, 834, 836, 834, 836]);
    Case {
        test: "fix_same_length",
        bytes: &wrong(in_turn(), 2504 + 700, 1),
        place: "byte 2,504, frame 3, 00:00:00.104: crc2 is bad",
        left: some(&in_turn(), [0, 1, 2, 4, 5]),
        beside: 0,
        done: ONE,
        filled: some(&in_turn(), [0, 1, 2, 1, 4, 5]),
    }
    .holds();
    Case {
        test: "fix_same_length",
        bytes: &wrong(in_turn(), 3340 + 700, 1),
        place: "byte 3,340, frame 4, 00:00:00.139: crc2 is bad",
        left: some(&in_turn(), [0, 1, 2, 3, 5]),
        beside: 0,
        done: ONE,
        filled: some(&in_turn(), [0, 1, 2, 3, 2, 5]),
    }
    .holds();
}

#[test]
fn without_a_header_lengths_go_on_in_turn() {
    Case {
        test: "fix_in_turn",
        bytes: &wrong(wrong(in_turn(), 2504, 1), 3340, 1),
        place: "byte 2,504, frame 3, 00:00:00.104: \
            1,670 bytes in no frame: refusal 2, the first 16 bits aren't 0x0B77",
        left: some(&in_turn(), [0, 1, 2, 5]),
        beside: 0,
        done: "2 earlier frames stand in",
        filled: some(&in_turn(), [0, 1, 2, 1, 2, 5]),
    }
    .holds();
}

#[test]
fn the_first_frame_is_bad() {
    for (codec, stream) in [("ac3", ac3()), ("eac3", eac3())] {
        let left = some(&stream, 1..13);
        Case {
            test: &format!("fix_the_first_is_bad_{codec}"),
            bytes: &wrong(stream, 254, 1),
            place: "byte 0, frame 0, 00:00:00.000: crc2 is bad",
            left: left.clone(),
            beside: 0,
            done: NONE,
            filled: left,
        }
        .holds();
    }
}

#[test]
fn a_file_that_begins_inside_a_frame() {
    let left = some(&eac3(), 1..13);
    Case {
        test: "fix_begins_inside",
        bytes: &eac3()[10..],
        place: "byte 0, frame 0, 00:00:00.000: \
            246 bytes in no frame: refusal 2, the first 16 bits aren't 0x0B77",
        left: left.clone(),
        beside: 0,
        done: NONE,
        filled: left,
    }
    .holds();
}

/// Units of a frame and a dependent E-AC-3 substream, four of each.
fn units_of(stream: &[u8]) -> Vec<u8> {
    let dependent = |frame: &[u8]| sealed(wrong(frame.to_vec(), 2, 0x40));
    let second = eac3();
    let pairs = frames(stream).into_iter().zip(frames(&second)).take(4);
    let unit = |(first, second): (&[u8], &[u8])| [first, &dependent(second)].concat();
    pairs.flat_map(unit).collect()
}

/// Units of an independent and a dependent substream.
pub fn units() -> Vec<u8> {
    units_of(&eac3())
}

#[test]
fn a_frame_of_the_same_substream_stands_in() {
    Case {
        test: "fix_a_dependent_substream",
        bytes: &wrong(units(), 1280 + 100, 1),
        place: "byte 1,280, frame 5, 00:00:00.096: crc2 is bad",
        left: some(&units(), [0, 1, 2, 3, 6, 7]),
        beside: 1,
        done: ONE,
        filled: some(&units(), [0, 1, 2, 3, 4, 3, 6, 7]),
    }
    .holds();
    Case {
        test: "fix_an_independent_substream",
        bytes: &wrong(units(), 1024 + 100, 1),
        place: "byte 1,024, frame 4, 00:00:00.064: crc2 is bad",
        left: some(&units(), [0, 1, 2, 3, 6, 7]),
        beside: 1,
        done: ONE,
        filled: some(&units(), [0, 1, 2, 3, 2, 5, 6, 7]),
    }
    .holds();
}

#[test]
fn without_a_header_substreams_go_on_in_turn() {
    Case {
        test: "fix_units",
        bytes: &wrong(wrong(units(), 1024, 1), 1280, 1),
        place: "byte 1,024, frame 4, 00:00:00.064: \
            512 bytes in no frame: refusal 2, the first 16 bits aren't 0x0B77",
        left: some(&units(), [0, 1, 2, 3, 6, 7]),
        beside: 0,
        done: "2 earlier frames stand in",
        filled: some(&units(), [0, 1, 2, 3, 2, 3, 6, 7]),
    }
    .holds();
}

#[test]
fn an_ac3_frame_may_have_a_dependent_substream() {
    let units = units_of(&ac3());
    Case {
        test: "fix_ac3_with_a_dependent_substream",
        bytes: &wrong(units.clone(), 1024, 1),
        place: "byte 1,024, frame 4, 00:00:00.064: \
            256 bytes in no frame: refusal 2, the first 16 bits aren't 0x0B77",
        left: some(&units, [0, 1, 2, 3, 6, 7]),
        beside: 1,
        done: ONE,
        filled: some(&units, [0, 1, 2, 3, 2, 5, 6, 7]),
    }
    .holds();
}

#[test]
fn where_nothing_is_bad_all_is_copied() {
    let room = Room::of("fix_nothing_is_bad");
    let files = [ac3(), eac3(), in_turn(), units()];
    for bytes in files {
        room.put("in", &bytes);
        let count = frames(&bytes).len();
        let report =
            format!("out: written, {count} frames\nNo frame was bad, and no byte was in none.\n");
        for bad in ["drop", "repeat"] {
            assert_eq!(fixes(&room, &["--bad", bad], 0, &report), bytes);
        }
    }
}

#[test]
fn a_unit_that_is_torn_off_is_completed_or_left_out() {
    let room = Room::of("fix_a_torn_unit");
    room.put("in", &units()[..3 * 512 + 256]);
    let dropped = "\
out: written, 6 frames
No frame was bad, and no byte was in none.
1 good frame left out: other substreams of the same time are lost.
";
    assert_eq!(fixes(&room, &[], 1, dropped), units()[..3 * 512]);
    let repeated = "\
out: written, 8 frames
No frame was bad, and no byte was in none.
1 earlier frame stands in at the end, where others are missing.
";
    let out = fixes(&room, &["--bad", "repeat"], 1, repeated);
    assert_eq!(out, some(&units(), [0, 1, 2, 3, 4, 5, 6, 5]));
    // Nothing stands in before the first unit.
    room.put("in", &units()[256..]);
    for bad in ["drop", "repeat"] {
        assert_eq!(fixes(&room, &["--bad", bad], 1, dropped), units()[512..]);
    }
}

#[test]
fn a_change_of_format_stays_and_is_told() {
    let room = Room::of("fix_a_change_stays");
    let bytes = [ac3(), sample("e_st_44.eac3")].concat();
    room.put("in", &bytes);
    let report = "\
out: written, 25 frames
No frame was bad, and no byte was in none.
1 change of format stays: 'zela check' tells where.
";
    for bad in ["drop", "repeat"] {
        assert_eq!(fixes(&room, &["--bad", bad], 1, report), bytes);
    }
}

/// What a check says of a file.
fn checked(room: &Room, file: &str) -> Json {
    let ran = room.run(&["check", "--format", "jsonl", file]);
    Json::of(ran.out.lines().last().unwrap())
}

#[test]
fn the_time_stays() {
    let room = Room::of("fix_the_time_stays");
    for (stream, length) in [(ac3(), 256), (eac3(), 256), (sample("e_st_44.eac3"), 836)] {
        room.put("whole", &stream);
        // Bad checksums, broken sync words, both in a row, and an end that is cut off.
        let at = |back: usize| stream.len() - back * length;
        let bad = [at(8) + 50, at(7), at(5), at(4) + 50, at(3) + 50];
        let bytes = bad
            .iter()
            .fold(stream.clone(), |bytes, at| wrong(bytes, *at, 1));
        room.put("in", &bytes[..stream.len() - 100]);
        let ran = room.run(&["fix", "-q", "--bad", "repeat", "in", "out"]);
        ran.is(1, "", "");
        let (whole, out) = (checked(&room, "whole"), checked(&room, "out"));
        for key in [
            "seconds",
            "frames",
            "bytes",
            "layout",
            "sample_rate",
            "good",
        ] {
            assert_eq!(out.at(key), whole.at(key), "{key}");
        }
    }
}

/// Frames of which every second one is bad, from the second on.
fn every_second() -> Vec<u8> {
    let stream = ac3().repeat(2);
    (0..12).fold(stream, |bytes, at| wrong(bytes, 256 + 512 * at + 250, 1))
}

/// The report of `every_second`, with so many of its places.
fn twelve(places: usize, done: &str) -> String {
    let line = |at: usize| {
        let (byte, frame) = (256 + 512 * at, 1 + 2 * at);
        let (thousands, byte) = (byte / 1000, byte % 1000);
        let byte = match thousands {
            0 => byte.to_string(),
            _ => format!("{thousands},{byte:03}"),
        };
        let time = 32 * frame;
        format!("    byte {byte}, frame {frame}, 00:00:00.{time:03}: crc2 is bad: {done}\n")
    };
    (0..places).map(line).collect()
}

#[test]
fn ten_places_are_told_unless_all_are_asked_for() {
    let room = Room::of("fix_ten_places");
    room.put("in", &every_second());
    let ten = twelve(10, "left out");
    let told = format!(
        "\
out: written, 14 frames
12 places were bad:
{ten}    and 2 more, which --all shows
{EARLIER}"
    );
    fixes(&room, &[], 1, &told);
    let all = twelve(12, ONE);
    let told = format!("out: written, 26 frames\n12 places were bad:\n{all}");
    fixes(&room, &["--all", "--bad", "repeat"], 1, &told);
    fixes(&room, &["--bad=repeat", "-a"], 1, &told);
}

#[test]
fn as_many_places_are_in_records() {
    let room = Room::of("fix_places_in_records");
    room.put("in", &every_second());
    for (words, count) in [(&[][..], 10), (&["--all"], 12)] {
        let words = [&["fix", "--format", "jsonl"], words, &["in", "out"]].concat();
        let ran = room.run(&words);
        let record = Json::of(&ran.out);
        assert_eq!(record.at("places").list().len(), count);
        assert_eq!(record.at("bad_places"), &Json::Number(12.0));
        assert_eq!(record.at("bad_bytes"), &Json::Number(12.0 * 256.0));
    }
}

/// Two bad places: bytes in no frame, and bad checksums.
fn two_places() -> Vec<u8> {
    let bytes = [&ac3()[..512], &noise(1000), &ac3()[512..]].concat();
    wrong(bytes, 512 + 1000 + 250, 1)
}

/// The record of `two_places`, by the number of frames that stand in at each.
fn two_places_json(written: bool, frames: u64, stand_ins: [u64; 2]) -> String {
    let [first, second] = stand_ins;
    let repeated = first + second;
    format!(
        "{{\"file\": \"in\", \"out\": \"out\", \"written\": {written}, \"frames\": {frames}, \
         \"repeated\": {repeated}, \"bad_bytes\": 1256, \"bad_offset\": 512, \
         \"bad_seconds\": 0.064000, \"bad_refusal\": 2, \
         \"bad_words\": \"the first 16 bits aren't 0x0B77\", \"bad_places\": 2, \
         \"incomplete_frames\": 0, \"format_changes\": 0, \"places\": [\
         {{\"byte\": 512, \"frame\": 2, \"seconds\": 0.064000, \"bytes\": 1000, \"what\": \"gap\", \
         \"refusal\": 2, \"words\": \"the first 16 bits aren't 0x0B77\", \"stand_ins\": {first}}}, \
         {{\"byte\": 1512, \"frame\": 2, \"seconds\": 0.064000, \"bytes\": 256, \
         \"what\": \"checksum\", \"refusal\": null, \"words\": \"crc2 is bad\", \
         \"stand_ins\": {second}}}]}}"
    )
}

#[test]
fn json() {
    let room = Room::of("fix_json");
    room.put("in", &two_places());
    let record = two_places_json(true, 12, [0, 0]);
    fixes(
        &room,
        &["--format", "json"],
        1,
        &format!("[\n  {record}\n]\n"),
    );
    let record = two_places_json(true, 17, [4, 1]);
    let words = ["--format", "json", "--bad", "repeat"];
    fixes(&room, &words, 1, &format!("[\n  {record}\n]\n"));
    room.put("in", &ac3());
    let record = "\
[
  {\"file\": \"in\", \"out\": \"out\", \"written\": true, \"frames\": 13, \"repeated\": 0, \
\"bad_bytes\": 0, \"bad_offset\": null, \"bad_seconds\": null, \"bad_refusal\": null, \
\"bad_words\": null, \"bad_places\": 0, \"incomplete_frames\": 0, \"format_changes\": 0, \"places\": []}
]
";
    fixes(&room, &["--format", "json"], 0, record);
}

#[test]
fn jsonl() {
    let room = Room::of("fix_jsonl");
    room.put("in", &two_places());
    let record = two_places_json(true, 17, [4, 1]) + "\n";
    fixes(&room, &["--format=jsonl", "--bad=repeat"], 1, &record);
    fs::remove_file(room.path("out")).unwrap();
    let record = two_places_json(false, 12, [0, 0]) + "\n";
    let words = ["fix", "-n", "--format", "jsonl", "in", "out"];
    room.writes(&words, 1, &record, "");
    assert_eq!(room.list(), ["in"]);
}

#[test]
fn csv() {
    let room = Room::of("fix_csv");
    room.put("in", &two_places());
    let lines = "\
file,out,written,frames,repeated,bad_bytes,bad_offset,bad_seconds,bad_refusal,bad_words,bad_places,incomplete_frames,format_changes
in,out,true,17,5,1256,512,0.064000,2,the first 16 bits aren't 0x0B77,2,0,0
";
    let words = ["--format", "csv", "--bad", "repeat"];
    fixes(&room, &words, 1, lines);
    room.put("in", &eac3());
    let lines = "\
file,out,written,frames,repeated,bad_bytes,bad_offset,bad_seconds,bad_refusal,bad_words,bad_places,incomplete_frames,format_changes
in,out,true,13,0,0,,,,,0,0,0
";
    fixes(&room, &["--format", "csv"], 0, lines);
}

#[test]
fn quiet_tells_by_the_status() {
    let room = Room::of("fix_quiet");
    room.put("in", &ac3());
    assert_eq!(fixes(&room, &["-q"], 0, ""), ac3());
    room.put("in", &wrong(ac3(), 254, 1));
    assert_eq!(fixes(&room, &["--quiet"], 1, ""), some(&ac3(), 1..13));
}

/// What a trial says of a file whose third frame is bad.
const TRIED: &str = "\
out: would be written, 12 frames
1 place was bad:
    byte 512, frame 2, 00:00:00.064: crc2 is bad: left out
What follows a place comes earlier by what is left out; --bad repeat puts earlier frames there.
";

#[test]
fn a_trial_writes_nothing() {
    let room = Room::of("fix_a_trial");
    room.put("in", &wrong(ac3(), 766, 1));
    room.writes(&["fix", "-n", "in", "out"], 1, TRIED, "");
    assert_eq!(room.list(), ["in"]);
    room.put("out", b"old");
    room.writes(&["fix", "--dry-run", "in", "out"], 1, TRIED, "");
    assert_eq!(room.get("out"), b"old");
    let standard = TRIED.replace("out:", "standard output:");
    room.writes(&["fix", "-n", "in", "-"], 1, &standard, "");
    let repeated = "\
out: would be written, 13 frames
1 place was bad:
    byte 512, frame 2, 00:00:00.064: crc2 is bad: an earlier frame stands in
";
    let words = ["fix", "-n", "--bad", "repeat", "in", "out"];
    room.writes(&words, 1, repeated, "");
    room.put("in", &ac3());
    let good = "out: would be written, 13 frames\nNo frame was bad, and no byte was in none.\n";
    room.writes(&["fix", "-n", "in", "out"], 0, good, "");
    assert_eq!(room.list(), ["in", "out"]);
    assert_eq!(room.get("out"), b"old");
}

#[test]
fn a_trial_without_a_good_frame_promises_no_file() {
    let room = Room::of("fix_a_trial_without_a_frame");
    room.put("in", &ac3()[..200]);
    let report = "\
out: not written, since no good frame is there
1 place was bad:
    byte 0, frame 0, 00:00:00.000: refusal 1, the frame breaks off after 200 of 256 bytes, 56 short: left out
";
    room.writes(&["fix", "-n", "in", "out"], 4, report, "");
    assert_eq!(room.list(), ["in"]);
}

#[test]
fn without_a_good_frame_nothing_is_written() {
    let room = Room::of("fix_without_a_good_frame");
    let cut = "refusal 1, the frame breaks off after 200 of 256 bytes, 56 short";
    let cases = [
        (ac3()[..200].to_vec(), cut),
        (wrong(eac3()[..256].to_vec(), 100, 4), "crc2 is bad"),
    ];
    for (bytes, why) in cases {
        room.put("in", &bytes);
        room.put("out", b"old");
        for (bad, done) in [("drop", "left out"), ("repeat", NONE)] {
            let report = format!(
                "\
out: not written, since no good frame is there
1 place was bad:
    byte 0, frame 0, 00:00:00.000: {why}: {done}
"
            );
            room.writes(&["fix", "--bad", bad, "in", "out"], 4, &report, "");
            assert_eq!(room.get("out"), b"old");
            assert_eq!(room.list(), ["in", "out"]);
        }
    }
}

/// The first bytes of a file of another kind.
fn kind(name: &str) -> Vec<u8> {
    let folder = concat!(env!("CARGO_MANIFEST_DIR"), "/tests/kinds/");
    fs::read(format!("{folder}{name}")).unwrap()
}

#[test]
fn without_ac3_nothing_is_written() {
    let room = Room::of("fix_without_ac3");
    let none = "there is no whole frame; nothing is written\n";
    let mp4 = "this is an MP4 or QuickTime file; nothing is written
to get at any AC-3 in it: ffmpeg -i in -map 0:a:0 -c copy -f data OUT.ac3\n";
    // An old kind of file stays what it is, also where frames follow.
    let with_frames = [kind("mp4"), ac3()].concat();
    let cases = [
        (vec![], "the file is empty; nothing is written\n"),
        (vec![0x0B], none),
        (noise(5000), none),
        (kind("mp4"), mp4),
        (with_frames, mp4),
    ];
    for (bytes, why) in cases {
        room.put("in", &bytes);
        let err = format!("zela: in: no AC-3 here: {why}");
        for bad in ["drop", "repeat"] {
            let words = ["fix", "--bad", bad, "in", "out"];
            room.writes(&words, 4, "", &err);
            assert_eq!(room.list(), ["in"]);
            room.put("out", b"old");
            room.writes(&words, 4, "", &err);
            room.writes(&["fix", "-q", "-n", "in", "out"], 4, "", &err);
            assert_eq!(room.get("out"), b"old");
            fs::remove_file(room.path("out")).unwrap();
        }
    }
}

#[test]
fn a_disk_that_is_full() {
    let room = Room::of("fix_a_full_disk");
    room.put("in", &wrong(ac3(), 254, 1));
    let err = "zela: /dev/full: No space left on device\n";
    if fs::exists("/dev/full").unwrap() {
        room.writes(&["fix", "in", "/dev/full"], 3, "", err);
    }
    room.put("in", &ac3().repeat(100));
    room.put("out", b"old");
    // No file may grow past some kilobytes.
    let script = "trap '' XFSZ; ulimit -f 8; exec \"$0\" fix in out";
    let err = "zela: out: File too large\n";
    room.script(script, &[]).is(3, "", err);
    assert_eq!(room.get("out"), b"old");
    assert_eq!(room.list(), ["in", "out"]);
}

#[test]
fn a_report_that_fails_takes_no_file_back() {
    let room = Room::of("fix_a_report_that_fails");
    room.put("in", &wrong(ac3(), 254, 1));
    let full = OpenOptions::new().write(true).open("/dev/full");
    let Ok(full) = full else { return };
    let err = "zela: standard output: No space left on device\n";
    room.run_into(full, &["fix", "in", "out"]).is(3, "", err);
    assert_eq!(room.get("out"), some(&ac3(), 1..13));
    assert_eq!(room.list(), ["in", "out"]);
}

/// Runs it as somebody whom the rights of folders bind: the administrator runs it as nobody. None where that
/// can't be.
fn run_bound(room: &Room, words: &[&str]) -> Option<Ran> {
    const NOBODY: u32 = 65534;
    let mut command = room.command(words);
    let is_root = fs::metadata(room.path("in")).unwrap().uid() == 0;
    if is_root && zelamodurk::EMULATED {
        return None;
    }
    if is_root {
        command.uid(NOBODY).gid(NOBODY);
    }
    command.output().ok().map(Ran::of)
}

#[test]
fn a_folder_that_is_read_only() {
    let room = Room::of("fix_a_read_only_folder");
    room.put("in", &wrong(ac3(), 766, 1));
    fs::create_dir(room.path("folder")).unwrap();
    room.put("folder/old", b"old");
    let mode = |mode| {
        let mode = fs::Permissions::from_mode(mode);
        fs::set_permissions(room.path("folder"), mode).unwrap();
    };
    mode(0o555);
    let runs = ["folder/new", "folder/old"].map(|out| {
        let tried = run_bound(&room, &["fix", "-n", "in", out]);
        (out, run_bound(&room, &["fix", "in", out]), tried)
    });
    mode(0o755);
    for (out, ran, tried) in runs {
        let (Some(ran), Some(tried)) = (ran, tried) else {
            return;
        };
        ran.is(3, "", &format!("zela: {out}: Permission denied\n"));
        tried.is(1, &TRIED.replace("out:", &format!("{out}:")), "");
    }
    assert_eq!(room.get("folder/old"), b"old");
    let held = fs::read_dir(room.path("folder")).unwrap();
    assert_eq!(held.count(), 1);
}

#[test]
fn an_input_or_an_output_that_cannot_be() {
    let room = Room::of("fix_cannot_be");
    room.put("out", b"old");
    let missing = "zela: in: No such file or directory\n";
    room.writes(&["fix", "in", "out"], 3, "", missing);
    fs::create_dir(room.path("in")).unwrap();
    let folder = "zela: in: Is a directory\n";
    room.writes(&["fix", "in", "out"], 3, "", folder);
    room.writes(&["fix", "-n", "in", "out"], 3, "", folder);
    assert_eq!(room.get("out"), b"old");
    let none = "zela: none/out: No such file or directory\n";
    room.put("a.ac3", &ac3());
    room.writes(&["fix", "a.ac3", "none/out"], 3, "", none);
    assert_eq!(room.list(), ["a.ac3", "in", "out"]);
}

#[test]
fn a_reader_that_is_gone() {
    let room = Room::of("fix_a_reader_that_is_gone");
    room.put("in", &wrong(ac3(), 254, 1));
    room.run_into(gone(), &["fix", "in", "-"]).is(3, "", "");
    room.run_into(gone(), &["fix", "-n", "in", "out"])
        .is(3, "", "");
    assert_eq!(room.list(), ["in"]);
    // What is written stays, where the report alone has no reader.
    room.run_into(gone(), &["fix", "in", "out"]).is(3, "", "");
    assert_eq!(room.get("out"), some(&ac3(), 1..13));
}

/// Runs it with these bytes as standard input, and keeps what it writes as it is.
fn piped(room: &Room, input: &[u8], words: &[&str]) -> Output {
    let mut command = room.command(words);
    command.stdin(Stdio::piped()).stdout(Stdio::piped());
    let mut child = command.stderr(Stdio::piped()).spawn().unwrap();
    child.stdin.take().unwrap().write_all(input).unwrap();
    child.wait_with_output().unwrap()
}

#[test]
fn standard_input_and_output() {
    let room = Room::of("fix_standard");
    let ran = piped(&room, &wrong(ac3(), 766, 1), &["fix", "-", "-"]);
    assert_eq!(ran.stdout, some(&ac3(), with(2..3, &[])));
    let report = "\
standard output: written, 12 frames
1 place was bad:
    byte 512, frame 2, 00:00:00.064: crc2 is bad: left out
What follows a place comes earlier by what is left out; --bad repeat puts earlier frames there.
";
    assert_eq!(String::from_utf8(ran.stderr).unwrap(), report);
    assert_eq!(ran.status.code(), Some(1));
    let err = "zela: standard input: no AC-3 here: the file is empty; nothing is written\n";
    room.run_on(b"", &["fix", "-", "-"]).is(4, "", err);
    let mp4 = "\
zela: standard input: no AC-3 here: this is an MP4 or QuickTime file; nothing is written
to get at any AC-3 in it: ffmpeg -i FILE -map 0:a:0 -c copy -f data OUT.ac3
";
    room.run_on(&kind("mp4"), &["fix", "-", "-"]).is(4, "", mp4);
}

#[test]
fn pipes_with_a_name() {
    let room = Room::of("fix_pipes");
    let (input, output) = (room.pipe("in"), room.pipe("out"));
    let writer = thread::spawn(move || fs::write(input, wrong(ac3(), 254, 1)));
    let reader = thread::spawn(move || fs::read(output).unwrap());
    let places = ["byte 0, frame 0, 00:00:00.000: crc2 is bad: left out".to_string()];
    let told = report(12, &places, EARLIER);
    room.writes(&["fix", "in", "out"], 1, "", &told);
    writer.join().unwrap().unwrap();
    assert_eq!(reader.join().unwrap(), some(&ac3(), 1..13));
}

/// The program in the room, with these words and names that may be anything.
fn run_named(room: &Room, words: &[&str], names: &[&OsStr]) -> Ran {
    let mut command: Command = room.command(words);
    Ran::of(command.args(names).output().unwrap())
}

#[test]
fn odd_names() {
    let room = Room::of("fix_odd_names");
    // A line's end, an escape, quotes, a turn of the direction, a wide sign, and what is not UTF-8.
    let cases: [(&[u8], &str); 4] = [
        (b"a\nb\x1b[31m\"'", "a?b?[31m\"'"),
        ("\u{202e}3ca".as_bytes(), "?3ca"),
        (
            "\u{65e5}\u{672c} \u{e9}.ac3".as_bytes(),
            "\u{65e5}\u{672c} \u{e9}.ac3",
        ),
        (b"\xff\xfe.ac3", "\u{fffd}\u{fffd}.ac3"),
    ];
    room.put("in", &ac3());
    for (name, shown) in cases {
        let name = OsStr::from_bytes(name);
        let ran = run_named(&room, &["fix", "in"], &[name]);
        ran.is(
            0,
            &format!("{shown}: written, 13 frames\nNo frame was bad, and no byte was in none.\n"),
            "",
        );
        let at = room.path("in").with_file_name(name);
        assert_eq!(fs::read(&at).unwrap(), ac3());
        fs::write(&at, noise(100)).unwrap();
        let words = "no AC-3 here: there is no whole frame; nothing is written";
        let ran = run_named(&room, &["fix"], &[name, OsStr::new("out")]);
        ran.is(4, "", &format!("zela: {shown}: {words}\n"));
        fs::remove_file(at).unwrap();
    }
    assert_eq!(room.list(), ["in"]);
}

#[test]
fn odd_names_in_records() {
    let room = Room::of("fix_odd_names_in_records");
    room.put("in", &ac3());
    let out = OsStr::from_bytes(b"a,\n\"\xff");
    let ran = run_named(&room, &["fix", "--format", "jsonl", "in"], &[out]);
    let start = "{\"file\": \"in\", \"out\": \"a,\\u000a\\\"\u{fffd}\", \"written\": true, ";
    assert_eq!(ran.out.get(..start.len()), Some(start));
    let ran = run_named(&room, &["fix", "--format", "csv", "in"], &[out]);
    let lines = "\
file,out,written,frames,repeated,bad_bytes,bad_offset,bad_seconds,bad_refusal,bad_words,bad_places,incomplete_frames,format_changes
in,\"a,
\"\"\u{fffd}\",true,13,0,0,,,,,0,0,0
";
    ran.is(0, lines, "");
}

#[test]
fn what_to_type_has_the_name_as_a_shell_takes_it() {
    let room = Room::of("fix_what_to_type");
    let cases = [
        ("my film's.mp4", "'my film'\\''s.mp4'"),
        ("-x", "./-x"),
        ("a\nb", "FILE"),
    ];
    for (name, typed) in cases {
        room.put(name, &kind("mp4"));
        let ran = room.run(&["fix", "--", name, "out"]);
        let line = format!(
            "to get at any AC-3 in it: ffmpeg -i {typed} -map 0:a:0 -c copy -f data OUT.ac3\n"
        );
        assert_eq!(ran.err.split_once('\n').unwrap().1, line);
        assert_eq!(ran.status, 4);
    }
}

#[test]
fn in_and_out_are_never_the_same() {
    let room = Room::of("fix_never_the_same");
    let damaged = wrong(ac3(), 700, 1);
    room.put("a.ac3", &damaged);
    fs::hard_link(room.path("a.ac3"), room.path("hard")).unwrap();
    symlink("a.ac3", room.path("soft")).unwrap();
    for out in ["a.ac3", "./a.ac3", "hard", "soft"] {
        let err = format!("zela: {out}: IN and OUT are the same file\n");
        room.writes(&["fix", "a.ac3", out], 2, "", &err);
        room.writes(&["fix", "-n", "a.ac3", out], 2, "", &err);
    }
    let appended = OpenOptions::new().append(true).open(room.path("a.ac3"));
    let err = "zela: standard output: IN and OUT are the same file\n";
    room.run_into(appended.unwrap(), &["fix", "a.ac3", "-"])
        .is(2, "", err);
    assert_eq!(room.get("a.ac3"), damaged);
    assert_eq!(room.list(), ["a.ac3", "hard", "soft"]);
}
