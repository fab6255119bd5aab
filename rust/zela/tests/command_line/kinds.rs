//! Files of the wrong kind: they are named, with what to type, and have a status of their own.

use crate::json::Json;
use crate::room::{ac3, noise, Room};
use std::fs;
use std::path::Path;

/// The first bytes of a real file of another kind.
fn kind(name: &str) -> Vec<u8> {
    let folder = Path::new(env!("CARGO_MANIFEST_DIR")).join("tests/kinds");
    fs::read(folder.join(name)).unwrap()
}

/// Files by their names, with the kinds that they are of.
const FILES: [(&str, &str); 10] = [
    ("my film.ts", "ts_188"),
    ("film.mp4", "mp4"),
    ("film.mkv", "matroska"),
    ("film.avi", "avi"),
    ("film.mpg", "ps_mpeg2"),
    ("sound.wav", "wav_pcm"),
    ("low.spdif", "bursts_low"),
    ("high.spdif", "bursts_high"),
    ("swapped.ac3", "swapped_ac3"),
    ("song.mp3", "mp3_id3"),
];

#[test]
fn a_file_of_another_kind_is_named_with_what_to_type() {
    let room = Room::of("another_kind");
    FILES
        .iter()
        .for_each(|(name, first)| room.put(name, &kind(first)));
    let words = [&["check"], &FILES.map(|(name, _)| name)[..]].concat();
    room.writes(&words, 4, TABLE, "");
}

const TABLE: &str = "\
state  codec   layout      kHz  kbit/s   frames        length  file
wrong  -       -             -       -        -             -  my film.ts
    no AC-3 here: this is an MPEG transport stream
    to get at any AC-3 in it: ffmpeg -i 'my film.ts' -map 0:a:0 -c copy -f data OUT.ac3
wrong  -       -             -       -        -             -  film.mp4
    no AC-3 here: this is an MP4 or QuickTime file
    to get at any AC-3 in it: ffmpeg -i film.mp4 -map 0:a:0 -c copy -f data OUT.ac3
wrong  -       -             -       -        -             -  film.mkv
    no AC-3 here: this is a Matroska or WebM file
    to get at any AC-3 in it: ffmpeg -i film.mkv -map 0:a:0 -c copy -f data OUT.ac3
wrong  -       -             -       -        -             -  film.avi
    no AC-3 here: this is an AVI file
    to get at any AC-3 in it: ffmpeg -i film.avi -map 0:a:0 -c copy -f data OUT.ac3
wrong  -       -             -       -        -             -  film.mpg
    no AC-3 here: this is an MPEG program stream
    to get at any AC-3 in it: ffmpeg -i film.mpg -map 0:a:0 -c copy -f data OUT.ac3
wrong  -       -             -       -        -             -  sound.wav
    no AC-3 here: this is a WAV file
    to get at any AC-3 in it: ffmpeg -i sound.wav -map 0:a:0 -c copy -f data OUT.ac3
wrong  -       -             -       -        -             -  low.spdif
    no AC-3 here: this is a capture of IEC 61937 bursts, low byte first
    to get at any AC-3 in it: ffmpeg -f spdif -i low.spdif -map 0:a:0 -c copy -f data OUT.ac3
wrong  -       -             -       -        -             -  high.spdif
    no AC-3 here: this is a capture of IEC 61937 bursts, high byte first
    to get at any AC-3 in it: dd conv=swab if=high.spdif | ffmpeg -f spdif -i - -map 0:a:0 -c copy -f data OUT.ac3
wrong  -       -             -       -        -             -  swapped.ac3
    no AC-3 here: this is byte-swapped AC-3 or E-AC-3
    to get at any AC-3 in it: dd conv=swab if=swapped.ac3 of=OUT.ac3
wrong  -       -             -       -        -             -  song.mp3
    no AC-3 here: this is MPEG audio (MP2 or MP3)

10 files: 0 good, 0 bad, 10 without AC-3
";

#[test]
fn a_pipe_of_another_kind_is_named_too() {
    let room = Room::of("a_pipe_of_another_kind");
    let table = "\
state  codec   layout      kHz  kbit/s   frames        length  file
wrong  -       -             -       -        -             -  -
    no AC-3 here: this is an MPEG transport stream
    to get at any AC-3 in it: ffmpeg -i FILE -map 0:a:0 -c copy -f data OUT.ac3
";
    let ran = room.run_on(&kind("ts_188"), &["check", "-"]);
    ran.is(4, table, "");
}

#[test]
fn each_format_names_the_kind() {
    let room = Room::of("each_format");
    room.put("x", &kind("mp4"));
    let ran = room.run(&["check", "--format", "jsonl", "x"]);
    assert_eq!((ran.status, ran.err.as_str()), (4, ""));
    let record = Json::of(&ran.out);
    assert_eq!(record.at("good"), &Json::Flag(false));
    let kind = Json::Text("an MP4 or QuickTime file".to_string());
    assert_eq!(record.at("kind"), &kind);
    assert_eq!(record.at("error"), &Json::Null);
    assert_eq!(record.at("bytes"), &Json::Number(1100.0));
    let csv = room.run(&["check", "--format", "csv", "x"]);
    assert!(csv.out.contains(",an MP4 or QuickTime file,"), "{csv:?}");
}

/// A wrong file has the greatest status, also beside a bad one.
#[test]
fn a_wrong_file_is_told_from_a_bad_one() {
    let room = Room::of("wrong_or_bad");
    room.put("noise", &noise(5000));
    room.put("cut", &ac3()[..100]);
    room.put(
        "tagged",
        &[&b"ID3\x04\0\0\0\0\0\x02xx"[..], &ac3()].concat(),
    );
    room.put("bad", &ac3()[..1000]);
    for (file, status) in [("noise", 4), ("cut", 1), ("tagged", 1), ("bad", 1)] {
        room.writes(&["check", "-q", file], status, "", "");
    }
    room.writes(&["check", "-q", "noise", "bad"], 4, "", "");
}
