//! Long inputs: memory stays flat, and places past 4 GiB are told.

use crate::json::Json;
use crate::room::{ac3, sample, wrong, Ran, Room};
use std::fs::{self, File};
use std::io::{Seek, SeekFrom, Write};
use std::process::{Child, Stdio};

/// What a run may hold at most, in kB: the program itself, its window, and room for the system's libraries.
const MEMORY: u64 = 16_000;
/// The emulated core is far too slow for a long file.
const PASSES: u64 = if zelamodurk::EMULATED { 20 } else { 12_000 };

/// The most memory that a child has held until now, in kB.
fn peak(child: &Child) -> u64 {
    let status = fs::read_to_string(format!("/proc/{}/status", child.id())).unwrap();
    let line = status.lines().find_map(|line| line.strip_prefix("VmHWM:"));
    let number = line.unwrap().trim().trim_end_matches(" kB");
    number.parse().unwrap()
}

#[test]
fn a_long_stream_takes_no_memory() {
    let stream = sample("a_51_48_448k.ac3");
    let room = Room::of("a_long_stream");
    let mut command = room.command(&["check", "--format", "json", "-"]);
    command.stdin(Stdio::piped()).stdout(Stdio::piped());
    let mut child = command.stderr(Stdio::piped()).spawn().unwrap();
    let mut input = child.stdin.take().unwrap();
    for _ in 0..PASSES {
        input.write_all(&stream).unwrap();
    }
    // It waits for more, and has held what it ever will.
    let held = peak(&child);
    drop(input);
    let ran = Ran::of(child.wait_with_output().unwrap());
    assert_eq!((ran.status, ran.err.as_str()), (0, ""));
    let document = Json::of(&ran.out);
    let told = &document.list()[0];
    assert_eq!(told.at("frames"), &Json::Number((13 * PASSES) as f64));
    assert_eq!(told.at("bit_rate"), &Json::Number(448_000.0));
    assert!(held < MEMORY, "{held} kB");
}

#[test]
fn bad_places_without_end_take_no_memory() {
    // Every frame is bad, and all places are told as they are found.
    let frame = wrong(ac3()[..256].to_vec(), 200, 1);
    let room = Room::of("without_end");
    let mut command = room.command(&["check", "--all", "-"]);
    command.stdin(Stdio::piped()).stdout(Stdio::null());
    let mut child = command.stderr(Stdio::piped()).spawn().unwrap();
    let mut input = child.stdin.take().unwrap();
    let stream = frame.repeat(100);
    for _ in 0..PASSES {
        input.write_all(&stream).unwrap();
    }
    let held = peak(&child);
    drop(input);
    let ran = Ran::of(child.wait_with_output().unwrap());
    assert_eq!((ran.status, ran.err.as_str()), (1, ""));
    assert!(held < MEMORY, "{held} kB");
}

#[test]
fn a_huge_file_with_holes() {
    let room = Room::of("a_huge_file");
    let frame = &ac3()[..256];
    let mut file = File::create(room.path("huge")).unwrap();
    file.write_all(frame).unwrap();
    file.seek(SeekFrom::Start((1 << 32) + 1000)).unwrap();
    file.write_all(frame).unwrap();
    file.write_all(&[0; 10]).unwrap();
    drop(file);
    let table = "\
state  codec   layout      kHz  kbit/s   frames        length  file
bad    AC-3    1/0          48      64        2  00:00:00.064  huge
    2 bad places: 4,294,968,050 bytes in no frame at 2 places
    byte 256, frame 1, 00:00:00.032: 4,294,968,040 bytes in no frame: refusal 2, the first 16 bits aren't 0x0B77
    byte 4,294,968,552, frame 2, 00:00:00.064: 10 bytes in no frame: refusal 2, the first 16 bits aren't 0x0B77
    where: [xxxxxxxxxxxxxxxxxxxxxxxxxxxxxxxxxxxxxxxxxxxxxxxxxxxxxxxxxxxx]
    times count whole frames alone: bytes in no frame take none
";
    room.writes(&["check", "huge"], 1, table, "");
    let bit = ((1u64 << 32) + 1000) * 8;
    let csv =
        format!("file,bit,width,value,hex,binary\nhuge,{bit},16,2935,0x0B77,0000101101110111\n");
    let words = ["bits", "--format", "csv", "huge", &bit.to_string(), "16"];
    room.writes(&words, 0, &csv, "");
}
