//! `zela check`, as a table.

use crate::room::{ac3, eac3, gone, noise, sealed, wrong, Ran, Room, SAMPLES};
use std::fs::{self, File};
use std::thread;

/// Checks one file of these bytes, under the name `x`.
#[track_caller]
fn checks(test: &str, bytes: &[u8], status: i32, out: &str) {
    let room = Room::of(test);
    room.put("x", bytes);
    room.writes(&["check", "x"], status, out, "");
    // Standard input is read as a file is, and its places are told before its row.
    let piped = room.run_on(bytes, &["check", "-"]);
    piped.is(status, &as_piped(out), "");
}

/// The report of a file `x` as it is of the same bytes from a pipe.
fn as_piped(out: &str) -> String {
    let is_place = |line: &&str| line.starts_with("    byte ");
    let (places, others): (Vec<&str>, Vec<&str>) = out.lines().partition(is_place);
    let mut lines: Vec<String> = others.iter().map(|line| line.to_string()).collect();
    lines[1] = lines[1].trim_end_matches('x').to_string() + "-";
    if !places.is_empty() {
        let heading = ["standard input:"].into_iter().chain(places);
        lines.splice(1..1, heading.map(str::to_string));
    }
    lines.join("\n") + "\n"
}

#[test]
fn the_samples_are_good() {
    let room = Room::of("the_samples_are_good");
    let mut command = room.command(&[
        "check",
        "a_51_48_448k.ac3",
        "a_mono_48_64k.ac3",
        "a_st_44_192k.ac3",
        "e_51_48_384k.eac3",
        "e_mono_48.eac3",
        "e_st_44.eac3",
    ]);
    let table = "\
state  codec   layout      kHz  kbit/s   frames        length  file
good   AC-3    3/2.1        48     448       13  00:00:00.416  a_51_48_448k.ac3
good   AC-3    1/0          48      64       13  00:00:00.416  a_mono_48_64k.ac3
good   AC-3    2/0        44.1     192       15  00:00:00.522  a_st_44_192k.ac3
good   E-AC-3  3/2.1        48     384       13  00:00:00.416  e_51_48_384k.eac3
good   E-AC-3  1/0          48      64       13  00:00:00.416  e_mono_48.eac3
good   E-AC-3  2/0        44.1     192       12  00:00:00.417  e_st_44.eac3

6 files: 6 good, 0 bad
";
    let ran = command.current_dir(SAMPLES).output().unwrap();
    Ran::of(ran).is(0, table, "");
}

#[test]
fn an_empty_file() {
    let table = "\
state  codec   layout      kHz  kbit/s   frames        length  file
wrong  -       -             -       -        -             -  x
    no AC-3 here: the file is empty
";
    checks("an_empty_file", &[], 4, table);
}

#[test]
fn one_byte() {
    let table = "\
state  codec   layout      kHz  kbit/s   frames        length  file
wrong  -       -             -       -        -             -  x
    no AC-3 here: there is no whole frame
";
    checks("one_byte", &[0x0B], 4, table);
}

#[test]
fn a_header_alone() {
    let table = "\
state  codec   layout      kHz  kbit/s   frames        length  file
bad    -       -             -       -        -             -  x
    1 bad place: 6 bytes in no frame at 1 place
    byte 0, frame 0, 00:00:00.000: refusal 1, the frame breaks off after 6 of 256 bytes, 250 short
    where: [xxxxxxxxxxxxxxxxxxxxxxxxxxxxxxxxxxxxxxxxxxxxxxxxxxxxxxxxxxxx]
";
    checks("a_header_alone", &ac3()[..6], 1, table);
}

#[test]
fn noise_alone() {
    let table = "\
state  codec   layout      kHz  kbit/s   frames        length  file
wrong  -       -             -       -        -             -  x
    no AC-3 here: there is no whole frame
";
    checks("noise_alone", &noise(100_000), 4, table);
}

#[test]
fn a_file_that_is_cut() {
    let table = "\
state  codec   layout      kHz  kbit/s   frames        length  file
bad    AC-3    1/0          48      64        2  00:00:00.064  x
    1 bad place: 188 bytes in no frame at 1 place
    byte 512, frame 2, 00:00:00.064: refusal 1, the frame breaks off after 188 of 256 bytes, 68 short
    where: [...........................................xxxxxxxxxxxxxxxxx]
";
    checks("a_file_that_is_cut", &ac3()[..700], 1, table);
}

#[test]
fn a_file_that_begins_inside_a_frame() {
    let table = "\
state  codec   layout      kHz  kbit/s   frames        length  file
bad    E-AC-3  1/0          48      64       12  00:00:00.384  x
    1 bad place: 156 bytes in no frame at 1 place
    byte 0, frame 0, 00:00:00.000: 156 bytes in no frame: refusal 2, the first 16 bits aren't 0x0B77
    where: [xxx.........................................................]
    times count whole frames alone: bytes in no frame take none
";
    checks("begins_inside", &eac3()[100..], 1, table);
}

#[test]
fn a_file_that_is_spliced() {
    let spliced = [&ac3()[..612], &ac3()[1024..]].concat();
    let table = "\
state  codec   layout      kHz  kbit/s   frames        length  file
bad    AC-3    1/0          48      64       11  00:00:00.352  x
    1 bad place: 100 bytes in no frame at 1 place
    byte 512, frame 2, 00:00:00.064: refusal 1, the frame breaks off after 100 of 256 bytes, 156 short
    where: [..........xxx...............................................]
    times count whole frames alone: bytes in no frame take none
";
    checks("spliced", &spliced, 1, table);
}

#[test]
fn noise_between_frames() {
    let bytes = [&ac3()[..512], &noise(1000), &ac3()[512..]].concat();
    let table = "\
state  codec   layout      kHz  kbit/s   frames        length  file
bad    AC-3    1/0          48      64       13  00:00:00.416  x
    1 bad place: 1,000 bytes in no frame at 1 place
    byte 512, frame 2, 00:00:00.064: 1,000 bytes in no frame: refusal 2, the first 16 bits aren't 0x0B77
    where: [.......xxxxxxxxxxxxxx.......................................]
    times count whole frames alone: bytes in no frame take none
";
    checks("noise_between", &bytes, 1, table);
}

#[test]
fn a_bad_crc2_alone() {
    // Past the 5/8 point of the third frame.
    let table = "\
state  codec   layout      kHz  kbit/s   frames        length  file
bad    AC-3    1/0          48      64       13  00:00:00.416  x
    1 bad place: bad checksums in 1 frame
    byte 512, frame 2, 00:00:00.064: crc2 is bad
    where: [.........xxxxx..............................................]
";
    checks("a_bad_crc2", &wrong(ac3(), 512 + 200, 1), 1, table);
}

#[test]
fn bad_checksums_of_both_kinds() {
    let bytes = wrong(wrong(ac3(), 256 + 20, 1), 512 + 200, 1);
    let table = "\
state  codec   layout      kHz  kbit/s   frames        length  file
bad    AC-3    1/0          48      64       13  00:00:00.416  x
    2 bad places: bad checksums in 2 frames
    byte 256, frame 1, 00:00:00.032: crc1 and crc2 are bad
    byte 512, frame 2, 00:00:00.064: crc2 is bad
    where: [....xxxxxxxxxx..............................................]
";
    checks("both_bad", &bytes, 1, table);
}

#[test]
fn a_single_bad_frame() {
    let table = "\
state  codec   layout      kHz  kbit/s   frames        length  file
bad    E-AC-3  1/0          48      64        1  00:00:00.032  x
    1 bad place: bad checksums in 1 frame
    byte 0, frame 0, 00:00:00.000: crc2 is bad
    where: [xxxxxxxxxxxxxxxxxxxxxxxxxxxxxxxxxxxxxxxxxxxxxxxxxxxxxxxxxxxx]
";
    checks(
        "a_single_bad_frame",
        &wrong(eac3()[..256].to_vec(), 100, 4),
        1,
        table,
    );
}

#[test]
fn a_broken_sync_word() {
    let table = "\
state  codec   layout      kHz  kbit/s   frames        length  file
bad    E-AC-3  1/0          48      64       12  00:00:00.384  x
    1 bad place: 256 bytes in no frame at 1 place
    byte 1,024, frame 4, 00:00:00.128: 256 bytes in no frame: refusal 2, the first 16 bits aren't 0x0B77
    where: [..................xxxxxx....................................]
    times count whole frames alone: bytes in no frame take none
";
    checks("a_broken_sync_word", &wrong(eac3(), 1024, 1), 1, table);
}

#[test]
fn a_reserved_sampling_rate() {
    let table = "\
state  codec   layout      kHz  kbit/s   frames        length  file
bad    AC-3    1/0          48      64       12  00:00:00.384  x
    1 bad place: 256 bytes in no frame at 1 place
    byte 512, frame 2, 00:00:00.064: 256 bytes in no frame: refusal 4, AC-3 fscod 3, or frmsizecod above 37
    where: [.........xxxxx..............................................]
    times count whole frames alone: bytes in no frame take none
";
    checks("a_reserved_rate", &wrong(ac3(), 512 + 4, 0xC0), 1, table);
}

#[test]
fn a_reserved_bsid() {
    let table = "\
state  codec   layout      kHz  kbit/s   frames        length  file
bad    AC-3    1/0          48      64       12  00:00:00.384  x
    1 bad place: 256 bytes in no frame at 1 place
    byte 512, frame 2, 00:00:00.064: 256 bytes in no frame: refusal 5, bsid 9, 10, or above 16
    where: [.........xxxxx..............................................]
    times count whole frames alone: bytes in no frame take none
";
    checks("a_reserved_bsid", &wrong(ac3(), 512 + 5, 0x08), 1, table);
}

#[test]
fn a_wrong_length_swallows_no_good_frame() {
    // 768 bytes in place of 256, so that a header stands where the frame would end.
    let table = "\
state  codec   layout      kHz  kbit/s   frames        length  file
bad    E-AC-3  1/0          48      64       12  00:00:00.384  x
    1 bad place: 256 bytes in no frame at 1 place
    byte 512, frame 2, 00:00:00.064: refusal 1, the frame breaks off after 256 of 768 bytes, 512 short
    where: [.........xxxxx..............................................]
    times count whole frames alone: bytes in no frame take none
";
    checks("a_wrong_length", &wrong(eac3(), 512 + 2, 1), 1, table);
}

#[test]
fn a_bad_frame_before_a_broken_one() {
    let bytes = wrong(wrong(eac3(), 256 + 100, 1), 512, 1);
    let table = "\
state  codec   layout      kHz  kbit/s   frames        length  file
bad    E-AC-3  1/0          48      64       11  00:00:00.352  x
    1 bad place: 512 bytes in no frame at 1 place
    byte 256, frame 1, 00:00:00.032: 512 bytes in no frame: crc2 is bad, and no header stands where the frame would end
    where: [....xxxxxxxxxx..............................................]
    times count whole frames alone: bytes in no frame take none
";
    checks("bad_before_broken", &bytes, 1, table);
}

#[test]
fn a_bad_frame_before_a_byte_too_many() {
    let mut bytes = wrong(eac3(), 256 + 100, 1);
    bytes.insert(512, 0);
    let table = "\
state  codec   layout      kHz  kbit/s   frames        length  file
bad    E-AC-3  1/0          48      64       12  00:00:00.384  x
    1 bad place: 257 bytes in no frame at 1 place
    byte 256, frame 1, 00:00:00.032: 257 bytes in no frame: crc2 is bad, and no header stands where the frame would end
    where: [....xxxxxx..................................................]
    times count whole frames alone: bytes in no frame take none
";
    checks("a_byte_too_many", &bytes, 1, table);
}

#[test]
fn a_frame_too_short_for_a_checksum() {
    // frmsiz 0: probe takes it, and its 2 bytes can't hold a checksum.
    let bytes = [&[0x0B, 0x77, 0, 0, 0, 0x80], &eac3()[..]].concat();
    let table = "\
state  codec   layout      kHz  kbit/s   frames        length  file
bad    E-AC-3  1/0          48      64       13  00:00:00.416  x
    1 bad place: 6 bytes in no frame at 1 place
    byte 0, frame 0, 00:00:00.000: 6 bytes in no frame: refusal 20, frame length unfit for a CRC
    where: [x...........................................................]
    times count whole frames alone: bytes in no frame take none
";
    checks("too_short", &bytes, 1, table);
}

#[test]
fn both_codecs_in_a_file() {
    let table = "\
state  codec   layout      kHz  kbit/s   frames        length  file
bad    both    1/0          48      64       26  00:00:00.832  x
    1 bad place: 1 change of format
    byte 3,328, frame 13, 00:00:00.416: the format changes from AC-3 1/0 48 kHz to E-AC-3 1/0 48 kHz
    where: [..............................x.............................]
";
    checks("both_codecs", &[ac3(), eac3()].concat(), 1, table);
}

#[test]
fn only_independent_substream_0_takes_time() {
    let first = &eac3()[..256];
    let of = |head: u8| sealed(wrong(first.to_vec(), 2, head));
    // A dependent substream, and independent substream 1.
    let bytes = [first, &of(0x40), &of(0x08)].concat().repeat(2);
    let table = "\
state  codec   layout      kHz  kbit/s   frames        length  file
good   E-AC-3  1/0+2        48     192        6  00:00:00.064  x
";
    checks("substreams", &bytes, 0, table);
}

#[test]
fn a_substream_that_is_missing_is_told() {
    let first = &eac3()[..256];
    let dependent = sealed(wrong(first.to_vec(), 2, 0x40));
    let bytes = [first, &dependent, first, &dependent, first].concat();
    let table = "\
state  codec   layout      kHz  kbit/s   frames        length  file
bad    E-AC-3  varies       48  varies        5  00:00:00.096  x
    1 bad place: 1 change of format
    byte 1,024, frame 4, 00:00:00.064: the format changes from E-AC-3 1/0 48 kHz with dependent 0 E-AC-3 1/0 48 kHz to E-AC-3 1/0 48 kHz
    where: [................................................x...........]
";
    checks("a_missing_substream", &bytes, 1, table);
}

#[test]
fn frames_that_take_no_time_have_no_bit_rate() {
    let frame = sealed(wrong(eac3()[..256].to_vec(), 2, 0x40));
    let table = "\
state  codec   layout      kHz  kbit/s   frames        length  file
good   E-AC-3  1/0          48       -        1  00:00:00.000  x
";
    checks("no_time", &frame, 0, table);
}

#[test]
fn files_that_cannot_be_read() {
    let room = Room::of("files_that_cannot_be_read");
    room.put("a.ac3", &ac3());
    fs::create_dir(room.path("folder")).unwrap();
    let words = ["check", "folder", "a.ac3", "missing.ac3"];
    let table = "\
state  codec   layout      kHz  kbit/s   frames        length  file
error  -       -             -       -        -             -  folder
    error: is a folder: -r checks the files in it
good   AC-3    1/0          48      64       13  00:00:00.416  a.ac3
error  -       -             -       -        -             -  missing.ac3
    error: No such file or directory

3 files: 1 good, 0 bad, 2 not read
";
    let err = "\
zela: folder: is a folder: -r checks the files in it
zela: missing.ac3: No such file or directory
";
    room.writes(&words, 3, table, err);
}

#[test]
fn a_file_that_is_not_read_to_its_end() {
    let room = Room::of("not_read");
    // Reading a process's memory from address 0 on fails.
    let table = "\
state  codec   layout      kHz  kbit/s   frames        length  file
error  -       -             -       -        -             -  /proc/self/mem
    error: Input/output error
";
    let err = "zela: /proc/self/mem: Input/output error\n";
    room.writes(&["check", "/proc/self/mem"], 3, table, err);
}

#[test]
fn many_files_are_told_together() {
    let room = Room::of("many_files");
    room.put("good.ac3", &ac3());
    room.put("a name that is long.eac3", &wrong(eac3(), 2100, 1));
    room.put("cut\n.ac3", &ac3()[..1000]);
    room.put("音声.ac3", &ac3());
    room.put("empty", &[]);
    let words = [
        "check",
        "good.ac3",
        "a name that is long.eac3",
        "cut\n.ac3",
        "missing",
        "音声.ac3",
        "empty",
    ];
    let table = "\
state  codec   layout      kHz  kbit/s   frames        length  file
good   AC-3    1/0          48      64       13  00:00:00.416  good.ac3
bad    E-AC-3  1/0          48      64       13  00:00:00.416  a name that is long.eac3
    1 bad place: bad checksums in 1 frame
    byte 2,048, frame 8, 00:00:00.256: crc2 is bad
    where: [....................................xxxxxx..................]
bad    AC-3    1/0          48      64        3  00:00:00.096  cut?.ac3
    1 bad place: 232 bytes in no frame at 1 place
    byte 768, frame 3, 00:00:00.096: refusal 1, the frame breaks off after 232 of 256 bytes, 24 short
    where: [..............................................xxxxxxxxxxxxxx]
error  -       -             -       -        -             -  missing
    error: No such file or directory
good   AC-3    1/0          48      64       13  00:00:00.416  音声.ac3
wrong  -       -             -       -        -             -  empty
    no AC-3 here: the file is empty

6 files: 2 good, 2 bad, 1 without AC-3, 1 not read
";
    let missing = "zela: missing: No such file or directory\n";
    room.writes(&words, 4, table, missing);
}

#[test]
fn quiet_tells_by_the_status() {
    let room = Room::of("quiet");
    room.put("good.ac3", &ac3());
    room.put("cut.ac3", &ac3()[..1000]);
    room.writes(&["check", "-q", "good.ac3"], 0, "", "");
    room.writes(&["check", "--quiet", "cut.ac3", "good.ac3"], 1, "", "");
    room.put("noise", &noise(5000));
    room.writes(&["check", "-q", "cut.ac3", "noise"], 4, "", "");
    let missing = "zela: missing: No such file or directory\n";
    room.writes(&["check", "-q", "missing", "cut.ac3"], 3, "", missing);
}

#[test]
fn a_pipe_with_a_name_is_read_as_a_file() {
    let room = Room::of("a_pipe_with_a_name");
    let pipe = room.pipe("pipe");
    let writer = thread::spawn(move || fs::write(pipe, &ac3()[..700]));
    let table = "\
state  codec   layout      kHz  kbit/s   frames        length  file
pipe:
    byte 512, frame 2, 00:00:00.064: refusal 1, the frame breaks off after 188 of 256 bytes, 68 short
bad    AC-3    1/0          48      64        2  00:00:00.064  pipe
    1 bad place: 188 bytes in no frame at 1 place
    where: [...........................................xxxxxxxxxxxxxxxxx]
";
    room.writes(&["check", "pipe"], 1, table, "");
    writer.join().unwrap().unwrap();
}

/// Runs that write to standard output.
const WRITING: [&[&str]; 9] = [
    &["check", "a.ac3"],
    &["check", "--format", "json", "a.ac3"],
    &["check", "--format", "jsonl", "a.ac3"],
    &["bits", "a.ac3", "0", "16"],
    &["fix", "a.ac3", "-"],
    &["reseal", "a.ac3", "-"],
    &["--help"],
    &["help", "check"],
    &["--version"],
];

#[test]
fn a_reader_that_is_gone_is_no_panic() {
    let room = Room::of("a_reader_that_is_gone");
    room.put("a.ac3", &ac3());
    for words in WRITING {
        room.run_into(gone(), words).is(3, "", "");
    }
    room.run_into(gone(), &["check", "-q", "a.ac3"])
        .is(0, "", "");
}

#[test]
fn a_full_disk_is_told() {
    let room = Room::of("a_full_disk");
    room.put("a.ac3", &ac3());
    let full = fs::OpenOptions::new().write(true).open("/dev/full");
    let Ok(full) = full else { return };
    let err = "zela: standard output: No space left on device\n";
    room.run_into(full, &["check", "a.ac3"]).is(3, "", err);
}

#[test]
fn a_standard_output_that_is_open_for_reading_alone_is_told() {
    let room = Room::of("open_for_reading_alone");
    room.put("a.ac3", &ac3());
    room.put("other", b"old");
    let err = "zela: standard output: Bad file descriptor\n";
    for words in WRITING {
        let other = File::open(room.path("other")).unwrap();
        room.run_into(other, words).is(3, "", err);
    }
    let other = File::open(room.path("other")).unwrap();
    room.run_into(other, &["check", "-q", "a.ac3"])
        .is(0, "", "");
}

#[test]
fn a_standard_input_that_is_open_for_writing_alone_is_told() {
    let room = Room::of("open_for_writing_alone");
    room.put("out", b"old");
    let err = "zela: standard input: Bad file descriptor\n";
    let runs: [&[&str]; 4] = [
        &["check", "-q", "-"],
        &["bits", "-", "0", "16"],
        &["fix", "-", "out"],
        &["reseal", "-", "out"],
    ];
    for words in runs {
        let input = File::create(room.path("in")).unwrap();
        room.run_from(input, words).is(3, "", err);
    }
    let table = "\
state  codec   layout      kHz  kbit/s   frames        length  file
error  -       -             -       -        -             -  -
    error: Bad file descriptor
";
    let input = File::create(room.path("in")).unwrap();
    room.run_from(input, &["check", "-"]).is(3, table, err);
    assert_eq!(room.get("out"), b"old");
    assert_eq!(room.list(), ["in", "out"]);
}

#[test]
fn a_standard_stream_that_is_closed_is_the_null_device() {
    let room = Room::of("closed");
    room.put("a.ac3", &ac3());
    let written = room.script("exec \"$0\" check a.ac3 >&-", &[]);
    written.is(0, "", "");
    let table = "\
state  codec   layout      kHz  kbit/s   frames        length  file
wrong  -       -             -       -        -             -  -
    no AC-3 here: the file is empty
";
    let read = room.script("exec \"$0\" check - <&-", &[]);
    read.is(4, table, "");
}
