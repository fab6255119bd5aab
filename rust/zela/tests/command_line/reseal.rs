//! `zela reseal`: what is written, and what stays as it was.

use crate::room::{ac3, eac3, gone, noise, wrong, Ran, Room};
use std::fs::{self, File, OpenOptions};
use std::io::{Read, Write};
use std::os::unix::fs::{symlink, FileTypeExt, MetadataExt, PermissionsExt};
use std::process::Stdio;
use std::thread;
use std::time::SystemTime;

/// Reseals `in` to `out`, and gives what `out` holds.
#[track_caller]
fn reseals(room: &Room, status: i32, report: &str) -> Vec<u8> {
    room.writes(&["reseal", "in", "out"], status, report, "");
    assert_eq!(room.list(), ["in", "out"]);
    let check = room.run(&["check", "-q", "--allow-changes", "out"]);
    assert_eq!(check.status, 0, "what was written is not good");
    room.get("out")
}

#[test]
fn frames_with_bad_checksums_get_new_ones() {
    let room = Room::of("wrong_checksums");
    // crc1 of the second frame, crc2 of the third.
    room.put("in", &wrong(wrong(ac3(), 258, 0xFF), 766, 0xFF));
    let report = "\
out: written, 13 frames
2 frames had bad checksums, and have new ones now:
    byte 256, frame 1, 00:00:00.032: crc1 and crc2 are bad
    byte 512, frame 2, 00:00:00.064: crc2 is bad
If that was damage, and no edit of yours, nothing in out shows it any more.
";
    assert_eq!(reseals(&room, 0, report), ac3());
}

/// E-AC-3 with another dialnorm in its first frame.
fn edited() -> Vec<u8> {
    wrong(eac3(), 6, 0x10)
}

#[test]
fn an_edit_stays() {
    let room = Room::of("an_edit");
    room.put("in", &edited());
    let report = "\
out: written, 13 frames
1 frame had bad checksums, and has new ones now:
    byte 0, frame 0, 00:00:00.000: crc2 is bad
If that was damage, and no edit of yours, nothing in out shows it any more.
";
    let out = reseals(&room, 0, report);
    assert_eq!(out[..254], edited()[..254]);
    assert_ne!(out[254..256], edited()[254..256]);
    assert_eq!(out[256..], edited()[256..]);
}

#[test]
fn a_good_file_is_copied() {
    let room = Room::of("a_good_file");
    let bytes = [ac3(), eac3()].concat();
    room.put("in", &bytes);
    let report = "\
out: written, 26 frames
No frame was given new checksums.
";
    assert_eq!(reseals(&room, 0, report), bytes);
}

#[test]
fn what_is_no_whole_frame_is_left_out() {
    let room = Room::of("left_out");
    let parts = [&noise(100), &ac3()[..612], &eac3()[..900]];
    room.put("in", &parts.concat());
    let report = "\
out: written, 5 frames
No frame was given new checksums.
Left out, since no frame there can be resealed: 332 bytes at 3 places:
    byte 0, frame 0, 00:00:00.000: 100 bytes in no frame: refusal 2, the first 16 bits aren't 0x0B77
    byte 612, frame 2, 00:00:00.064: refusal 1, the frame breaks off after 100 of 256 bytes, 156 short
    byte 1,480, frame 5, 00:00:00.160: refusal 1, the frame breaks off after 132 of 256 bytes, 124 short
For damage there is 'zela fix'.
";
    let whole = [&ac3()[..512], &eac3()[..768]].concat();
    assert_eq!(reseals(&room, 1, report), whole);
}

/// An edit, and a frame that is cut off.
fn both() -> Vec<u8> {
    edited()[..1000].to_vec()
}

#[test]
fn edits_and_damage_are_told_apart() {
    let room = Room::of("told_apart");
    room.put("in", &both());
    let report = "\
out: written, 3 frames
1 frame had bad checksums, and has new ones now:
    byte 0, frame 0, 00:00:00.000: crc2 is bad
If that was damage, and no edit of yours, nothing in out shows it any more.
Left out, since no frame there can be resealed: 232 bytes at 1 place:
    byte 768, frame 3, 00:00:00.096: refusal 1, the frame breaks off after 232 of 256 bytes, 24 short
For damage there is 'zela fix'.
";
    assert_eq!(reseals(&room, 1, report).len(), 768);
}

#[test]
fn a_frame_whose_checksum_is_its_header_is_left_out() {
    let room = Room::of("its_header");
    // frmsiz 1 and 2: E-AC-3 frames of 4 and 6 bytes.
    let four = [0x0B, 0x77, 0, 1];
    let six = [0x0B, 0x77, 0, 2, 0, 0x80];
    room.put(
        "in",
        &[&four, &eac3()[..256], &six, &eac3()[256..]].concat(),
    );
    let report = "\
out: written, 13 frames
No frame was given new checksums.
Left out, since no frame there can be resealed: 10 bytes at 2 places:
    byte 0, frame 0, 00:00:00.000: crc2 is bad
    byte 260, frame 2, 00:00:00.032: crc2 is bad
For damage there is 'zela fix'.
";
    assert_eq!(reseals(&room, 1, report), eac3());
}

/// 13 frames whose checksums are all bad.
fn all_edited() -> Vec<u8> {
    (0..13).fold(eac3(), |bytes, frame| wrong(bytes, 256 * frame + 6, 0x10))
}

/// The report of `all_edited`, with so many of its places.
fn thirteen(places: usize) -> String {
    let line = |frame: usize| {
        let (byte, time) = (256 * frame, 32 * frame);
        let byte = match byte {
            0..1000 => byte.to_string(),
            _ => format!("{},{:03}", byte / 1000, byte % 1000),
        };
        format!("    byte {byte}, frame {frame}, 00:00:00.{time:03}: crc2 is bad\n")
    };
    let told: String = (0..places).map(line).collect();
    let more = match 13 - places {
        0 => String::new(),
        more => format!("    and {more} more, which --all shows\n"),
    };
    format!(
        "\
out: written, 13 frames
13 frames had bad checksums, and have new ones now:
{told}{more}If that was damage, and no edit of yours, nothing in out shows it any more.
"
    )
}

#[test]
fn ten_places_are_told_unless_all_are_asked_for() {
    let room = Room::of("reseal_ten_places");
    room.put("in", &all_edited());
    reseals(&room, 0, &thirteen(10));
    let all = thirteen(13).replace("written", "replaced");
    room.writes(&["reseal", "--all", "in", "out"], 0, &all, "");
    room.writes(&["reseal", "-a", "in", "out"], 0, &all, "");
}

#[test]
fn without_a_whole_frame_nothing_is_written() {
    let room = Room::of("without_a_whole_frame");
    room.put("in", &ac3()[..200]);
    room.put("out", b"old");
    let report = "\
out: not written, since no good frame is there
No frame was given new checksums.
Would be lost, since no frame there can be resealed: 200 bytes at 1 place:
    byte 0, frame 0, 00:00:00.000: refusal 1, the frame breaks off after 200 of 256 bytes, 56 short
For damage there is 'zela fix'.
";
    room.writes(&["reseal", "in", "out"], 4, report, "");
    assert_eq!(room.get("out"), b"old");
    assert_eq!(room.list(), ["in", "out"]);
}

#[test]
fn without_ac3_nothing_is_written() {
    let room = Room::of("without_ac3");
    let none = "there is no whole frame";
    let cases = [
        (vec![], "the file is empty"),
        (vec![0x0B], none),
        (noise(5000), none),
    ];
    for (bytes, why) in cases {
        let err = &format!("zela: in: no AC-3 here: {why}; nothing is written\n");
        room.put("in", &bytes);
        room.put("out", b"old");
        room.writes(&["reseal", "in", "out"], 4, "", err);
        assert_eq!(room.get("out"), b"old");
        room.writes(&["reseal", "-i", "in"], 4, "", err);
        assert_eq!(room.get("in"), bytes);
        assert_eq!(room.list(), ["in", "out"]);
    }
}

#[test]
fn a_file_of_another_kind_is_named() {
    let room = Room::of("reseal_another_kind");
    let mp4 = concat!(env!("CARGO_MANIFEST_DIR"), "/tests/kinds/mp4");
    fs::copy(mp4, room.path("in")).unwrap();
    let old = room.get("in");
    let err = "\
zela: in: no AC-3 here: this is an MP4 or QuickTime file; nothing is written
to get at any AC-3 in it: ffmpeg -i in -map 0:a:0 -c copy -f data OUT.ac3
";
    room.writes(&["reseal", "in", "out"], 4, "", err);
    room.writes(&["reseal", "--in-place", "in"], 4, "", err);
    assert_eq!(room.get("in"), old);
    assert_eq!(room.list(), ["in"]);
}

#[test]
fn a_trial_writes_nothing() {
    let room = Room::of("reseal_a_trial");
    room.put("in", &edited());
    room.put("out", b"old");
    let report = |out| {
        format!(
            "\
{out}: would be written, 13 frames
1 frame had bad checksums, and would get new ones:
    byte 0, frame 0, 00:00:00.000: crc2 is bad
If that was damage, and no edit of yours, nothing in {out} would show it any more.
"
        )
    };
    room.writes(&["reseal", "-n", "in", "out"], 0, &report("out"), "");
    room.writes(&["reseal", "-n", "-i", "in"], 0, &report("in"), "");
    assert_eq!(room.get("in"), edited());
    assert_eq!(room.get("out"), b"old");
    assert_eq!(room.list(), ["in", "out"]);
}

#[test]
fn a_trial_tells_what_would_be_left_out() {
    let room = Room::of("reseal_a_trial_left_out");
    room.put("in", &ac3()[..1000]);
    let report = "\
out: would be written, 3 frames
No frame was given new checksums.
Would be left out, since no frame there can be resealed: 232 bytes at 1 place:
    byte 768, frame 3, 00:00:00.096: refusal 1, the frame breaks off after 232 of 256 bytes, 24 short
For damage there is 'zela fix'.
";
    room.writes(&["reseal", "--dry-run", "in", "out"], 1, report, "");
    let report = "\
in: left as it is
No frame was given new checksums.
Would be lost, since no frame there can be resealed: 232 bytes at 1 place:
    byte 768, frame 3, 00:00:00.096: refusal 1, the frame breaks off after 232 of 256 bytes, 24 short
For damage there is 'zela fix'.
";
    room.writes(&["reseal", "-ni", "in"], 1, report, "");
    assert_eq!(room.list(), ["in"]);
}

#[test]
fn records() {
    let room = Room::of("reseal_records");
    room.put("in", &both());
    let record = "{\"file\": \"in\", \"out\": \"out\", \"written\": true, \"frames\": 3, \
        \"resealed\": 1, \"left_out_bytes\": 232, \"bad_offset\": 768, \"bad_seconds\": 0.096000, \
        \"bad_refusal\": 1, \
        \"bad_words\": \"the frame breaks off after 232 of 256 bytes, 24 short\", \
        \"left_out_places\": 1, \
        \"resealed_at\": [{\"byte\": 0, \"frame\": 0, \"seconds\": 0.000000, \"bytes\": 256, \
        \"what\": \"checksum\", \"refusal\": null, \"words\": \"crc2 is bad\"}], \
        \"left_out_at\": [{\"byte\": 768, \"frame\": 3, \"seconds\": 0.096000, \"bytes\": 232, \
        \"what\": \"cut\", \"refusal\": 1, \
        \"words\": \"the frame breaks off after 232 of 256 bytes, 24 short\"}]}";
    let run = |format| room.run(&["reseal", "--format", format, "in", "out"]);
    run("json").is(1, &format!("[\n  {record}\n]\n"), "");
    run("jsonl").is(1, &format!("{record}\n"), "");
    let lines = "\
file,out,written,frames,resealed,left_out_bytes,bad_offset,bad_seconds,bad_refusal,bad_words,left_out_places
in,out,true,3,1,232,768,0.096000,1,\"the frame breaks off after 232 of 256 bytes, 24 short\",1
";
    run("csv").is(1, lines, "");
}

#[test]
fn in_place_only_when_asked() {
    let room = Room::of("in_place");
    room.put("a.ac3", &wrong(ac3(), 700, 1));
    let err = "zela: ./a.ac3: IN and OUT are the same file; use --in-place\n";
    room.writes(&["reseal", "a.ac3", "./a.ac3"], 2, "", err);
    assert_eq!(room.get("a.ac3"), wrong(ac3(), 700, 1));
    let report = "\
a.ac3: replaced, 13 frames
1 frame had bad checksums, and has new ones now:
    byte 512, frame 2, 00:00:00.064: crc2 is bad
If that was damage, and no edit of yours, nothing in a.ac3 shows it any more.
";
    room.writes(&["reseal", "--in-place", "a.ac3"], 0, report, "");
    assert_eq!(room.get("a.ac3")[700], ac3()[700] ^ 1);
    room.writes(&["check", "-q", "a.ac3"], 0, "", "");
    assert_eq!(room.list(), ["a.ac3"]);
}

/// Standard input is `a.ac3`, and so is standard output where frames go there: nothing may come of it.
#[track_caller]
fn is_refused(room: &Room, from: &str, to: &str, said: &str) {
    let old = room.get("a.ac3");
    let mut command = room.command(&["reseal", from, to]);
    command.stdin(File::open(room.path("a.ac3")).unwrap());
    let appended = OpenOptions::new().append(true).open(room.path("a.ac3"));
    if to == "-" {
        command.stdout(appended.unwrap());
    }
    let err = format!("zela: {said}: IN and OUT are the same file; use --in-place\n");
    Ran::of(command.output().unwrap()).is(2, "", &err);
    assert_eq!(room.get("a.ac3"), old);
}

#[test]
fn standard_streams_are_not_in_place_either() {
    let room = Room::of("streams_in_place");
    room.put("a.ac3", &ac3()[..1000]);
    fs::hard_link(room.path("a.ac3"), room.path("hard")).unwrap();
    symlink("a.ac3", room.path("soft")).unwrap();
    for file in ["a.ac3", "hard", "soft"] {
        is_refused(&room, "-", file, file);
        is_refused(&room, file, "-", "standard output");
    }
    is_refused(&room, "hard", "soft", "soft");
    is_refused(&room, "/dev/stdin", "a.ac3", "a.ac3");
    is_refused(&room, "-", "-", "standard output");
    assert_eq!(room.list(), ["a.ac3", "hard", "soft"]);
}

#[test]
fn streams_of_one_device_are_no_file() {
    let room = Room::of("one_device");
    let ran = room.run_into(Stdio::null(), &["reseal", "-q", "-", "-"]);
    let err = "zela: standard input: no AC-3 here: the file is empty; nothing is written\n";
    ran.is(4, "", err);
}

#[test]
fn in_place_a_good_file_is_not_touched() {
    let room = Room::of("not_touched");
    room.put("a.ac3", &ac3());
    let before = fs::metadata(room.path("a.ac3")).unwrap();
    let report = "\
a.ac3: left as it is
No frame was given new checksums.
";
    room.writes(&["reseal", "-i", "a.ac3"], 0, report, "");
    let after = fs::metadata(room.path("a.ac3")).unwrap();
    assert_eq!(before.ino(), after.ino());
    assert_eq!(before.modified().unwrap(), after.modified().unwrap());
    assert_eq!(room.list(), ["a.ac3"]);
}

/// Reseals `folder/a.ac3` itself, where the folder is closed to all but the system's administrator. What it
/// holds must not change for a moment, which the folder's time would tell.
#[track_caller]
fn touches_no_folder(room: &Room, status: i32, report: &str) {
    let folder = File::open(room.path("folder")).unwrap();
    let mode = |mode| folder.set_permissions(fs::Permissions::from_mode(mode));
    folder.set_modified(SystemTime::UNIX_EPOCH).unwrap();
    mode(0o555).unwrap();
    let ran = room.run(&["reseal", "-i", "folder/a.ac3"]);
    mode(0o755).unwrap();
    ran.is(status, report, "");
    let known = folder.metadata().unwrap();
    assert_eq!(known.modified().unwrap(), SystemTime::UNIX_EPOCH);
}

#[test]
fn in_place_there_is_no_draft_where_none_is_needed() {
    let room = Room::of("no_draft");
    fs::create_dir(room.path("folder")).unwrap();
    room.put("folder/a.ac3", &ac3());
    let good = "\
folder/a.ac3: left as it is
No frame was given new checksums.
";
    touches_no_folder(&room, 0, good);
    room.put("folder/a.ac3", &wrong(ac3(), 300, 1)[..1000]);
    let cut = "\
folder/a.ac3: left as it is
1 frame had bad checksums, and has them still:
    byte 256, frame 1, 00:00:00.032: crc1 and crc2 are bad
Would be lost, since no frame there can be resealed: 232 bytes at 1 place:
    byte 768, frame 3, 00:00:00.096: refusal 1, the frame breaks off after 232 of 256 bytes, 24 short
For damage there is 'zela fix'.
";
    touches_no_folder(&room, 1, cut);
}

#[test]
fn in_place_a_read_only_file_is_replaced_and_a_hard_link_keeps_the_old_one() {
    let room = Room::of("read_only");
    let old = wrong(ac3(), 254, 1);
    room.put("a.ac3", &old);
    fs::hard_link(room.path("a.ac3"), room.path("hard")).unwrap();
    fs::set_permissions(room.path("a.ac3"), fs::Permissions::from_mode(0o444)).unwrap();
    room.writes(&["reseal", "-q", "-i", "a.ac3"], 0, "", "");
    assert_eq!(room.get("a.ac3"), ac3());
    assert_eq!(room.get("hard"), old);
    let mode = fs::metadata(room.path("a.ac3")).unwrap().permissions();
    assert_eq!(mode.mode() & 0o777, 0o444);
    assert_eq!(room.list(), ["a.ac3", "hard"]);
}

#[test]
fn in_place_nothing_is_lost() {
    let room = Room::of("nothing_is_lost");
    let damaged = wrong(ac3(), 300, 1)[..1000].to_vec();
    room.put("a.ac3", &damaged);
    let report = "\
a.ac3: left as it is
1 frame had bad checksums, and has them still:
    byte 256, frame 1, 00:00:00.032: crc1 and crc2 are bad
Would be lost, since no frame there can be resealed: 232 bytes at 1 place:
    byte 768, frame 3, 00:00:00.096: refusal 1, the frame breaks off after 232 of 256 bytes, 24 short
For damage there is 'zela fix'.
";
    room.writes(&["reseal", "-i", "a.ac3"], 1, report, "");
    assert_eq!(room.get("a.ac3"), damaged);
    assert_eq!(room.list(), ["a.ac3"]);
}

#[test]
fn in_place_there_must_be_a_file() {
    let room = Room::of("must_be_a_file");
    let missing = "zela: in: No such file or directory\n";
    room.writes(&["reseal", "-i", "in"], 3, "", missing);
    let folder = "zela: .: is not a plain file\n";
    room.writes(&["reseal", "-i", "."], 3, "", folder);
    room.pipe("pipe");
    let pipe = "zela: pipe: is not a plain file\n";
    room.writes(&["reseal", "-i", "pipe"], 3, "", pipe);
    assert_eq!(room.list(), ["pipe"]);
}

#[test]
fn a_failure_leaves_the_old_file() {
    let room = Room::of("a_failure");
    room.put("out", b"old");
    let missing = "zela: in: No such file or directory\n";
    room.writes(&["reseal", "in", "out"], 3, "", missing);
    assert_eq!(room.get("out"), b"old");
    fs::create_dir(room.path("in")).unwrap();
    let folder = "zela: in: Is a directory\n";
    room.writes(&["reseal", "in", "out"], 3, "", folder);
    assert_eq!(room.get("out"), b"old");
    assert_eq!(room.list(), ["in", "out"]);
}

#[test]
fn a_write_that_fails_leaves_the_old_file() {
    let room = Room::of("a_write_that_fails");
    room.put("in", &ac3().repeat(100));
    room.put("out", b"old");
    // No file may grow past some kilobytes.
    let script = "trap '' XFSZ; ulimit -f 8; exec \"$0\" reseal in out";
    let err = "zela: out: File too large\n";
    room.script(script, &[]).is(3, "", err);
    assert_eq!(room.get("out"), b"old");
    assert_eq!(room.list(), ["in", "out"]);
}

#[test]
fn a_run_that_is_killed_leaves_the_old_file_and_a_draft() {
    let room = Room::of("a_run_that_is_killed");
    room.put("out", b"old");
    let mut command = room.command(&["reseal", "-", "out"]);
    let mut child = command.stdin(Stdio::piped()).spawn().unwrap();
    let draft = format!(".zela-{}-0.tmp", child.id());
    // More than is looked at before a draft is begun. Once it is there, the run waits for the rest.
    let mut input = child.stdin.take().unwrap();
    input.write_all(&ac3().repeat(3)).unwrap();
    while !room.path(&draft).exists() {
        assert_eq!(child.try_wait().unwrap(), None);
    }
    child.kill().unwrap();
    assert_eq!(child.wait().unwrap().code(), None);
    assert_eq!(room.get("out"), b"old");
    assert_eq!(room.list(), [draft.as_str(), "out"]);
}

/// Reseals `in` to `out` by a run that finds its first drafts' names taken, so many of them.
fn run_beside_drafts(room: &Room, taken: u32) -> Ran {
    let script = "n=0; while [ $n -lt $1 ]; do echo left > .zela-$$-$n.tmp; n=$((n+1)); done
        exec \"$0\" reseal in out";
    room.script(script, &[&taken.to_string()])
}

#[test]
fn a_draft_that_was_left_is_in_nobodys_way() {
    let room = Room::of("a_draft_that_was_left");
    room.put("in", &ac3());
    run_beside_drafts(&room, 2).is(0, &copied("out"), "");
    assert_eq!(room.get("out"), ac3());
    let left = room.list();
    assert_eq!(left.len(), 4);
    assert_eq!(room.get(&left[0]), b"left\n");
    assert_eq!(room.get(&left[1]), b"left\n");
}

#[test]
fn a_name_for_a_draft_is_not_sought_for_ever() {
    let room = Room::of("not_sought_for_ever");
    room.put("in", &ac3());
    let err = "zela: out: the names of drafts beside it are all taken\n";
    run_beside_drafts(&room, 100).is(3, "", err);
    assert_eq!(room.list().len(), 101);
}

#[test]
fn an_output_that_cannot_be() {
    let room = Room::of("cannot_be");
    room.put("in", &ac3());
    let none = "zela: none/out: No such file or directory\n";
    room.writes(&["reseal", "in", "none/out"], 3, "", none);
    fs::create_dir(room.path("folder")).unwrap();
    let folder = "zela: folder: Is a directory\n";
    room.writes(&["reseal", "in", "folder"], 3, "", folder);
    if fs::exists("/dev/full").unwrap() {
        let full = "zela: /dev/full: No space left on device\n";
        room.writes(&["reseal", "in", "/dev/full"], 3, "", full);
    }
    assert_eq!(room.list(), ["folder", "in"]);
}

#[test]
fn standard_input_and_output() {
    let room = Room::of("standard");
    let input = wrong(eac3(), 254, 1);
    let mut command = room.command(&["reseal", "-", "-"]);
    command.stdin(Stdio::piped()).stdout(Stdio::piped());
    let mut child = command.stderr(Stdio::piped()).spawn().unwrap();
    child.stdin.take().unwrap().write_all(&input).unwrap();
    let ran = child.wait_with_output().unwrap();
    assert_eq!(ran.stdout, eac3());
    let report = "\
standard output: written, 13 frames
1 frame had bad checksums, and has new ones now:
    byte 0, frame 0, 00:00:00.000: crc2 is bad
If that was damage, and no edit of yours, nothing in standard output shows it any more.
";
    assert_eq!(String::from_utf8(ran.stderr).unwrap(), report);
    assert_eq!(ran.status.code(), Some(0));
}

/// The report of 13 good frames that go to `out`.
fn copied(out: &str) -> String {
    let out = if out == "-" { "standard output" } else { out };
    format!("{out}: written, 13 frames\nNo frame was given new checksums.\n")
}

#[test]
fn a_report_is_never_in_a_stream() {
    let room = Room::of("never_in_a_stream");
    room.put("in", &ac3());
    let ran = room.command(&["reseal", "in", "/dev/stdout"]).output();
    let ran = ran.unwrap();
    assert_eq!(ran.stdout, ac3());
    assert_eq!(String::from_utf8(ran.stderr), Ok(copied("/dev/stdout")));
    let null = copied("/dev/null");
    room.writes(&["reseal", "in", "/dev/null"], 0, "", &null);
    let pipe = room.pipe("pipe");
    let reader = thread::spawn(|| fs::read(pipe).unwrap());
    room.writes(&["reseal", "in", "pipe"], 0, "", &copied("pipe"));
    assert_eq!(reader.join().unwrap(), ac3());
    assert_eq!(room.list(), ["in", "pipe"]);
}

#[test]
fn a_reader_of_a_pipe_with_a_name_that_is_gone_is_told() {
    let room = Room::of("a_reader_of_a_pipe");
    // More than a pipe holds.
    room.put("in", &ac3().repeat(100));
    let pipe = room.pipe("pipe");
    let reader = thread::spawn(|| File::open(pipe).unwrap().read_exact(&mut [0; 10]));
    let err = "zela: pipe: Broken pipe\n";
    room.writes(&["reseal", "in", "pipe"], 3, "", err);
    reader.join().unwrap().unwrap();
    assert_eq!(room.list(), ["in", "pipe"]);
}

#[test]
fn a_pipe_with_a_name_is_resealed() {
    let room = Room::of("a_pipe_is_resealed");
    let pipe = room.pipe("in");
    let writer = thread::spawn(move || fs::write(pipe, wrong(eac3(), 254, 1)));
    let report = "\
out: written, 13 frames
1 frame had bad checksums, and has new ones now:
    byte 0, frame 0, 00:00:00.000: crc2 is bad
If that was damage, and no edit of yours, nothing in out shows it any more.
";
    room.writes(&["reseal", "in", "out"], 0, report, "");
    writer.join().unwrap().unwrap();
    assert_eq!(room.get("out"), eac3());
}

#[test]
fn a_report_that_fails_takes_no_file_back() {
    let room = Room::of("a_report_that_fails");
    room.put("in", &ac3());
    room.put("out", b"old");
    room.run_into(gone(), &["reseal", "in", "out"])
        .is(3, "", "");
    assert_eq!(room.get("out"), ac3());
    let full = OpenOptions::new().write(true).open("/dev/full");
    let Ok(full) = full else { return };
    room.put("in", &wrong(ac3(), 254, 1));
    let err = "zela: standard output: No space left on device\n";
    room.run_into(full, &["reseal", "-i", "in"]).is(3, "", err);
    assert_eq!(room.get("in"), ac3());
    assert_eq!(room.list(), ["in", "out"]);
}

#[test]
fn a_report_on_standard_error_that_fails_takes_no_frame_back() {
    let room = Room::of("a_report_on_standard_error");
    room.put("in", &ac3());
    let lost = |words: &[&str]| {
        let mut command = room.command(words);
        command.stderr(File::open(room.path("in")).unwrap());
        let ran = command.output().unwrap();
        assert_eq!(ran.stdout, ac3());
        ran.status.code()
    };
    assert_eq!(lost(&["reseal", "in", "-"]), Some(3));
    assert_eq!(lost(&["reseal", "-q", "in", "-"]), Some(0));
}

#[test]
fn the_file_of_standard_output_is_written_through_it() {
    let room = Room::of("file_of_standard_output");
    room.put("in", &ac3());
    for out in ["-", "/dev/stdout", "out"] {
        room.put("out", b"old");
        let appended = OpenOptions::new().append(true).open(room.path("out"));
        let ran = room.run_into(appended.unwrap(), &["reseal", "in", out]);
        ran.is(0, "", &copied(out));
        assert_eq!(room.get("out"), [b"old", &ac3()[..]].concat());
    }
    assert_eq!(room.list(), ["in", "out"]);
}

#[test]
fn a_link_and_the_mode_stay() {
    let room = Room::of("a_link");
    room.put("in", &ac3());
    room.put("real", b"old");
    fs::set_permissions(room.path("real"), fs::Permissions::from_mode(0o640)).unwrap();
    symlink("real", room.path("out")).unwrap();
    room.writes(&["reseal", "-q", "in", "out"], 0, "", "");
    assert_eq!(room.get("real"), ac3());
    let known = |file| fs::symlink_metadata(room.path(file)).unwrap();
    assert!(known("out").is_symlink());
    assert_eq!(known("real").permissions().mode() & 0o777, 0o640);
}

#[test]
fn a_new_file_runs_in_nobodys_name() {
    let room = Room::of("nobodys_name");
    let damaged = wrong(ac3(), 254, 1);
    room.put("in", &damaged);
    let runs: [&[&str]; 2] = [
        &["reseal", "-q", "in", "out"],
        &["reseal", "-q", "-i", "out"],
    ];
    for words in runs {
        room.put("out", &damaged);
        let mode = fs::Permissions::from_mode(0o7751);
        fs::set_permissions(room.path("out"), mode).unwrap();
        room.writes(words, 0, "", "");
        assert_eq!(room.get("out"), ac3());
        let known = fs::metadata(room.path("out")).unwrap();
        assert_eq!(known.permissions().mode() & 0o7777, 0o751);
    }
}

#[test]
fn a_link_that_leads_nowhere_yet_stays() {
    let room = Room::of("leads_nowhere_yet");
    room.put("in", &ac3());
    fs::create_dir_all(room.path("folder/inner")).unwrap();
    symlink("folder/next", room.path("out")).unwrap();
    symlink("inner/real", room.path("folder/next")).unwrap();
    room.writes(&["reseal", "in", "out"], 0, &copied("out"), "");
    assert_eq!(room.get("folder/inner/real"), ac3());
    symlink(room.path("far"), room.path("folder/out")).unwrap();
    let report = copied("folder/out");
    room.writes(&["reseal", "in", "folder/out"], 0, &report, "");
    assert_eq!(room.get("far"), ac3());
    for link in ["out", "folder/next", "folder/out"] {
        let known = fs::symlink_metadata(room.path(link)).unwrap();
        assert!(known.is_symlink(), "{link}");
    }
    assert_eq!(room.list(), ["far", "folder", "in", "out"]);
}

#[test]
fn a_link_that_leads_nowhere_at_all() {
    let room = Room::of("nowhere_at_all");
    room.put("in", &ac3());
    symlink("none/real", room.path("out")).unwrap();
    let none = "zela: out: No such file or directory\n";
    room.writes(&["reseal", "in", "out"], 3, "", none);
    symlink("ring", room.path("ring")).unwrap();
    let ring = "zela: ring: Too many levels of symbolic links\n";
    room.writes(&["reseal", "in", "ring"], 3, "", ring);
    assert_eq!(room.list(), ["in", "out", "ring"]);
}

#[test]
fn a_device_is_written_to_and_stays() {
    let room = Room::of("a_device");
    room.put("in", &ac3());
    room.writes(&["reseal", "-q", "in", "/dev/null"], 0, "", "");
    let null = fs::metadata("/dev/null").unwrap();
    assert!(null.file_type().is_char_device());
}
