//! Many files: folders, several files at once, and what is told while a run goes on.

use crate::json::Json;
use crate::room::{ac3, eac3, gone, noise, wrong, Room};
use std::fs;
use std::io::{BufRead, BufReader, Read, Write};
use std::os::unix::fs::symlink;
use std::process::Stdio;

const TITLES: &str = "state  codec   layout      kHz  kbit/s   frames        length  file\n";

/// The row of a good file of 13 frames.
fn good(name: &str) -> String {
    format!("good   AC-3    1/0          48      64       13  00:00:00.416  {name}\n")
}

#[test]
fn folders_are_entered_where_that_is_asked_for() {
    let room = Room::of("folders");
    fs::create_dir_all(room.path("films/b/c")).unwrap();
    for file in [
        "films/z.ac3",
        "films/b/c/a.EC3",
        "films/b/a.eac3",
        "films/a.ac3",
    ] {
        room.put(file, &ac3());
    }
    room.put("films/list.txt", b"text");
    room.put("films/b/none", b"text");
    symlink("..", room.path("films/b/ring")).unwrap();
    symlink("..", room.path("films/b/ring.ac3")).unwrap();
    room.pipe("films/b/pipe.ac3");
    let rows = [
        "films/a.ac3",
        "films/b/a.eac3",
        "films/b/c/a.EC3",
        "films/z.ac3",
    ]
    .map(good);
    let total = "\n4 files: 4 good, 0 bad; 5 other files passed over\n";
    let table = [TITLES, &rows.concat(), total].concat();
    room.writes(&["check", "-r", "films"], 0, &table, "");
    // A name that is given is checked, whatever it ends in.
    let table = format!(
        "{TITLES}{}wrong  -       -             -       -        -             -  films/list.txt
    no AC-3 here: there is no whole frame

2 files: 1 good, 0 bad, 1 without AC-3
",
        good("films/z.ac3")
    );
    let words = ["check", "-r", "films/z.ac3", "films/list.txt"];
    room.writes(&words, 4, &table, "");
}

#[test]
fn a_folder_without_a_file_is_told() {
    let room = Room::of("without_a_file");
    fs::create_dir(room.path("films")).unwrap();
    room.put("films/list.txt", b"text");
    let table = format!(
        "{TITLES}wrong  -       -             -       -        -             -  films
    no AC-3 here: no file in this folder ends in .ac3, .eac3, .ec3

0 files: 0 good, 0 bad; 1 other file passed over
"
    );
    let err = "zela: films: no file in this folder ends in .ac3, .eac3, .ec3\n";
    room.writes(&["check", "-r", "films"], 4, &table, err);
}

#[test]
fn several_files_at_once_are_told_in_order() {
    let room = Room::of("in_order");
    let mut words = vec!["check".to_string()];
    for number in 0..300usize {
        let name = format!("{number}.ac3");
        // The first ones take the longest.
        let bytes = match number % 7 {
            3 => wrong(ac3(), 300, 1),
            _ => ac3().repeat(1 + 300 / (number + 1)),
        };
        room.put(&name, &bytes);
        words.push(name);
    }
    let words: Vec<&str> = words.iter().map(String::as_str).collect();
    let alone = room.run(&[&words[..], &["-j", "1"]].concat());
    assert_eq!(alone.status, 1);
    let end = "\n300 files: 257 good, 43 bad\n";
    assert!(alone.out.ends_with(end), "{}", alone.out);
    for jobs in ["2", "3", "64", "10000"] {
        let ran = room.run(&[&words[..], &["-j", jobs]].concat());
        assert_eq!(ran, alone, "{jobs}");
        let lines = room.run(&[&words[..], &["-j", jobs, "--all", "--format", "jsonl"]].concat());
        assert_eq!(lines.out.lines().count(), 300 + 43);
    }
}

#[test]
fn a_row_is_written_when_its_file_is_done() {
    let room = Room::of("when_it_is_done");
    room.put("first.ac3", &ac3());
    let mut command = room.command(&["check", "first.ac3", "-"]);
    command.stdin(Stdio::piped()).stdout(Stdio::piped());
    let mut child = command.spawn().unwrap();
    let mut lines = BufReader::new(child.stdout.take().unwrap()).lines();
    let mut next = || lines.next().unwrap().unwrap() + "\n";
    assert_eq!(next(), TITLES);
    assert_eq!(next(), good("first.ac3"));
    // The second file is still being written, and its places are told as they are found.
    let mut input = child.stdin.take().unwrap();
    let damaged = wrong(ac3(), 300, 1);
    input.write_all(&damaged).unwrap();
    input.write_all(&ac3().repeat(10)).unwrap();
    assert_eq!(next(), "standard input:\n");
    assert_eq!(
        next(),
        "    byte 256, frame 1, 00:00:00.032: crc1 and crc2 are bad\n"
    );
    // A run that ends here has told what it has seen.
    assert_eq!(child.try_wait().unwrap(), None);
    drop(input);
    assert_eq!(lines.map_while(Result::ok).count(), 5);
    assert_eq!(child.wait().unwrap().code(), Some(1));
}

#[test]
fn an_interrupted_batch_has_told_what_it_has_seen() {
    let room = Room::of("interrupted");
    room.put("first.ac3", &ac3());
    for (format, told) in [("jsonl", 1), ("csv", 2)] {
        let mut command = room.command(&["check", "--format", format, "first.ac3", "-"]);
        command.stdin(Stdio::piped()).stdout(Stdio::piped());
        let mut child = command.spawn().unwrap();
        let mut out = BufReader::new(child.stdout.take().unwrap());
        let mut lines = String::new();
        for _ in 0..told {
            out.read_line(&mut lines).unwrap();
        }
        child.kill().unwrap();
        child.wait().unwrap();
        out.read_to_string(&mut lines).unwrap();
        assert_eq!(lines.lines().count(), told, "{lines}");
        assert!(lines.contains("first.ac3"), "{lines}");
    }
}

#[test]
fn a_batch_whose_reader_is_gone_ends() {
    let room = Room::of("a_batch_ends");
    for number in 0..100 {
        room.put(&format!("{number}.ac3"), &wrong(ac3(), 300, 1).repeat(50));
    }
    for words in [&["check", "-r", "."][..], &["check", "-ra", "."]] {
        room.run_into(gone(), words).is(3, "", "");
    }
}

#[test]
fn a_batch_whose_output_fails_waits_for_no_input() {
    let room = Room::of("waits_for_no_input");
    room.put("a.ac3", &ac3());
    room.pipe("pipe");
    // Nobody ever writes to the pipe.
    for jobs in ["-j1", "-j2"] {
        let words = ["check", jobs, "a.ac3", "pipe"];
        room.run_into(gone(), &words).is(3, "", "");
    }
}

#[test]
fn a_link_that_leads_nowhere_is_told() {
    let room = Room::of("leads_nowhere");
    fs::create_dir(room.path("films")).unwrap();
    room.put("films/a.ac3", &ac3());
    symlink("gone.ac3", room.path("films/b.ac3")).unwrap();
    symlink("gone.txt", room.path("films/c.txt")).unwrap();
    let table = format!(
        "{TITLES}{}error  -       -             -       -        -             -  films/b.ac3
    error: No such file or directory

2 files: 1 good, 0 bad, 1 not read; 1 other file passed over
",
        good("films/a.ac3")
    );
    let err = "zela: films/b.ac3: No such file or directory\n";
    room.writes(&["check", "-r", "films"], 3, &table, err);
}

#[test]
fn each_state_is_in_the_records() {
    let room = Room::of("each_state");
    room.put("good", &ac3());
    room.put("bad", &ac3()[..1000]);
    room.put("wrong", &noise(5000));
    fs::create_dir(room.path("folder")).unwrap();
    let words = [
        "check", "--format", "jsonl", "-r", "good", "bad", "wrong", "error", "folder",
    ];
    let ran = room.run(&words);
    let records: Vec<Json> = ran.out.lines().map(Json::of).collect();
    for (record, state) in records
        .iter()
        .zip(["good", "bad", "wrong", "error", "wrong"])
    {
        assert_eq!(record.at("state"), &Json::Text(state.to_string()));
    }
    let kind = "no file in this folder ends in .ac3, .eac3, .ec3";
    assert_eq!(records[4].at("kind"), &Json::Text(kind.to_string()));
    assert_eq!(records[4].at("error"), &Json::Null);
}

#[test]
fn the_first_ten_places_are_told_and_all_where_asked_for() {
    let room = Room::of("ten");
    let bytes = [
        eac3().repeat(3),
        wrong(eac3()[..256].to_vec(), 99, 1).repeat(45),
    ]
    .concat();
    room.put("x", &bytes);
    let place = |at: usize| {
        let (offset, time) = (at * 256, at * 32);
        let offset = format!("{},{:03}", offset / 1000, offset % 1000);
        let (seconds, rest) = (time / 1000, time % 1000);
        format!("    byte {offset}, frame {at}, 00:00:{seconds:02}.{rest:03}: crc2 is bad\n")
    };
    let places = |count: usize| (39..39 + count).map(place).collect::<String>();
    let row =
        |name| format!("bad    E-AC-3  1/0          48      64       84  00:00:02.688  {name}\n");
    let tally = "    45 bad places: bad checksums in 45 frames\n";
    let more = "    and 35 more, which --all shows\n";
    let place = "    where: [...........................xxxxxxxxxxxxxxxxxxxxxxxxxxxxxxxxx]\n";
    let table = [TITLES, &row("x"), tally, &places(10), more, place].concat();
    room.writes(&["check", "x"], 1, &table, "");
    let enough = "    further places are counted, and told with --all alone\n";
    let table = [
        TITLES,
        "standard input:\n",
        &places(10),
        enough,
        &row("-"),
        tally,
        more,
        place,
    ]
    .concat();
    room.run_on(&bytes, &["check", "-"]).is(1, &table, "");
    let table = [TITLES, "x:\n", &places(45), &row("x"), tally, place].concat();
    room.writes(&["check", "--all", "x"], 1, &table, "");
}

#[test]
fn a_change_of_format_is_told() {
    let room = Room::of("a_change_of_format");
    room.put(
        "x",
        &[ac3(), crate::room::sample("a_st_44_192k.ac3"), ac3()].concat(),
    );
    let table = format!(
        "{TITLES}bad    AC-3    varies   varies  varies       41  00:00:01.354  x
    2 bad places: 2 changes of format
    byte 3,328, frame 13, 00:00:00.416: the format changes from AC-3 1/0 48 kHz to AC-3 2/0 44.1 kHz
    byte 15,866, frame 28, 00:00:00.938: the format changes from AC-3 2/0 44.1 kHz to AC-3 1/0 48 kHz
    where: [..........x......................................x..........]
"
    );
    room.writes(&["check", "x"], 1, &table, "");
    let allowed = table
        .replace("bad    AC-3", "good   AC-3")
        .replace("2 bad places", "2 places");
    room.writes(&["check", "--allow-changes", "x"], 0, &allowed, "");
    // Damage is bad beside a change that is allowed.
    room.put("y", &[ac3(), eac3(), wrong(eac3(), 300, 1)].concat());
    let ran = room.run(&["check", "--allow-changes", "y"]);
    assert_eq!(ran.status, 1);
    let tally = "    2 places, 1 of them bad: bad checksums in 1 frame, 1 change of format\n";
    assert!(ran.out.contains(tally), "{}", ran.out);
}

#[test]
fn a_bit_rate_that_varies_is_told() {
    let room = Room::of("varies");
    let stream = [eac3(), crate::room::sample("e_mono_48.eac3")].concat();
    let mut long = eac3()[..256].to_vec();
    long.splice(200..200, [0; 64]);
    long[3] = 159;
    room.put("x", &[stream, crate::room::sealed(long)].concat());
    let table =
        format!("{TITLES}good   E-AC-3  1/0          48  varies       27  00:00:00.864  x\n");
    room.writes(&["check", "x"], 0, &table, "");
    let record = Json::of(&room.run(&["check", "--format", "jsonl", "x"]).out);
    assert_eq!(record.at("bit_rate_varies"), &Json::Flag(true));
    assert_eq!(record.at("bit_rate"), &Json::Number(64593.0));
}

#[test]
fn files_that_are_nothing_are_told_each_by_itself() {
    let room = Room::of("nothing");
    room.put("0", &[]);
    room.put("1", &[0x0B]);
    room.put("2", &noise(7000));
    let none = "wrong  -       -             -       -        -             -  ";
    let table = format!(
        "{TITLES}{none}0
    no AC-3 here: the file is empty
{none}1
    no AC-3 here: there is no whole frame
{none}2
    no AC-3 here: there is no whole frame

3 files: 0 good, 0 bad, 3 without AC-3
"
    );
    room.writes(&["check", "0", "1", "2"], 4, &table, "");
}
