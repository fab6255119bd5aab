//! Help, version and misuse.

use crate::json::Json;
use crate::room::{ac3, wrong, Ran, Room};
use std::ffi::OsStr;
use std::fs;
use std::os::unix::ffi::OsStrExt;

const MANUAL: &str = include_str!("../../zela.1");

/// The words are refused with these, and the command's help is named, if there is one.
#[track_caller]
fn misuses(words: &[&str], err: &str, command: &str) {
    let room = Room::of(&format!("misuse_{}", words.concat().replace('/', "_")));
    let help = ["help", command].join(" ");
    let err = format!("zela: {err}\nTry 'zela {}'.\n", help.trim_end());
    room.writes(words, 2, "", &err);
}

#[test]
fn an_unknown_word_gets_the_nearest_command() {
    misuses(
        &["chek", "a"],
        "no such command: chek; did you mean check?",
        "",
    );
    misuses(
        &["resael", "a"],
        "no such command: resael; did you mean reseal?",
        "",
    );
    misuses(
        &["help", "fxi"],
        "no such command: fxi; did you mean fix?",
        "",
    );
    misuses(&["a.ac3"], "no such command: a.ac3", "");
    let gone = "no such command: repair\n\
        For frames that you edited there is 'zela reseal', for damage 'zela fix'.";
    misuses(&["repair", "a", "b"], gone, "");
    misuses(&["help", "repair"], gone, "");
}

#[test]
fn a_file_in_place_of_a_command_gets_what_to_type() {
    let room = Room::of("a_file_for_a_command");
    room.put("my film.ac3", &ac3());
    let err = "\
zela: no such command: my film.ac3
To check that file: zela check 'my film.ac3'
Try 'zela help'.
";
    room.writes(&["my film.ac3"], 2, "", err);
}

#[test]
fn a_name_that_begins_with_a_dash_gets_what_to_type() {
    let room = Room::of("a_dash");
    room.put("-x.ac3", &ac3());
    let err = "\
zela: no such option: -x.ac3; to name that file: ./-x.ac3
Try 'zela help check'.
";
    room.writes(&["check", "-x.ac3"], 2, "", err);
}

#[test]
fn misuse_is_told_and_has_status_2() {
    misuses(&["-q"], "a command is missing", "");
    misuses(&["check"], "check takes one file or more", "check");
    misuses(
        &["check", "--al", "a"],
        "no such option: --al; did you mean --all?",
        "check",
    );
    misuses(&["check", "--colour"], "no such option: --colour", "check");
    misuses(&["check", "-x"], "no such option: -x", "check");
    misuses(&["check", "-qx"], "no such option: -qx", "check");
    misuses(
        &["check", "--all=yes", "a"],
        "--all takes no value",
        "check",
    );
    misuses(
        &["check", "-i", "a"],
        "--in-place does not go with check",
        "check",
    );
    misuses(
        &["check", "-", "-"],
        "standard input can be read once",
        "check",
    );
    let formats = "--format takes text, json, jsonl or csv";
    misuses(&["check", "a", "--format"], formats, "check");
    misuses(&["check", "a", "--format", "xml"], formats, "check");
    misuses(&["bits", "a", "0", "1", "--format="], formats, "bits");
    let jobs = "--jobs takes a number of files, from 1 on";
    misuses(&["check", "a", "-j"], jobs, "check");
    misuses(&["check", "a", "-j0"], jobs, "check");
    misuses(&["check", "a", "--jobs", "two"], jobs, "check");
    misuses(&["help", "check", "fix"], "help takes one command", "");
}

#[test]
fn misuse_of_what_writes_has_status_2_too() {
    let two = "fix takes two files, IN and OUT";
    misuses(&["fix", "a"], two, "fix");
    misuses(&["fix", "a", "b", "c"], two, "fix");
    misuses(
        &["fix", "-i", "a"],
        "--in-place does not go with fix",
        "fix",
    );
    let bad = "--bad takes drop or repeat";
    misuses(&["fix", "a", "b", "--bad", "keep"], bad, "fix");
    misuses(&["fix", "a", "b", "--bad"], bad, "fix");
    let two = "reseal takes two files, or one with --in-place";
    misuses(&["reseal", "a"], two, "reseal");
    misuses(&["reseal", "a", "b", "c"], two, "reseal");
    let one = "reseal --in-place takes one file";
    misuses(&["reseal", "-i"], one, "reseal");
    misuses(&["reseal", "-i", "a", "b"], one, "reseal");
    misuses(
        &["reseal", "-i", "-"],
        "standard input has no place",
        "reseal",
    );
    misuses(
        &["reseal", "--bad", "drop", "a", "b"],
        "--bad does not go with reseal",
        "reseal",
    );
}

#[test]
fn misuse_of_bits_has_status_2_too() {
    let three = "bits takes a file, a position and a width";
    misuses(&["bits", "a", "0"], three, "bits");
    let not = |which, word| format!("{which} is not a number of bits below 2^64: {word}");
    misuses(&["bits", "a", "x", "1"], &not("POS", "x"), "bits");
    misuses(&["bits", "a", "0", "-1"], "no such option: -1", "bits");
    let huge = "18446744073709551616";
    misuses(&["bits", "a", "0", huge], &not("WIDTH", huge), "bits");
    misuses(&["bits", "a", "0", ""], &not("WIDTH", "''"), "bits");
    misuses(
        &["bits", "-q", "a", "0", "1"],
        "--quiet does not go with bits",
        "bits",
    );
}

#[test]
fn after_two_dashes_no_word_is_an_option() {
    let room = Room::of("two_dashes");
    room.put("-q", &ac3());
    let csv = "file,bit,width,value,hex,binary\n-q,0,16,2935,0x0B77,0000101101110111\n";
    let words = ["--format=csv", "--", "bits", "-q", "0", "16"];
    room.writes(&words, 0, csv, "");
    let piped = room.run_on(&ac3(), &["--format=csv", "bits", "--", "-", "0", "16"]);
    piped.is(0, &csv.replace("-q", "-"), "");
}

#[test]
fn messages_keep_to_their_line() {
    let room = Room::of("messages");
    let wild = "\u{1b}[31m\nzela: \u{202e}all good";
    let said = "?[31m?zela: ?all good";
    let none = format!("zela: {said}: No such file or directory\n");
    room.writes(&["check", "-q", wild], 3, "", &none);
    room.writes(&["bits", wild, "0", "1"], 3, "", &none);
    room.writes(&["fix", wild, "out"], 3, "", &none);
    room.writes(&["reseal", wild, "out"], 3, "", &none);
    room.writes(&["reseal", "-i", wild], 3, "", &none);
    room.put(wild, &ac3());
    let same = format!("zela: {said}: IN and OUT are the same file\n");
    room.writes(&["fix", wild, wild], 2, "", &same);
    let same = same.replace('\n', "; use --in-place\n");
    room.writes(&["reseal", wild, wild], 2, "", &same);
    let far = format!("zela: {said}: bit 0, width 33: refusal 6, bad argument\n");
    room.writes(&["bits", wild, "0", "33"], 1, "", &far);
    misuses(&[wild], &format!("no such command: {said}"), "");
    let option = format!("--{wild}");
    misuses(
        &["check", &option],
        &format!("no such option: --{said}"),
        "check",
    );
}

#[test]
fn what_is_not_utf_8_in_a_name_is_replaced() {
    let room = Room::of("not_utf_8");
    let name = OsStr::from_bytes(b"a\xFF");
    let run = || {
        let ran = room.command(&["check"]).arg(name).output();
        Ran::of(ran.unwrap())
    };
    let missing = run();
    let err = "zela: a\u{FFFD}: No such file or directory\n";
    assert_eq!((missing.status, missing.err.as_str()), (3, err));
    fs::write(room.path("").join(name), ac3()).unwrap();
    let table = "\
state  codec   layout      kHz  kbit/s   frames        length  file
good   AC-3    1/0          48      64       13  00:00:00.416  a\u{FFFD}
";
    run().is(0, table, "");
}

#[test]
fn an_empty_name_is_seen_in_messages() {
    let room = Room::of("an_empty_name");
    room.put("in", &ac3());
    let none = "zela: '': No such file or directory\n";
    room.writes(&["check", "-q", ""], 3, "", none);
    room.writes(&["bits", "", "0", "1"], 3, "", none);
    room.writes(&["fix", "", "out"], 3, "", none);
    room.writes(&["fix", "in", ""], 3, "", none);
    room.writes(&["reseal", "", "out"], 3, "", none);
    room.writes(&["reseal", "in", ""], 3, "", none);
    room.writes(&["reseal", "-i", ""], 3, "", none);
    assert_eq!(room.list(), ["in"]);
    let command = "zela: no such command: ''\nTry 'zela help'.\n";
    room.writes(&[""], 2, "", command);
}

#[test]
fn the_version_is_the_crates() {
    let room = Room::of("the_version");
    let version = format!("zela {}\n", env!("CARGO_PKG_VERSION"));
    room.writes(&["--version"], 0, &version, "");
    room.writes(&["check", "-V"], 0, &version, "");
}

/// The commands.
const COMMANDS: [&str; 5] = ["check", "fix", "reseal", "bits", "help"];

/// What a command says of itself.
fn help_of(command: &str) -> String {
    let ran = Room::of(&format!("help_of_{command}")).run(&["help", command]);
    assert_eq!((ran.status, ran.err.as_str()), (0, ""));
    ran.out
}

#[test]
fn zela_alone_prints_the_help_and_is_no_success() {
    let room = Room::of("alone");
    let help = room.run(&["--help"]);
    assert_eq!((help.status, help.err.as_str()), (0, ""));
    for command in COMMANDS {
        assert!(help.out.contains(&format!("\n  {command} ")), "{command}");
    }
    room.run(&[]).is(2, &help.out, "");
    room.run(&["help"]).is(0, &help.out, "");
    room.run(&["-h"]).is(0, &help.out, "");
}

#[test]
fn each_command_has_its_help_with_an_example() {
    let room = Room::of("its_help");
    for command in COMMANDS.into_iter().filter(|command| *command != "help") {
        let help = help_of(command);
        assert!(
            help.starts_with(&format!("usage: zela {command} ")),
            "{command}"
        );
        assert!(help.contains(&format!("\n  zela {command} ")), "{command}");
        room.run(&[command, "--help"]).is(0, &help, "");
        room.run(&["-h", command, "a", "b", "c"]).is(0, &help, "");
        assert!(help.lines().all(|line| line.len() < 80), "{command}");
    }
}

/// The manual without its marks.
fn manual() -> String {
    let marks = ["\\fB", "\\fR", "\\fI"];
    let text = MANUAL.replace("\\-", "-");
    marks.iter().fold(text, |text, mark| text.replace(mark, ""))
}

/// The options that a text names.
fn options(text: &str) -> Vec<&str> {
    let is_edge = |sign: char| !(sign.is_alphanumeric() || sign == '-');
    let words = text.split(is_edge);
    words
        .filter(|word| word.len() > 1 && word.starts_with('-'))
        .collect()
}

#[test]
fn the_manual_is_of_this_version_and_has_each_option() {
    let manual = manual();
    assert!(manual.contains(concat!("\"zela ", env!("CARGO_PKG_VERSION"), "\"")));
    let (_, own) = manual.split_once(".SH OPTIONS").unwrap();
    let (own, _) = own.split_once(".SH KEYS").unwrap();
    let own = options(own);
    for command in COMMANDS {
        for option in options(&help_of(command)) {
            assert!(own.contains(&option), "{option}");
        }
    }
}

/// The keys that a record has, and the records in it.
fn keys(value: &Json, keys: &mut Vec<String>) {
    match value {
        Json::Object(pairs) => pairs.iter().for_each(|(key, value)| {
            keys.push(key.clone());
            self::keys(value, keys);
        }),
        Json::List(items) => items.iter().for_each(|item| self::keys(item, keys)),
        _ => {}
    }
}

#[test]
fn the_manual_has_each_key() {
    let room = Room::of("keys_of_the_manual");
    room.put("a", &wrong(ac3(), 300, 1)[..1000]);
    let runs: [&[&str]; 5] = [
        &["check", "a"],
        &["check", "--all", "a"],
        &["fix", "a", "b"],
        &["reseal", "a", "b"],
        &["bits", "a", "0", "1"],
    ];
    let (manual, mut named) = (manual(), Vec::new());
    for words in runs {
        let lines = room.run(&[words, &["--format", "jsonl"]].concat()).out;
        lines
            .lines()
            .for_each(|line| keys(&Json::of(line), &mut named));
    }
    assert!(named.len() > 60, "{named:?}");
    let (_, own) = manual.split_once(".SH KEYS").unwrap();
    let (own, _) = own.split_once(".SH REFUSALS").unwrap();
    let marked = own.lines().filter(|line| line.starts_with(".B"));
    let own: Vec<&str> = marked.flat_map(str::split_whitespace).collect();
    for key in named {
        assert!(own.contains(&key.as_str()), "{key}");
    }
}
