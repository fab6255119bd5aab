//! What is shown on a terminal, and only there. `script` gives the program one, where it is installed.

use crate::room::{ac3, eac3, wrong, Room};
use std::process::{Command, Stdio};

/// What a run of the program shows on a terminal of 80 columns, or of as many as COLUMNS says; none where there is
/// no `script`.
fn shown(room: &Room, words: &str, set: &[(&str, &str)]) -> Option<String> {
    let zela = env!("CARGO_BIN_EXE_zela");
    let line = format!("stty cols 80; '{zela}' {words}");
    let mut script = Command::new("script");
    script
        .args(["-qec", &line, "/dev/null"])
        .current_dir(room.path(""));
    script.stdin(Stdio::null()).env("TERM", "xterm");
    script.env_remove("NO_COLOR").env_remove("COLUMNS");
    let Ok(ran) = script.envs(set.iter().copied()).output() else {
        println!("there is no `script`: nothing is shown on a terminal");
        return None;
    };
    Some(String::from_utf8(ran.stdout).unwrap().replace("\r\n", "\n"))
}

/// The row of a good file with its first word in colour, or plain.
fn row(state: &str, name: &str) -> String {
    format!("{state}   AC-3    1/0          48      64       13  00:00:00.416  {name}\n")
}

const GREEN: &str = "\x1b[32mgood\x1b[0m";
const TITLES: &str = "state  codec   layout      kHz  kbit/s   frames        length  file\n";

#[test]
fn the_verdict_has_a_colour_and_a_long_name_is_cut() {
    let room = Room::of("on_a_terminal");
    let long = "a_recording_with_a_long_name_of_2026-11-16.ac3";
    room.put(long, &ac3());
    let words = format!("check {long}");
    let cut = [TITLES, &row(GREEN, "a_record..-16.ac3")].concat();
    let Some(out) = shown(&room, &words, &[]) else {
        return;
    };
    assert_eq!(out, cut);
    let plain = [TITLES, &row("good", "a_record..-16.ac3")].concat();
    assert_eq!(
        shown(&room, &words, &[("NO_COLOR", "1")]),
        Some(plain.clone())
    );
    assert_eq!(shown(&room, &words, &[("TERM", "dumb")]), Some(plain));
    let whole = [TITLES, &row(GREEN, long)].concat();
    assert_eq!(shown(&room, &words, &[("COLUMNS", "200")]), Some(whole));
    // In a file the name is whole, and nothing has a colour.
    let table = [TITLES, &row("good", long)].concat();
    room.writes(&["check", long], 0, &table, "");
}

#[test]
fn a_name_of_wide_signs_keeps_to_its_line() {
    let room = Room::of("wide_signs");
    room.put("音声音声音声音声音声.ac3", &ac3());
    let Some(out) = shown(&room, "check *.ac3", &[("NO_COLOR", "1")]) else {
        return;
    };
    assert_eq!(out, [TITLES, &row("good", "音声音声..声.ac3")].concat());
}

#[test]
fn bad_is_red_and_a_wrong_file_yellow() {
    let room = Room::of("red");
    room.put("a", &wrong(eac3(), 300, 1));
    room.put("b", &[]);
    let Some(out) = shown(&room, "check a b missing", &[]) else {
        return;
    };
    assert!(out.contains("\n\x1b[31mbad\x1b[0m    E-AC-3 "), "{out:?}");
    assert!(out.contains("\n\x1b[33mwrong\x1b[0m  - "), "{out:?}");
    assert!(out.contains("\n\x1b[31merror\x1b[0m  - "), "{out:?}");
    // The row tells why, and standard error is the same terminal.
    assert!(
        out.contains("    error: No such file or directory\n"),
        "{out:?}"
    );
    assert!(!out.contains("zela: "), "{out:?}");
}

#[test]
fn of_a_file_that_is_not_good_the_whole_name_is_shown() {
    let room = Room::of("the_whole_name");
    let name = "news_of_the_evening_2026-11-16.ac3";
    room.put(name, &ac3()[..1000]);
    let Some(out) = shown(&room, &format!("check {name}"), &[("NO_COLOR", "1")]) else {
        return;
    };
    let rows = "  news_of_..-16.ac3\n    news_of_the_evening_2026-11-16.ac3\n    1 bad place: ";
    assert!(out.contains(rows), "{out:?}");
}

#[test]
fn frames_are_not_shown_on_a_terminal() {
    let room = Room::of("no_frames");
    room.put("a", &ac3());
    for command in ["fix", "reseal"] {
        let Some(out) = shown(&room, &format!("{command} a -"), &[]) else {
            return;
        };
        let err = "zela: standard output: is the terminal, which shows no frames\n";
        assert_eq!(out, err);
    }
}

#[test]
fn a_word_is_said_where_standard_input_is_a_terminal() {
    let room = Room::of("input_is_a_terminal");
    let Some(out) = shown(&room, "check -", &[("NO_COLOR", "1")]) else {
        return;
    };
    let word = "zela: standard input is the terminal: end it with Ctrl-D, or stop with Ctrl-C\n";
    assert!(out.contains(word), "{out:?}");
}
