//! JSON and CSV: the keys stay.

use crate::json::Json;
use crate::room::{ac3, eac3, wrong, Ran, Room};

const KEYS: &str = "file,good,codec,bytes,frames,seconds,bit_rate,crc1_good,crc1_bad,crc2_good,crc2_bad,skipped_bytes,bad_offset,bad_seconds,bad_refusal,bad_words,error,kind,layout,sample_rate,bit_rate_varies,bad_places,format_changes,state\n";

#[test]
fn csv_has_a_line_for_each_file() {
    let room = Room::of("csv");
    room.put("good.ac3", &ac3());
    room.put("cut,\"it\".ac3", &ac3()[..1000]);
    room.put("wrong.eac3", &wrong(eac3(), 2100, 1));
    room.put("empty", &[]);
    room.put("both", &[ac3(), eac3()].concat());
    let lines = "\
good.ac3,true,AC-3,3328,13,0.416000,64000,13,0,13,0,0,,,,,,,1/0,48000,false,0,0,good
\"cut,\"\"it\"\".ac3\",false,AC-3,1000,3,0.096000,64000,3,0,3,0,232,768,0.096000,1,\"the frame breaks off after 232 of 256 bytes, 24 short\",,,1/0,48000,false,1,0,bad
wrong.eac3,false,E-AC-3,3328,13,0.416000,64000,0,0,12,1,0,2048,0.256000,,crc2 is bad,,,1/0,48000,false,1,0,bad
empty,false,,0,0,0.000000,,0,0,0,0,0,0,0.000000,3,under 6 bytes of header,,,,,false,0,0,wrong
missing,,,,0,0.000000,,0,0,0,0,0,,,,,No such file or directory,,,,false,0,0,error
both,false,AC-3+E-AC-3,6656,26,0.832000,64000,13,0,26,0,0,3328,0.416000,,the format changes from AC-3 1/0 48 kHz to E-AC-3 1/0 48 kHz,,,1/0,48000,false,1,1,bad
";
    let csv = [KEYS, lines].concat();
    let words = [
        "check",
        "--format",
        "csv",
        "good.ac3",
        "cut,\"it\".ac3",
        "wrong.eac3",
        "empty",
        "missing",
        "both",
    ];
    let err = "zela: missing: No such file or directory\n";
    room.writes(&words, 4, &csv, err);
}

/// The record of a good file, and that of one that is cut.
const GOOD: &str = r#"{"file": "good.ac3", "good": true, "codec": "AC-3", "bytes": 3328, "frames": 13, "seconds": 0.416000, "bit_rate": 64000, "crc1_good": 13, "crc1_bad": 0, "crc2_good": 13, "crc2_bad": 0, "skipped_bytes": 0, "bad_offset": null, "bad_seconds": null, "bad_refusal": null, "bad_words": null, "error": null, "kind": null, "layout": "1/0", "sample_rate": 48000, "bit_rate_varies": false, "bad_places": 0, "format_changes": 0, "state": "good", "places": []}"#;
const CUT: &str = r#"{"file": "a\"b\\c\u000a\u202e", "good": false, "codec": "AC-3", "bytes": 1000, "frames": 3, "seconds": 0.096000, "bit_rate": 64000, "crc1_good": 3, "crc1_bad": 0, "crc2_good": 3, "crc2_bad": 0, "skipped_bytes": 232, "bad_offset": 768, "bad_seconds": 0.096000, "bad_refusal": 1, "bad_words": "the frame breaks off after 232 of 256 bytes, 24 short", "error": null, "kind": null, "layout": "1/0", "sample_rate": 48000, "bit_rate_varies": false, "bad_places": 1, "format_changes": 0, "state": "bad", "places": [{"byte": 768, "frame": 3, "seconds": 0.096000, "bytes": 232, "what": "cut", "refusal": 1, "words": "the frame breaks off after 232 of 256 bytes, 24 short"}]}"#;
const MISSING: &str = r#"{"file": "missing", "good": null, "codec": null, "bytes": null, "frames": 0, "seconds": 0.000000, "bit_rate": null, "crc1_good": 0, "crc1_bad": 0, "crc2_good": 0, "crc2_bad": 0, "skipped_bytes": 0, "bad_offset": null, "bad_seconds": null, "bad_refusal": null, "bad_words": null, "error": "No such file or directory", "kind": null, "layout": null, "sample_rate": null, "bit_rate_varies": false, "bad_places": 0, "format_changes": 0, "state": "error", "places": []}"#;

#[test]
fn json_has_an_object_for_each_file() {
    let room = Room::of("json");
    room.put("good.ac3", &ac3());
    let name = "a\"b\\c\n\u{202e}";
    room.put(name, &ac3()[..1000]);
    let files = ["good.ac3", name, "missing"];
    let err = "zela: missing: No such file or directory\n";
    let json = format!("[\n  {GOOD},\n  {CUT},\n  {MISSING}\n]\n");
    let words = [&["check", "--format", "json"], &files[..]].concat();
    room.writes(&words, 3, &json, err);
    let lines = format!("{GOOD}\n{CUT}\n{MISSING}\n");
    let words = [&["check", "--format", "jsonl"], &files[..]].concat();
    room.writes(&words, 3, &lines, err);
    let read = Json::of(&json);
    assert_eq!(read.list()[1].at("file"), &Json::Text(name.to_string()));
    assert_eq!(read.list()[1].at("bad_refusal"), &Json::Number(1.0));
    for object in read.list() {
        let Json::Object(pairs) = object else {
            panic!("no object")
        };
        let keys: Vec<&str> = pairs.iter().map(|(key, _)| key.as_str()).collect();
        assert_eq!(keys.join(","), [KEYS.trim_end(), "places"].join(","));
    }
}

/// The file's own record behind its places.
const WRONG: &str = r#"{"byte": 2048, "frame": 8, "seconds": 0.256000, "bytes": 256, "what": "checksum", "refusal": null, "words": "crc2 is bad"}"#;

#[test]
fn in_lines_of_json_places_come_as_they_are_found() {
    let room = Room::of("places_in_lines");
    let bytes = wrong(eac3(), 2100, 1);
    room.put("x", &bytes);
    let record = room.run(&["check", "--format", "jsonl", "x"]);
    assert_eq!(Json::of(&record.out).at("places").list(), [Json::of(WRONG)]);
    let place = |name| format!("{{\"file\": \"{name}\", \"place\": {WRONG}}}\n");
    let all = room.run(&["check", "--format", "jsonl", "--all", "x"]);
    all.is(1, &[place("x"), record.out.clone()].concat(), "");
    let piped = room.run_on(&bytes, &["check", "--format", "jsonl", "-"]);
    let own = record.out.replace("\"file\": \"x\"", "\"file\": \"-\"");
    piped.is(1, &[place("-"), own].concat(), "");
}

/// How many places a record has.
fn places(ran: &Ran) -> (usize, Json) {
    let record = match Json::of(&ran.out) {
        Json::List(records) => records[0].clone(),
        record => record,
    };
    (
        record.at("places").list().len(),
        record.at("bad_places").clone(),
    )
}

#[test]
fn a_record_has_ten_places_unless_all_are_asked_for() {
    let room = Room::of("ten_places");
    let frame = wrong(ac3()[..256].to_vec(), 200, 1);
    room.put("x", &frame.repeat(35));
    let check = |words: &[&str]| room.run(&[&["check", "x", "--format"], words].concat());
    assert_eq!(places(&check(&["json"])), (10, Json::Number(35.0)));
    assert_eq!(places(&check(&["json", "--all"])), (35, Json::Number(35.0)));
    let lines = check(&["jsonl", "--all"]).out;
    assert_eq!(lines.lines().count(), 36);
}

#[test]
fn a_change_that_is_allowed_is_told_and_good() {
    let room = Room::of("an_allowed_change");
    room.put("x", &[ac3(), eac3()].concat());
    let ran = room.run(&["check", "--format", "jsonl", "--allow-changes", "x"]);
    assert_eq!(ran.status, 0);
    let record = Json::of(&ran.out);
    assert_eq!(record.at("good"), &Json::Flag(true));
    assert_eq!(record.at("bad_places"), &Json::Number(0.0));
    assert_eq!(record.at("bad_offset"), &Json::Null);
    assert_eq!(record.at("format_changes"), &Json::Number(1.0));
    let what = record.at("places").list()[0].at("what").clone();
    assert_eq!(what, Json::Text("change".to_string()));
}
