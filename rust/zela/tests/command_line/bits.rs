//! `zela bits`.

use crate::room::{ac3, Room};

fn room(test: &str) -> Room {
    let room = Room::of(test);
    room.put("a.ac3", &ac3());
    room
}

#[test]
fn bits_are_shown_in_three_ways() {
    let room = room("three_ways");
    let table = "\
bit  width  value  hex   binary  file
 40      5      8  0x08  01000   a.ac3
";
    room.writes(&["bits", "a.ac3", "40", "5"], 0, table, "");
    let table = "\
bit  width  value  hex     binary            file
  0     16  2,935  0x0B77  0000101101110111  a.ac3
";
    room.writes(&["bits", "a.ac3", "0", "16"], 0, table, "");
    let json = "[\n  {\"file\": \"a.ac3\", \"bit\": 2055, \"width\": 10, \"value\": 751, \"hex\": \"0x2EF\", \"binary\": \"1011101111\"}\n]\n";
    room.writes(
        &["bits", "--format", "json", "a.ac3", "2055", "10"],
        0,
        json,
        "",
    );
    let csv = "file,bit,width,value,hex,binary\na.ac3,2052,12,2935,0xB77,101101110111\n";
    room.writes(&["bits", "--format=csv", "a.ac3", "2052", "12"], 0, csv, "");
}

#[test]
fn standard_input_is_read_to_the_place() {
    let room = room("to_the_place");
    let csv = "file,bit,width,value,hex,binary\n-,24576,32,192405792,0x0B77E120,00001011011101111110000100100000\n";
    let words = ["bits", "--format", "csv", "-", "24576", "32"];
    room.run_on(&ac3(), &words).is(0, csv, "");
}

#[test]
fn the_last_bits_of_a_file() {
    let room = room("the_last_bits");
    let csv = "file,bit,width,value,hex,binary\na.ac3,26623,1,0,0x0,0\n";
    room.writes(
        &["bits", "--format", "csv", "a.ac3", "26623", "1"],
        0,
        csv,
        "",
    );
    let csv = "file,bit,width,value,hex,binary\na.ac3,26624,0,0,0x0,\n";
    room.writes(
        &["bits", "--format", "csv", "a.ac3", "26624", "0"],
        0,
        csv,
        "",
    );
}

#[test]
fn the_core_refuses_what_is_not_there() {
    let room = room("not_there");
    for (at, told, width) in [
        ("26623", "26,623", "2"),
        ("26625", "26,625", "0"),
        ("18446744073709551615", "18,446,744,073,709,551,615", "32"),
    ] {
        let err = format!("zela: a.ac3: bit {told}, width {width}: refusal 1, an element would pass the limit, or a bit range its buffer\n");
        room.writes(&["bits", "a.ac3", at, width], 1, "", &err);
        let piped = room.run_on(&ac3(), &["bits", "-", at, width]);
        piped.is(1, "", &err.replace("a.ac3", "standard input"));
    }
    let err = "zela: a.ac3: bit 0, width 33: refusal 6, bad argument\n";
    room.writes(&["bits", "a.ac3", "0", "33"], 1, "", err);
    let err = "zela: a.ac3: bit 0, width 18,446,744,073,709,551,615: refusal 6, bad argument\n";
    room.writes(&["bits", "a.ac3", "0", "18446744073709551615"], 1, "", err);
}

#[test]
fn a_folder_has_no_bits() {
    let room = room("no_bits");
    room.writes(&["bits", ".", "0", "1"], 3, "", "zela: .: Is a directory\n");
}
