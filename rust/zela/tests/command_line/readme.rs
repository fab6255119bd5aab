//! What the README shows is what the program writes.

use crate::room::{sample, wrong, Room};
use std::fs;
use std::path::Path;

const README: &str = include_str!("../../../../README.md");

/// The block of the README that begins with this line, each line without its indent.
fn block(first: &str) -> String {
    let (_, rest) = README.split_once(first).unwrap();
    let is_in = |line: &&str| line.is_empty() || line.starts_with("    ");
    let lines: Vec<&str> = rest.lines().skip(1).take_while(is_in).collect();
    let text: String = lines
        .iter()
        .map(|line| line.strip_prefix("    ").unwrap_or_default().to_string() + "\n")
        .collect();
    text.trim_end().to_string() + "\n"
}

#[test]
fn the_readmes_output_is_the_programs() {
    let room = Room::of("readme");
    room.put("damaged.ac3", &wrong(sample("a_51_48_448k.ac3"), 4000, 1));
    let whole = sample("e_51_48_384k.eac3");
    room.put("spliced.eac3", &[&whole[..5000], &whole[9216..]].concat());
    let kinds = Path::new(env!("CARGO_MANIFEST_DIR")).join("tests/kinds");
    room.put("film.mp4", &fs::read(kinds.join("mp4")).unwrap());
    let words = ["check", "damaged.ac3", "spliced.eac3", "film.mp4"];
    let shown = block(&format!("    $ zela {}", words.join(" ")));
    room.writes(&words, 4, &shown, "");
}
