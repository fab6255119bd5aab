//! The recorded answers: the core gives each of them, and recording writes them again.
#![forbid(unsafe_code)]

use differential::tally::Tally;
use differential::{answers::By, vectors};

#[test]
fn the_core_gives_every_recorded_answer() {
    let entries = vectors::read().unwrap();
    let mut tally = Tally::default();
    for entry in &entries {
        tally.replay(entry);
    }
    assert_eq!(tally.differs, None);
    assert_eq!(tally.total(), entries.len() as u64);
}

#[test]
fn every_kind_of_answer_is_recorded() {
    let entries = vectors::read().unwrap();
    for (by, word) in By::WORDS {
        assert!(entries.iter().any(|entry| entry.by == by), "none by {word}");
    }
    for number in 0..=21 {
        let recorded = entries.iter().any(|entry| entry.number() == number);
        assert!(recorded, "none is refused with {number}");
    }
}

#[test]
fn replay_reads_the_same_answers() {
    for file in vectors::FILES {
        let [there, copy] = [vectors::path(file), vectors::copy(file)]
            .map(|path| std::fs::read_to_string(path).unwrap());
        assert!(
            there == copy,
            "crates/replay/data/{file} is not vectors/{file}"
        );
    }
}

/// In a debug build the Rust panics where the recorded one answers, so this is for release.
#[cfg(not(debug_assertions))]
#[test]
#[cfg_attr(not(oracle), ignore = "the Rust is not there")]
fn recording_writes_what_is_there() {
    let texts = differential::record::texts().unwrap();
    for (file, text) in vectors::FILES.into_iter().zip(texts) {
        let there = std::fs::read_to_string(vectors::path(file)).unwrap();
        assert!(
            there == text,
            "vectors/{file} is not what `differential record` writes"
        );
    }
}
