//! `differential run` compares the core with the Rust; `differential record` records the Rust's
//! answers.
#![forbid(unsafe_code)]

use differential::{cases, record, rust, tally::Tally, vectors, whole};
use std::process::ExitCode;

const USAGE: &str = "\
usage: differential run      compare the core with the Rust that it was ported from
       differential record   write the Rust's answers to vectors/ and crates/replay/data/";

fn main() -> ExitCode {
    let words: Vec<String> = std::env::args().skip(1).collect();
    let words: Vec<&str> = words.iter().map(String::as_str).collect();
    let done = match words[..] {
        ["run"] => run(),
        ["record"] => write(),
        _ => {
            eprintln!("{USAGE}");
            return ExitCode::from(2);
        }
    };
    match done {
        Ok(()) => ExitCode::SUCCESS,
        Err(why) => {
            eprintln!("differential: {why}");
            ExitCode::FAILURE
        }
    }
}

/// Compares the recorded answers, and where the Rust is there every generated case.
fn run() -> Result<(), String> {
    let mut tally = Tally::default();
    for entry in vectors::read()? {
        tally.replay(&entry);
    }
    let recorded = tally.total();
    if rust::PRESENT {
        cases::all(&mut |call| tally.compare(call));
    } else {
        println!("the Rust is not there (../shared/docs/src, or the folder that ZELAMODURK_RUST names): only the recorded answers are run");
    }
    if let Some(differs) = tally.differs {
        return Err(format!("a case differs: {differs}"));
    }
    print!("{tally}");
    println!(
        "{} cases agree, {recorded} of them recorded answers",
        tally.total()
    );
    if rust::PRESENT {
        let frames = whole::all()?;
        print!("{frames}");
        println!(
            "{} whole frames agree; those taken have elements of {} names",
            frames.total(),
            frames.names.len()
        );
    }
    Ok(())
}

/// Writes the recorded answers.
fn write() -> Result<(), String> {
    if cfg!(debug_assertions) {
        // What the Rust does past its bounds is not the same then.
        return Err("record wants a release build: cargo run --release".to_string());
    }
    for (file, text) in vectors::FILES.into_iter().zip(record::texts()?) {
        for path in [vectors::path(file), vectors::copy(file)] {
            std::fs::write(&path, &text)
                .map_err(|e| format!("cannot write {}: {e}", path.display()))?;
        }
        let count = text.lines().filter(|line| !line.starts_with('#')).count();
        println!("vectors/{file}: {count} answers");
    }
    Ok(())
}
