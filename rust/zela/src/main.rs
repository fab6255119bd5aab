//! The command line of Zelamodurk: checks AC-3 and E-AC-3 files, leaves damage out of them, gives edited frames
//! new checksums, shows bits. What a frame is, what its checksums say and what they should be is asked of the
//! proved core.
#![forbid(unsafe_code)]

mod args;
mod bits;
mod check;
mod clock;
mod columns;
mod core;
mod fix;
mod formats;
mod frames;
mod help;
mod input;
mod kinds;
mod listing;
mod marks;
mod outcome;
mod output;
mod progress;
mod report;
mod reseal;
mod rewrite;
mod same;
mod sound;
mod stand_in;
mod standard;
mod summary;
mod table;
mod terminal;
mod trouble;
mod units;
mod window;
mod words;

use args::Command;
use outcome::{print, Failure, Outcome};
use std::env;
use std::process::ExitCode;

const VERSION: &str = concat!("zela ", env!("CARGO_PKG_VERSION"), "\n");

fn main() -> ExitCode {
    let ran = args::parse(env::args_os().skip(1)).and_then(|command| run(&command));
    ran.unwrap_or_else(|failure| failure.tell()).into()
}

fn run(command: &Command) -> Result<Outcome, Failure> {
    match command {
        // A script that forgot its command has checked nothing.
        Command::Nothing => print(help::HELP).map(|()| Outcome::Usage),
        Command::Help(topic) => print(help::of(*topic)).map(|()| Outcome::Good),
        Command::Version => print(VERSION).map(|()| Outcome::Good),
        Command::Check(asked) => check::run(asked),
        Command::Fix(asked, instead) => fix::run(asked, *instead),
        Command::Reseal(asked) => reseal::run(asked),
        Command::Bits(span, format) => bits::run(span, *format),
    }
}
