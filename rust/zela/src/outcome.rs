//! How a run ends: the exit status, and what is said on standard error.

use crate::report::{moves, printable};
use crate::standard::standard;
use std::ffi::OsStr;
use std::fmt::Display;
use std::io::{self, ErrorKind, Write};
use std::os::fd::AsFd;
use std::process::ExitCode;

/// The exit status; of several the greatest is the run's.
#[derive(Clone, Copy, Debug, PartialEq, Eq, PartialOrd, Ord)]
pub enum Outcome {
    Good = 0,
    /// Damage was found, or the core refused.
    Damage = 1,
    Usage = 2,
    /// Input or output failed.
    Io = 3,
    /// There is no AC-3 in a file.
    NoAc3 = 4,
}

impl From<Outcome> for ExitCode {
    fn from(outcome: Outcome) -> ExitCode {
        ExitCode::from(outcome as u8)
    }
}

/// Why a run, or a file's part of it, came to nothing.
#[derive(Clone, Debug)]
pub struct Failure {
    pub outcome: Outcome,
    /// What it is about; empty where it is the run.
    pub name: String,
    /// Empty where nothing is to be said.
    pub words: String,
}

impl Failure {
    pub fn new(outcome: Outcome, words: impl Display) -> Failure {
        Failure::of(outcome, "", words)
    }

    /// A failure of the thing that is named.
    pub fn of(outcome: Outcome, name: impl Display, words: impl Display) -> Failure {
        let (name, words) = (name.to_string(), words.to_string());
        Failure {
            outcome,
            name,
            words,
        }
    }

    /// A failed read or write of the thing that is named.
    pub fn io(name: impl Display, error: &io::Error) -> Failure {
        Failure::of(Outcome::Io, name, words_of(error))
    }

    /// A failed write to standard output, under the name that it was given. A reader that is gone, as with
    /// `zela .. | head`, needs no word.
    pub fn standard_output(name: impl Display, error: &io::Error) -> Failure {
        match error.kind() {
            ErrorKind::BrokenPipe => Failure::new(Outcome::Io, ""),
            _ => Failure::io(name, error),
        }
    }

    /// Says it on standard error.
    pub fn tell(&self) -> Outcome {
        match (self.name.is_empty(), self.words.is_empty()) {
            (_, true) => {}
            (true, false) => tell_aside(&self.words),
            (false, false) => tell_aside(&format!("{}: {}", self.name, self.words)),
        }
        self.outcome
    }
}

/// What the system says of a failure, without its number.
fn words_of(error: &io::Error) -> String {
    let words = error.to_string();
    let number = error.raw_os_error();
    let number = number.map(|number| format!(" (os error {number})"));
    match number.and_then(|number| words.strip_suffix(&number)) {
        Some(words) => words.to_string(),
        None => words,
    }
}

/// Says something on standard error; where that is closed there is nobody to tell.
pub fn tell_aside(words: &str) {
    let _ = put(io::stderr(), &format!("zela: {words}\n"));
}

/// Writes a report to standard output.
pub fn print(text: &str) -> Result<(), Failure> {
    put(io::stdout(), text).map_err(|e| Failure::standard_output("standard output", &e))
}

/// Writes a report to standard error, since standard output is not for it.
pub fn print_aside(text: &str) -> Result<(), Failure> {
    put(io::stderr(), text).map_err(|e| Failure::io("standard error", &e))
}

fn put(stream: impl AsFd, text: &str) -> io::Result<()> {
    match text.is_empty() {
        true => Ok(()),
        false => standard(stream)?.write_all(text.as_bytes()),
    }
}

/// A file's name for reports; what is not UTF-8 in it is replaced.
pub fn name(file: &OsStr) -> String {
    file.to_string_lossy().into_owned()
}

/// A word of the command line in a message. Of an empty one nothing would be seen without quotes.
pub fn said(word: &OsStr) -> String {
    match word.is_empty() {
        true => "''".to_string(),
        false => printable(&name(word)),
    }
}

/// A file's name as a shell takes it, or a word that stands for it where a line can't show it.
pub fn typed(file: &OsStr) -> String {
    let is_plain = |sign: char| sign.is_alphanumeric() || "._/+=:,@%-".contains(sign);
    match file.to_str() {
        Some(text) if text.contains(moves) || text == "-" => "FILE".to_string(),
        Some(text) if text.starts_with('-') => typed(OsStr::new(&format!("./{text}"))),
        Some(text) if !text.is_empty() && text.chars().all(is_plain) => text.to_string(),
        Some(text) => format!("'{}'", text.replace('\'', "'\\''")),
        None => "FILE".to_string(),
    }
}

#[cfg(test)]
mod tests {
    use super::*;

    #[test]
    fn a_failure_of_the_system_is_told_without_its_number() {
        let words = |number| words_of(&io::Error::from_raw_os_error(number));
        assert_eq!(words(2), "No such file or directory");
        assert_eq!(words(28), "No space left on device");
        assert_eq!(words_of(&io::Error::other("all taken")), "all taken");
    }

    #[test]
    fn a_name_can_be_typed() {
        let typed = |name: &str| typed(OsStr::new(name));
        assert_eq!(typed("a/b_c.ts"), "a/b_c.ts");
        assert_eq!(typed("my film.ts"), "'my film.ts'");
        assert_eq!(typed("it's"), "'it'\\''s'");
        assert_eq!(typed("$(rm)"), "'$(rm)'");
        assert_eq!(typed("-i"), "./-i");
        assert_eq!(typed("a\nb"), "FILE");
        assert_eq!(typed("-"), "FILE");
        assert_eq!(typed(""), "''");
    }
}
