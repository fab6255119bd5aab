//! The words of the command line.

use crate::check::TOLD;
use crate::help::{Topic, TOPICS};
use crate::outcome::{said, typed, Failure, Outcome};
use crate::words::nearest;
use std::ffi::{OsStr, OsString};
use std::path::Path;
use std::thread;

/// The form of a report.
#[derive(Clone, Copy, Debug, Default, PartialEq, Eq)]
pub enum Format {
    #[default]
    Text,
    Json,
    Jsonl,
    Csv,
}

/// What is shown of a run.
#[derive(Clone, Copy, Debug, Default, PartialEq, Eq)]
pub struct Shown {
    pub format: Format,
    pub quiet: bool,
}

/// What is asked for.
#[derive(Debug, PartialEq, Eq)]
pub enum Command {
    /// No word at all.
    Nothing,
    Help(Option<&'static str>),
    Version,
    Check(Check),
    Fix(Rewrite, Instead),
    Reseal(Rewrite),
    Bits(Span, Format),
}

#[derive(Debug, PartialEq, Eq)]
pub struct Check {
    pub files: Vec<OsString>,
    pub all: bool,
    pub allows_changes: bool,
    pub is_recursive: bool,
    pub jobs: usize,
    pub shown: Shown,
}

impl Check {
    /// Whether all places of a file are held until it is done: the array of one file is one thing.
    pub fn holds_all(&self) -> bool {
        self.all && self.shown.format == Format::Json
    }

    /// How many places of a file are told as they are found, before the file's own row or record: the first
    /// ones of an input without a known end, and all where all are asked for.
    pub fn told_at_once(&self, has_size: bool) -> usize {
        let is_told = matches!(self.shown.format, Format::Text | Format::Jsonl);
        match () {
            () if self.shown.quiet || !is_told => 0,
            () if self.all => usize::MAX,
            () if has_size => 0,
            () => TOLD,
        }
    }
}

/// A file that is written anew.
#[derive(Debug, PartialEq, Eq)]
pub struct Rewrite {
    pub from: OsString,
    /// None where it is the file itself.
    pub to: Option<OsString>,
    pub all: bool,
    pub is_dry: bool,
    pub shown: Shown,
}

/// What is written where a frame is lost.
#[derive(Clone, Copy, Debug, Default, PartialEq, Eq)]
pub enum Instead {
    #[default]
    Nothing,
    LastGood,
}

/// A run of bits of a file.
#[derive(Debug, PartialEq, Eq)]
pub struct Span {
    pub file: OsString,
    pub at: u64,
    pub width: usize,
}

/// An option: its words, whether a value follows, and the commands that it goes with.
struct Known {
    long: &'static str,
    short: Option<char>,
    has_value: bool,
    with: &'static [&'static str],
}

/// The options.
const KNOWN: [Known; 11] = [
    known("--all", Some('a'), false, &["check", "fix", "reseal"]),
    known("--allow-changes", None, false, &["check"]),
    known("--recursive", Some('r'), false, &["check"]),
    known("--jobs", Some('j'), true, &["check"]),
    known("--bad", None, true, &["fix"]),
    known("--in-place", Some('i'), false, &["reseal"]),
    known("--dry-run", Some('n'), false, &["fix", "reseal"]),
    known("--format", None, true, &["check", "fix", "reseal", "bits"]),
    known("--quiet", Some('q'), false, &["check", "fix", "reseal"]),
    known("--help", Some('h'), false, &[]),
    known("--version", Some('V'), false, &[]),
];

const fn known(
    long: &'static str,
    short: Option<char>,
    has_value: bool,
    with: &'static [&'static str],
) -> Known {
    Known {
        long,
        short,
        has_value,
        with,
    }
}

/// The words as they were given, sorted into options with their values, and the rest.
#[derive(Default)]
struct Words {
    options: Vec<(&'static str, Option<OsString>)>,
    rest: Vec<OsString>,
}

impl Words {
    fn has(&self, long: &str) -> bool {
        self.options.iter().any(|(own, _)| *own == long)
    }

    /// The last value of an option.
    fn value(&self, long: &str) -> Option<&str> {
        let mut options = self.options.iter().rev();
        let (_, value) = options.find(|(own, _)| *own == long)?;
        // What is not UTF-8 is no value of any option.
        Some(value.as_deref().and_then(OsStr::to_str).unwrap_or_default())
    }
}

/// Bad usage, with where to look for help: that of a command, if there is one.
fn misuse<T>(words: impl AsRef<str>, command: Option<&str>) -> Result<T, Failure> {
    let (words, space) = (words.as_ref(), if command.is_some() { " " } else { "" });
    let words = format!(
        "{words}\nTry 'zela help{space}{}'.",
        command.unwrap_or_default()
    );
    Err(Failure::new(Outcome::Usage, words))
}

fn topic(word: &OsStr) -> Option<&'static Topic> {
    TOPICS.iter().find(|topic| word == topic.name)
}

/// The command that the words ask for, the program's name left out.
pub fn parse(words: impl Iterator<Item = OsString>) -> Result<Command, Failure> {
    let words: Vec<OsString> = words.collect();
    let named = words.iter().find_map(|word| topic(word));
    let words = sort(words.into_iter(), named.map(|topic| topic.name))?;
    let command = words.rest.first();
    if words.has("--help") {
        let topic = command.and_then(|word| topic(word));
        return Ok(Command::Help(topic.map(|topic| topic.name)));
    }
    if words.has("--version") {
        return Ok(Command::Version);
    }
    let Some((command, rest)) = words.rest.split_first() else {
        return match words.options.is_empty() {
            true => Ok(Command::Nothing),
            false => misuse("a command is missing", None),
        };
    };
    let Some(topic) = topic(command) else {
        return unknown(command);
    };
    let name = topic.name;
    for (long, _) in &words.options {
        let goes = KNOWN
            .iter()
            .any(|known| known.long == *long && known.with.contains(&name));
        if !goes {
            return misuse(format!("{long} does not go with {name}"), Some(name));
        }
    }
    match name {
        "check" => check(&words, rest),
        "fix" => fix(&words, rest),
        "reseal" => reseal(&words, rest),
        "bits" => bits(&words, rest),
        _ => help(rest),
    }
}

/// A word that is no command.
fn unknown(word: &OsStr) -> Result<Command, Failure> {
    let said = said(word);
    let names = TOPICS.map(|topic| topic.name);
    let meant = nearest(&word.to_string_lossy(), &names);
    misuse(
        match meant {
            _ if word == "repair" => "no such command: repair\n\
                For frames that you edited there is 'zela reseal', for damage 'zela fix'."
                .to_string(),
            Some(meant) => format!("no such command: {said}; did you mean {meant}?"),
            None if Path::new(word).is_file() => {
                let file = typed(word);
                format!("no such command: {said}\nTo check that file: zela check {file}")
            }
            None => format!("no such command: {said}"),
        },
        None,
    )
}

fn help(words: &[OsString]) -> Result<Command, Failure> {
    match words {
        [] => Ok(Command::Help(None)),
        [word] => match topic(word) {
            Some(topic) => Ok(Command::Help(Some(topic.name))),
            None => unknown(word),
        },
        _ => misuse("help takes one command", None),
    }
}

/// Sorts the words; where one can't be, the help of the command that is named is shown as a way out.
fn sort(
    mut words: impl Iterator<Item = OsString>,
    command: Option<&str>,
) -> Result<Words, Failure> {
    let mut sorted = Words::default();
    while let Some(word) = words.next() {
        let text = word.to_str().unwrap_or_default();
        let is_option = word.len() > 1 && word.as_encoded_bytes().starts_with(b"-");
        match is_option {
            _ if text == "--" => sorted.rest.extend(words.by_ref()),
            true if text.starts_with("--") => sorted.options.push(long(text, &mut words, command)?),
            true => short(&word, &mut words, &mut sorted.options, command)?,
            false => sorted.rest.push(word),
        }
    }
    Ok(sorted)
}

type Given = (&'static str, Option<OsString>);

/// An option by its long word; its value may stand behind a sign of equality, or be the next word.
fn long(
    text: &str,
    words: &mut impl Iterator<Item = OsString>,
    command: Option<&str>,
) -> Result<Given, Failure> {
    let (own, value) = match text.split_once('=') {
        Some((own, value)) => (own, Some(OsString::from(value))),
        None => (text, None),
    };
    let Some(known) = KNOWN.iter().find(|known| known.long == own) else {
        return no_option(OsStr::new(own), command);
    };
    match (known.has_value, value) {
        (false, Some(_)) => misuse(format!("{own} takes no value"), command),
        (true, None) => Ok((known.long, words.next())),
        (_, value) => Ok((known.long, value)),
    }
}

/// Options by one letter each. The value of the last may stand right behind it, or be the next word.
fn short(
    word: &OsStr,
    words: &mut impl Iterator<Item = OsString>,
    options: &mut Vec<Given>,
    command: Option<&str>,
) -> Result<(), Failure> {
    let mut letters = word.to_str().unwrap_or_default().chars();
    letters.next();
    if letters.as_str().is_empty() {
        return no_option(word, command);
    }
    while let Some(letter) = letters.next() {
        let Some(known) = KNOWN.iter().find(|known| known.short == Some(letter)) else {
            return no_option(word, command);
        };
        if !known.has_value {
            options.push((known.long, None));
            continue;
        }
        let value = match letters.as_str() {
            "" => words.next(),
            rest => Some(rest.into()),
        };
        options.push((known.long, value));
        break;
    }
    Ok(())
}

fn no_option<T>(word: &OsStr, command: Option<&str>) -> Result<T, Failure> {
    let longs = KNOWN.map(|known| known.long);
    let meant = match nearest(&word.to_string_lossy(), &longs) {
        Some(meant) => format!("; did you mean {meant}?"),
        None if Path::new(word).exists() => format!("; to name that file: {}", typed(word)),
        None => String::new(),
    };
    misuse(format!("no such option: {}{meant}", said(word)), command)
}

fn shown(words: &Words, command: &str) -> Result<Shown, Failure> {
    let format = match words.value("--format") {
        None | Some("text") => Format::Text,
        Some("json") => Format::Json,
        Some("jsonl") => Format::Jsonl,
        Some("csv") => Format::Csv,
        _ => return misuse("--format takes text, json, jsonl or csv", Some(command)),
    };
    let quiet = words.has("--quiet");
    Ok(Shown { format, quiet })
}

fn check(words: &Words, files: &[OsString]) -> Result<Command, Failure> {
    let command = Some("check");
    let jobs = match words.value("--jobs").map(number) {
        None => thread::available_parallelism().map_or(1, |jobs| jobs.get()),
        Some(Some(jobs @ 1..)) => usize::try_from(jobs).unwrap_or(usize::MAX),
        Some(_) => return misuse("--jobs takes a number of files, from 1 on", command),
    };
    if files.is_empty() {
        return misuse("check takes one file or more", command);
    }
    if files.iter().filter(|file| *file == "-").count() > 1 {
        return misuse("standard input can be read once", command);
    }
    Ok(Command::Check(Check {
        files: files.to_vec(),
        all: words.has("--all"),
        allows_changes: words.has("--allow-changes"),
        is_recursive: words.has("--recursive"),
        jobs: jobs.min(MOST_JOBS),
        shown: shown(words, "check")?,
    }))
}

/// More readers at once than this help nobody.
const MOST_JOBS: usize = 256;

fn rewrite(
    words: &Words,
    from: &OsStr,
    to: Option<&OsString>,
    command: &str,
) -> Result<Rewrite, Failure> {
    Ok(Rewrite {
        from: from.to_os_string(),
        to: to.cloned(),
        all: words.has("--all"),
        is_dry: words.has("--dry-run"),
        shown: shown(words, command)?,
    })
}

fn fix(words: &Words, files: &[OsString]) -> Result<Command, Failure> {
    let instead = match words.value("--bad") {
        None | Some("drop") => Instead::Nothing,
        Some("repeat") => Instead::LastGood,
        _ => return misuse("--bad takes drop or repeat", Some("fix")),
    };
    match files {
        [from, to] => Ok(Command::Fix(
            rewrite(words, from, Some(to), "fix")?,
            instead,
        )),
        _ => misuse("fix takes two files, IN and OUT", Some("fix")),
    }
}

fn reseal(words: &Words, files: &[OsString]) -> Result<Command, Failure> {
    let command = Some("reseal");
    let rewritten = match (files, words.has("--in-place")) {
        ([from, to], false) => rewrite(words, from, Some(to), "reseal"),
        (_, false) => misuse("reseal takes two files, or one with --in-place", command),
        ([file], true) if file == "-" => misuse("standard input has no place", command),
        ([file], true) => rewrite(words, file, None, "reseal"),
        (_, true) => misuse("reseal --in-place takes one file", command),
    };
    rewritten.map(Command::Reseal)
}

fn bits(words: &Words, rest: &[OsString]) -> Result<Command, Failure> {
    let [file, at, width] = rest else {
        return misuse("bits takes a file, a position and a width", Some("bits"));
    };
    let (at, width) = (bit_number(at, "POS")?, bit_number(width, "WIDTH")?);
    let file = file.clone();
    // The core refuses any width above 32, so also the one that a width past its range becomes.
    let width = usize::try_from(width).unwrap_or(usize::MAX);
    let format = shown(words, "bits")?.format;
    Ok(Command::Bits(Span { file, at, width }, format))
}

fn bit_number(word: &OsStr, which: &str) -> Result<u64, Failure> {
    match number(word.to_str().unwrap_or_default()) {
        Some(number) => Ok(number),
        None => {
            let word = said(word);
            let words = format!("{which} is not a number of bits below 2^64: {word}");
            misuse(words, Some("bits"))
        }
    }
}

/// A plain number: `parse` alone would take a plus sign.
fn number(digits: &str) -> Option<u64> {
    let is_plain = digits.bytes().all(|byte| byte.is_ascii_digit());
    digits.parse().ok().filter(|_| is_plain)
}

#[cfg(test)]
mod tests;
