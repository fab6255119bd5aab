//! A check in text: a row for each file, and below it what is bad.

use crate::columns::{cut, row, titles, Column, Side};
use crate::kinds::Kind;
use crate::outcome::{name, typed};
use crate::report::printable;
use crate::sound::kilohertz;
use crate::summary::{State, Summary};
use crate::terminal::Terminal;
use crate::trouble::Bad;
use crate::words::{counted, grouped};
use std::ffi::OsStr;

const COLUMNS: [Column; 8] = [
    ("state", 5, Side::Left),
    ("codec", 6, Side::Left),
    ("layout", 7, Side::Left),
    ("kHz", 6, Side::Right),
    ("kbit/s", 6, Side::Right),
    ("frames", 7, Side::Right),
    ("length", 12, Side::Right),
    ("file", 0, Side::Left),
];
/// What a name has on a terminal at the least, however narrow that is.
const NAME: usize = 17;
/// What stands before a line that belongs to the row above.
const INDENT: &str = "    ";

/// A table that is written row by row.
pub struct Table {
    terminal: Option<Terminal>,
    is_begun: bool,
}

impl Table {
    pub fn new(terminal: Option<Terminal>) -> Table {
        let is_begun = false;
        Table { terminal, is_begun }
    }

    /// The titles, before the first row.
    fn begin(&mut self) -> String {
        match std::mem::replace(&mut self.is_begun, true) {
            true => String::new(),
            false => titles(&COLUMNS),
        }
    }

    /// A place that is told before its file's row, by a line with the file's name where it is the first.
    pub fn place(&mut self, file: &str, bad: &Bad, is_first: bool) -> String {
        match is_first {
            true => format!("{}{}:\n{}", self.begin(), self.shown(file, 1), line(bad)),
            false => line(bad),
        }
    }

    /// Further places are not told before the row.
    pub fn enough() -> String {
        format!("{INDENT}further places are counted, and told with --all alone\n")
    }

    /// A file's row, with what there is to say of it. Its places are left out where they were told before.
    pub fn file(&mut self, summary: &Summary, places_are_told: bool) -> String {
        let before: usize = COLUMNS.iter().map(|(_, width, _)| width + 2).sum();
        let mut cells = cells(summary);
        let name = printable(&name(&summary.file));
        let shown = self.shown(&name, before - 2);
        // Of a file that is not good the whole name must be known.
        let whole = match shown == name || summary.state() == State::Good {
            true => String::new(),
            false => format!("{INDENT}{name}\n"),
        };
        cells.push(shown);
        let row = self.coloured(&row(&COLUMNS, &cells), summary.state());
        self.begin() + &row + &whole + &notes(summary, places_are_told)
    }

    /// A row with its first word in colour, where colours are shown.
    fn coloured(&self, row: &str, state: State) -> String {
        let has_colour = self.terminal.is_some_and(|terminal| terminal.has_colour);
        match row.split_once(' ') {
            Some((word, rest)) if has_colour => {
                format!("\x1b[{}m{word}\x1b[0m {rest}", colour(state))
            }
            _ => row.to_string(),
        }
    }

    /// A name, cut where a terminal has no room for it behind so many columns.
    fn shown(&self, name: &str, before: usize) -> String {
        match self.terminal {
            Some(terminal) => cut(name, terminal.columns.saturating_sub(before).max(NAME)),
            None => name.to_string(),
        }
    }
}

fn line(bad: &Bad) -> String {
    format!("{INDENT}{bad}\n")
}

/// Green, red, and yellow for what is no stream.
fn colour(state: State) -> &'static str {
    match state {
        State::Good => "32",
        State::Bad | State::Unread => "31",
        State::Wrong => "33",
    }
}

/// All cells but the name.
fn cells(summary: &Summary) -> Vec<String> {
    let none = || "-".to_string();
    let formats = &summary.formats;
    let rate = match formats.rate_varies() {
        true => Some("varies".to_string()),
        false => formats.rate().map(kilohertz),
    };
    let bit_rate = match formats.bit_rate_varies() {
        true => Some("varies".to_string()),
        false => summary.bit_rate().map(|rate| grouped((rate + 500) / 1000)),
    };
    let codec = match (summary.ac3, summary.eac3) {
        (1.., 1..) => Some("both"),
        _ => summary.codec(),
    };
    let frames = Some(summary.frames()).filter(|frames| *frames > 0);
    vec![
        summary.state().word().to_string(),
        codec.unwrap_or("-").to_string(),
        formats.layout().unwrap_or_else(none),
        rate.unwrap_or_else(none),
        bit_rate.unwrap_or_else(none),
        frames.map_or_else(none, grouped),
        frames.map_or_else(none, |_| summary.length.to_string()),
    ]
}

/// The lines below a file's row.
fn notes(summary: &Summary, places_are_told: bool) -> String {
    let mut lines = Vec::new();
    if let Some(failure) = &summary.failure {
        let what = if summary.is_wrong {
            "no AC-3 here"
        } else {
            "error"
        };
        lines.push(format!("{what}: {}", failure.words));
    } else if summary.is_wrong {
        let is_empty = summary.bytes == Some(0);
        lines.extend(without_ac3(&summary.file, summary.kind, is_empty));
    }
    if summary.told() > 0 {
        lines.extend(told(summary, places_are_told));
    }
    lines
        .iter()
        .map(|line| format!("{INDENT}{line}\n"))
        .collect()
}

/// What a file without AC-3 is, and what to type.
pub fn without_ac3(file: &OsStr, kind: Option<&Kind>, is_empty: bool) -> Vec<String> {
    let what = match kind {
        Some(kind) => format!("no AC-3 here: this is {}", kind.name),
        None if is_empty => "no AC-3 here: the file is empty".to_string(),
        None => "no AC-3 here: there is no whole frame".to_string(),
    };
    let command = kind.and_then(|kind| kind.advice(&typed(file)));
    let advice = command.map(|command| format!("to get at any AC-3 in it: {command}"));
    [what].into_iter().chain(advice).collect()
}

/// How many places there are, the places, and where they lie.
fn told(summary: &Summary, places_are_told: bool) -> Vec<String> {
    let mut lines = vec![tally(summary)];
    if !places_are_told {
        lines.extend(summary.places.iter().map(Bad::to_string));
    }
    let more = summary.told() - summary.places.len() as u64;
    if more > 0 && !summary.all_are_told {
        lines.push(format!("and {} more, which --all shows", grouped(more)));
    }
    if let Some(bytes) = summary.bytes {
        lines.push(format!("where: [{}]", summary.marks.line(bytes)));
    }
    if summary.is_early {
        let words = "times count whole frames alone: bytes in no frame take none";
        lines.push(words.to_string());
    }
    lines
}

/// How many places of each kind there are.
fn tally(summary: &Summary) -> String {
    let mut kinds = Vec::new();
    if summary.bad_frames > 0 {
        let frames = counted(summary.bad_frames, "frame", "frames");
        kinds.push(format!("bad checksums in {frames}"));
    }
    if summary.gaps > 0 {
        let bytes = counted(summary.skipped, "byte", "bytes");
        let places = counted(summary.gaps, "place", "places");
        kinds.push(format!("{bytes} in no frame at {places}"));
    }
    if summary.changes > 0 {
        kinds.push(counted(
            summary.changes,
            "change of format",
            "changes of format",
        ));
    }
    let places = match (summary.bad(), summary.told()) {
        (0, told) => counted(told, "place", "places"),
        (bad, told) if bad == told => counted(bad, "bad place", "bad places"),
        (bad, told) => {
            let places = counted(told, "place", "places");
            format!("{places}, {} of them bad", grouped(bad))
        }
    };
    format!("{places}: {}", kinds.join(", "))
}
