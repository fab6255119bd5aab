//! What standard output is, and what may be shown there.

use std::env;
use std::io::{self, IsTerminal};
use std::os::fd::AsFd;
use std::process::{Command, Stdio};

/// Columns of a terminal that does not tell.
const USUAL: usize = 80;

/// A terminal that people look at.
#[derive(Clone, Copy, Debug, PartialEq, Eq)]
pub struct Terminal {
    pub columns: usize,
    pub has_colour: bool,
}

impl Terminal {
    /// The terminal of standard output, if it is one.
    pub fn of_output() -> Option<Terminal> {
        io::stdout().is_terminal().then(|| Terminal {
            columns: columns(),
            has_colour: has_colour(),
        })
    }
}

/// By the convention of no-color.org; a dumb terminal has none.
fn has_colour() -> bool {
    let is_set = |name| env::var_os(name).is_some_and(|value| !value.is_empty());
    !is_set("NO_COLOR") && env::var_os("TERM").is_none_or(|kind| kind != "dumb")
}

/// What the user says, or the terminal.
fn columns() -> usize {
    let said = env::var("COLUMNS").ok().and_then(|text| text.parse().ok());
    said.or_else(asked)
        .filter(|columns| *columns > 0)
        .unwrap_or(USUAL)
}

/// The library does not ask a terminal for its size; `stty` does, of its standard input.
fn asked() -> Option<usize> {
    let terminal = io::stdout().as_fd().try_clone_to_owned().ok()?;
    let mut stty = Command::new("stty");
    let told = stty
        .arg("size")
        .stdin(terminal)
        .stderr(Stdio::null())
        .output()
        .ok()?;
    let text = String::from_utf8(told.stdout).ok()?;
    text.split_whitespace().nth(1)?.parse().ok()
}
