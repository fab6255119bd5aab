//! Errors, and what the core's refusals are among them.

use std::fmt;
use zelamodurk::{Refusal, Why};

/// Why something is not taken.
#[derive(Clone, Debug, PartialEq, Eq)]
pub enum Error {
    /// The frame ends before a syntax element: refusal 1.
    Truncated(String),
    /// Syntax that a parser does not model: refusal 5, and what a parser says.
    Unsupported(String),
    /// A value that TS forbids, or a check that fails: every other refusal, and what a parser says.
    Invalid(String),
    /// An edit that can't be made.
    NotSupportedYet(String),
    /// An edit that EMDF protection forbids.
    Protected(String),
    /// A file that can't be read or written.
    Io(String),
}

impl fmt::Display for Error {
    fn fmt(&self, f: &mut fmt::Formatter<'_>) -> fmt::Result {
        let (kind, said) = match self {
            Error::Truncated(said) => ("truncated", said),
            Error::Unsupported(said) => ("unsupported", said),
            Error::Invalid(said) => ("invalid", said),
            Error::NotSupportedYet(said) => ("not supported yet", said),
            Error::Protected(said) => ("protected", said),
            Error::Io(said) => ("I/O", said),
        };
        write!(f, "{kind}: {said}")
    }
}

impl std::error::Error for Error {}

/// What a function answers that may refuse.
pub type Result<T> = std::result::Result<T, Error>;

/// [`Error::Unsupported`].
///
/// # Errors
/// Always.
pub fn unsupported<T>(s: impl Into<String>) -> Result<T> {
    Err(Error::Unsupported(s.into()))
}

/// [`Error::Invalid`].
///
/// # Errors
/// Always.
pub fn invalid<T>(s: impl Into<String>) -> Result<T> {
    Err(Error::Invalid(s.into()))
}

/// The error of a refusal: its text has what was asked for, the refusal's number, bit and words.
#[cold]
pub(crate) fn refused(what: &str, refusal: Refusal) -> Error {
    let said = format!("{what}: {refusal}");
    match refusal.why {
        Why::PastLimit => Error::Truncated(said),
        Why::BadBsid => Error::Unsupported(said),
        _ => Error::Invalid(said),
    }
}

/// A refusal that this crate itself finds, since what it was given can't be handed to the core.
pub(crate) fn unfit(why: Why, bit: usize) -> Refusal {
    Refusal { why, bit }
}

/// The value where the signature has no error.
///
/// # Panics
/// Where it is refused: the message has the refusal's number, bit, words and name.
#[track_caller]
pub(crate) fn taken<T>(what: &str, done: std::result::Result<T, Refusal>) -> T {
    match done {
        Ok(value) => value,
        Err(refusal) => panic!("{what}: {refusal} ({:?})", refusal.why),
    }
}
