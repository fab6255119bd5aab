//! The recorded answers: their files, and the form of a line.
//!
//! ASCII text. A line that begins with `#` is a comment; every other one is a call, what it leaves and
//! answers, and who says so, with one space between fields:
//!
//! ```text
//! NAME FIRST SECOND WORDS ARGUMENT.. = FIRST SECOND WORDS ANSWER.. BY
//! ```
//!
//! [`FORM`] says what the fields are, [`sides`](crate::sides) what each function's numbers are.

use crate::answers::{Answer, By};
use crate::call::Call;
use crate::sides::{self, Side};
use std::path::PathBuf;

/// The files, in the folder `vectors`.
pub const FILES: [&str; 9] = [
    "bits.txt",
    "crc.txt",
    "syntax.txt",
    "alloc.txt",
    "exponents.txt",
    "walks.txt",
    "deltas.txt",
    "blocks.txt",
    "frames.txt",
];

/// What each file says of a line.
pub const FORM: &str = "\
# A line: NAME FIRST SECOND WORDS ARGUMENT.. = FIRST SECOND WORDS ANSWER.. BY
# FIRST and SECOND are the bytes that the call is lent, in hex, WORDS the words of 32 bits, in hex,
# high byte first; - is none. After the = they are as the call leaves them; - is as before. The numbers
# are decimal, block and index two's complement in 16 bits. An answer begins with 0 or the refusal's
# number, the bit that the refusal carries, and the value, 0 where there is none. BY: rust, the Rust
# answers so; panics, it panics there and document 01 decides; differs, it answers something else and
# document 01 decides.
";

/// A file may not be longer.
const FILE: usize = 65_536;

/// A recorded answer.
pub struct Entry {
    /// The call.
    pub call: Call<'static>,
    /// What it leaves and answers.
    pub after: Side,
    /// Who says so.
    pub by: By,
}

impl Entry {
    /// 0, or the refusal's number.
    pub fn number(&self) -> u8 {
        let number = self.after.numbers.first();
        number.map_or(0, |number| *number as u8)
    }
}

/// A file of the folder `vectors` at the project's root.
pub fn path(file: &str) -> PathBuf {
    root().join("vectors").join(file)
}

/// Its copy, where the program `replay` reads it.
pub fn copy(file: &str) -> PathBuf {
    root().join("crates/replay/data").join(file)
}

fn root() -> PathBuf {
    let here = PathBuf::from(env!("CARGO_MANIFEST_DIR"));
    here.join("../..")
}

/// The entries of a file's text.
pub fn entries(text: &str) -> Result<Vec<Entry>, String> {
    text.lines()
        .enumerate()
        .filter(|(_, line)| !line.starts_with('#'))
        .map(|(at, line)| entry(line).map_err(|why| format!("line {}: {why}", at + 1)))
        .collect()
}

/// The entries of all files.
pub fn read() -> Result<Vec<Entry>, String> {
    let mut all = Vec::new();
    for file in FILES {
        let path = path(file);
        let text = std::fs::read_to_string(&path)
            .map_err(|e| format!("cannot read {}: {e}", path.display()))?;
        all.extend(entries(&text).map_err(|why| format!("vectors/{file}: {why}"))?);
    }
    Ok(all)
}

/// The line of an entry.
pub fn line(call: &Call, answer: &Answer, by: By) -> Result<String, String> {
    let after = sides::after(call, answer);
    let line = format!("{call} = {after} {by}");
    if sides::lent(call).fits() && after.fits() {
        return Ok(line);
    }
    Err(format!("too long for a line: {line}"))
}

/// A file's text, if it is not too long.
pub fn file(text: String) -> Result<String, String> {
    if text.len() <= FILE {
        return Ok(text);
    }
    Err(format!("{} bytes are too long for a file", text.len()))
}

fn entry(line: &str) -> Result<Entry, String> {
    let fields: Vec<&str> = line.split(' ').collect();
    let [name, fields @ .., by] = &fields[..] else {
        return Err("a field is missing".to_string());
    };
    let equals = fields.iter().position(|field| *field == "=");
    let (lent, after) = fields.split_at(equals.ok_or("no = is there")?);
    Ok(Entry {
        call: sides::call(name, Side::of_words(lent)?)?,
        after: Side::of_words(&after[1..])?,
        by: decided(by)?,
    })
}

fn decided(word: &str) -> Result<By, String> {
    let known = By::WORDS.iter().find(|(_, name)| *name == word);
    known
        .map(|(by, _)| *by)
        .ok_or_else(|| format!("nobody is named {word:?}"))
}
