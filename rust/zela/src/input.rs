//! What is read: a file, or standard input.

use crate::outcome::{said, tell_aside, Failure};
use crate::progress::Progress;
use crate::standard::standard;
use std::ffi::OsStr;
use std::fs::File;
use std::io::{self, IsTerminal, Read, Seek, SeekFrom};
use std::path::Path;

/// An open input.
pub struct Input {
    source: File,
    size: Option<u64>,
}

impl Input {
    /// Opens a file, or standard input for `-`.
    pub fn open(file: &OsStr) -> Result<Input, Failure> {
        Input::opened(file).map_err(|e| Failure::io(spoken(file), &e))
    }

    fn opened(file: &OsStr) -> io::Result<Input> {
        if file == "-" {
            if io::stdin().is_terminal() {
                tell_aside(
                    "standard input is the terminal: end it with Ctrl-D, or stop with Ctrl-C",
                );
            }
            let source = standard(io::stdin())?;
            // Some of it may be read already, so that a size would not tell what is left.
            return Ok(Input { source, size: None });
        }
        let source = File::open(file)?;
        let size = size(&source);
        Ok(Input { source, size })
    }

    /// Whether it has an end that is known: not so of a pipe or a device.
    pub fn has_size(&self) -> bool {
        self.size.is_some()
    }

    pub fn size(&self) -> Option<u64> {
        self.size
    }

    /// Shows how far it is read.
    pub fn watched(self, progress: &Progress) -> Watched<'_> {
        let input = self;
        Watched { input, progress }
    }

    /// Passes over so many bytes, or all that there are, and says how many.
    pub fn pass(&mut self, bytes: u64) -> io::Result<u64> {
        match self.size {
            Some(size) => self.source.seek(SeekFrom::Start(bytes.min(size))),
            None => io::copy(&mut self.take(bytes), &mut io::sink()),
        }
    }
}

impl Read for Input {
    fn read(&mut self, room: &mut [u8]) -> io::Result<usize> {
        self.source.read(room)
    }
}

/// An input that is watched while it is read.
pub struct Watched<'a> {
    input: Input,
    progress: &'a Progress,
}

impl Read for Watched<'_> {
    fn read(&mut self, room: &mut [u8]) -> io::Result<usize> {
        let more = self.input.read(room)?;
        self.progress.add(more as u64);
        Ok(more)
    }
}

/// A plain file's size. Those that the system makes up as they are read tell 0.
fn size(file: &File) -> Option<u64> {
    let known = file.metadata().ok()?;
    (known.is_file() && known.len() > 0).then_some(known.len())
}

/// The size of a plain file by its name.
pub fn size_of(file: &OsStr) -> Option<u64> {
    let known = Path::new(file).metadata().ok()?;
    (file != "-" && known.is_file()).then_some(known.len())
}

/// An input's name in a message.
pub fn spoken(file: &OsStr) -> String {
    match file.to_str() {
        Some("-") => "standard input".to_string(),
        _ => said(file),
    }
}
