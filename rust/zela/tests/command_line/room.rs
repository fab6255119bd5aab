//! A folder for the files of one test, the program run in it, and what it wrote.

use std::fs;
use std::io::{self, Write};
use std::path::{Path, PathBuf};
use std::process::{Command, Output, Stdio};
use zelamodurk::crc;

/// A folder that is gone after the test.
pub struct Room(PathBuf);

impl Drop for Room {
    fn drop(&mut self) {
        let _ = fs::remove_dir_all(&self.0);
    }
}

/// What a run wrote, and its exit status.
#[derive(Debug, PartialEq, Eq)]
pub struct Ran {
    pub status: i32,
    pub out: String,
    pub err: String,
}

impl Room {
    /// An empty folder; the test names it, so that no two share one.
    pub fn of(test: &str) -> Room {
        let folder = Path::new(env!("CARGO_TARGET_TMPDIR")).join(test);
        let _ = fs::remove_dir_all(&folder);
        fs::create_dir_all(&folder).unwrap();
        Room(folder)
    }

    pub fn path(&self, file: &str) -> PathBuf {
        self.0.join(file)
    }

    pub fn put(&self, file: &str, bytes: &[u8]) {
        fs::write(self.path(file), bytes).unwrap();
    }

    pub fn get(&self, file: &str) -> Vec<u8> {
        fs::read(self.path(file)).unwrap()
    }

    /// A pipe with a name.
    pub fn pipe(&self, name: &str) -> PathBuf {
        let made = Command::new("mkfifo").arg(self.path(name)).status();
        assert!(made.unwrap().success());
        self.path(name)
    }

    /// The names of what is in the folder, hidden files too.
    pub fn list(&self) -> Vec<String> {
        let entries = fs::read_dir(&self.0).unwrap();
        let name = |entry: fs::DirEntry| entry.file_name().into_string().unwrap();
        let mut names: Vec<String> = entries.map(|entry| name(entry.unwrap())).collect();
        names.sort();
        names
    }

    /// The program, to be run in the folder with these words.
    pub fn command(&self, words: &[&str]) -> Command {
        let mut command = Command::new(env!("CARGO_BIN_EXE_zela"));
        command.args(words).current_dir(&self.0);
        command
    }

    pub fn run(&self, words: &[&str]) -> Ran {
        self.run_from(Stdio::null(), words)
    }

    /// Runs it with this as standard input.
    pub fn run_from(&self, input: impl Into<Stdio>, words: &[&str]) -> Ran {
        let ran = self.command(words).stdin(input).output();
        Ran::of(ran.unwrap())
    }

    /// Runs it with these bytes as standard input.
    pub fn run_on(&self, input: &[u8], words: &[&str]) -> Ran {
        let mut command = self.command(words);
        command.stdin(Stdio::piped());
        command.stdout(Stdio::piped()).stderr(Stdio::piped());
        let mut child = command.spawn().unwrap();
        child.stdin.take().unwrap().write_all(input).unwrap();
        Ran::of(child.wait_with_output().unwrap())
    }

    /// Runs it with this as standard output.
    pub fn run_into(&self, out: impl Into<Stdio>, words: &[&str]) -> Ran {
        let mut command = self.command(words);
        let ran = command.stdin(Stdio::null()).stdout(out).output();
        Ran::of(ran.unwrap())
    }

    /// Runs a script of the shell in the folder; the program is `$0` there, and the words follow.
    pub fn script(&self, script: &str, words: &[&str]) -> Ran {
        let mut shell = Command::new("sh");
        shell.args(["-c", script, env!("CARGO_BIN_EXE_zela")]);
        let ran = shell.args(words).current_dir(&self.0).output();
        Ran::of(ran.unwrap())
    }

    /// Runs it, and compares all that there is to compare.
    #[track_caller]
    pub fn writes(&self, words: &[&str], status: i32, out: &str, err: &str) {
        self.run(words).is(status, out, err);
    }
}

impl Ran {
    pub fn of(output: Output) -> Ran {
        Ran {
            status: output.status.code().unwrap_or(-1),
            out: String::from_utf8(output.stdout).unwrap(),
            err: String::from_utf8(output.stderr).unwrap(),
        }
    }

    #[track_caller]
    pub fn is(&self, status: i32, out: &str, err: &str) {
        assert_eq!(self.out, out);
        assert_eq!(self.err, err);
        assert_eq!(self.status, status);
    }
}

/// A pipe whose reader has gone.
pub fn gone() -> Stdio {
    let (reader, writer) = io::pipe().unwrap();
    drop(reader);
    writer.into()
}

pub const SAMPLES: &str = concat!(env!("CARGO_MANIFEST_DIR"), "/../../samples");

/// The bytes of a sample.
pub fn sample(name: &str) -> Vec<u8> {
    fs::read(Path::new(SAMPLES).join(name)).unwrap()
}

/// AC-3: 13 frames of 256 bytes and 32 ms.
pub fn ac3() -> Vec<u8> {
    sample("a_mono_48_64k.ac3")
}

/// E-AC-3: 13 frames of 256 bytes and 32 ms.
pub fn eac3() -> Vec<u8> {
    sample("e_mono_48.eac3")
}

/// The bytes with one of them changed.
pub fn wrong(mut bytes: Vec<u8>, at: usize, flip: u8) -> Vec<u8> {
    bytes[at] ^= flip;
    bytes
}

/// An E-AC-3 frame with a good checksum again.
pub fn sealed(mut frame: Vec<u8>) -> Vec<u8> {
    let end = frame.len() - 2;
    let sum = crc::crc16(0, &frame[2..end]);
    frame[end..].copy_from_slice(&sum.to_be_bytes());
    frame
}

/// Bytes that look like nothing, the same each time.
pub fn noise(count: usize) -> Vec<u8> {
    let mut state: u32 = 1;
    let mut next = || {
        state = state.wrapping_mul(1_664_525).wrapping_add(1_013_904_223);
        state.to_be_bytes()[0]
    };
    (0..count).map(|_| next()).collect()
}
