//! The files that a check is asked for, with those of folders.

use crate::input::spoken;
use crate::outcome::{Failure, Outcome};
use std::ffi::{OsStr, OsString};
use std::fs;
use std::io;
use std::path::{Path, PathBuf};

/// What the names of AC-3 and E-AC-3 files end in.
const ENDINGS: [&str; 3] = ["ac3", "eac3", "ec3"];

/// Something to check, or why it can't be.
pub struct Entry {
    pub file: OsString,
    pub failure: Option<Failure>,
}

impl Entry {
    /// Whether it is a folder without a file to check.
    pub fn is_empty_folder(&self) -> bool {
        let failure = self.failure.as_ref();
        failure.is_some_and(|failure| failure.outcome == Outcome::NoAc3)
    }
}

/// What is to be checked.
#[derive(Default)]
pub struct Listing {
    pub entries: Vec<Entry>,
    /// How many files of folders are passed over, since their names are of no such file.
    pub passed_over: u64,
}

impl Listing {
    /// The files that these words name. A folder's files are taken where that is asked for.
    pub fn of(words: &[OsString], is_recursive: bool) -> Listing {
        let mut listing = Listing::default();
        for word in words {
            let is_folder = word != "-" && Path::new(word).is_dir();
            match (is_folder, is_recursive) {
                (false, _) => listing.add(word.clone()),
                (true, false) => listing.refuse(word, "is a folder: -r checks the files in it"),
                (true, true) => listing.add_folder(word),
            }
        }
        listing
    }

    fn add(&mut self, file: OsString) {
        let failure = None;
        self.entries.push(Entry { file, failure });
    }

    fn fail(&mut self, file: &OsStr, failure: Failure) {
        let (file, failure) = (file.to_os_string(), Some(failure));
        self.entries.push(Entry { file, failure });
    }

    fn refuse(&mut self, file: &OsStr, words: &str) {
        self.fail(file, Failure::of(Outcome::Io, spoken(file), words));
    }

    /// The files below a folder, by name; one without such a file is told.
    fn add_folder(&mut self, folder: &OsStr) {
        let before = self.entries.len();
        self.add_below(folder.into());
        if self.entries.len() == before {
            let words = format!("no file in this folder ends in .{}", ENDINGS.join(", ."));
            let failure = Failure::of(Outcome::NoAc3, spoken(folder), words);
            self.fail(folder, failure);
        }
    }

    /// Folders behind links are not entered, so that a ring of them has an end. A pipe in a folder would be
    /// waited for, so that plain files alone are taken, and links to them.
    fn add_below(&mut self, folder: PathBuf) {
        let mut left = vec![(folder, true)];
        while let Some((path, is_folder)) = left.pop() {
            match is_folder {
                true => match below(&path) {
                    Ok(paths) => left.extend(paths.into_iter().rev()),
                    Err(e) => {
                        self.fail(path.as_os_str(), Failure::io(spoken(path.as_os_str()), &e))
                    }
                },
                // A link that leads nowhere is told where it is read.
                false if path.is_file() || !path.exists() => self.take(path),
                false => self.passed_over += 1,
            }
        }
    }

    fn take(&mut self, path: PathBuf) {
        let ending = path.extension().and_then(OsStr::to_str);
        let is_own = |known: &&str| ending.is_some_and(|own| own.eq_ignore_ascii_case(known));
        match ENDINGS.iter().any(is_own) {
            true => self.add(path.into_os_string()),
            false => self.passed_over += 1,
        }
    }
}

/// What stands in a folder, by name, and whether each is a folder.
fn below(folder: &Path) -> io::Result<Vec<(PathBuf, bool)>> {
    let mut paths = Vec::new();
    for entry in fs::read_dir(folder)? {
        let entry = entry?;
        paths.push((entry.path(), entry.file_type()?.is_dir()));
    }
    paths.sort();
    Ok(paths)
}
