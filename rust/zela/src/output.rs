//! What is written: a file that takes its place at once when all is there, or a stream.

use crate::outcome::{said, Failure};
use crate::same::is_standard_output;
use crate::standard::standard;
use std::ffi::OsStr;
use std::fs::{self, File, OpenOptions, Permissions};
use std::io::{self, BufWriter, ErrorKind, Write};
use std::os::unix::fs::{OpenOptionsExt, PermissionsExt};
use std::path::{Path, PathBuf};
use std::process;

/// How many names are tried for a draft. One that a killed run left may have the first, since in a container
/// the next run often has the same process number.
const NAMES: u32 = 100;
/// How many links are followed, as many as Linux does.
const LINKS: u32 = 40;
/// What of a mode a new file keeps. Its owner may be another, in whose name nothing of it must run.
const RIGHTS: u32 = 0o777;

/// An output that is begun. Where it is never finished, an old file is still as it was.
pub struct Output {
    writer: BufWriter<File>,
    kind: Kind,
    name: String,
}

/// What is written to.
enum Kind {
    Standard,
    /// A pipe or a device by its name.
    Named,
    Draft(Draft),
}

/// A file beside the one whose place it will take.
struct Draft {
    at: PathBuf,
    place: PathBuf,
    is_placed: bool,
    /// Whether a file was there before.
    replaces: bool,
}

impl Draft {
    fn take_place(&mut self) -> io::Result<()> {
        fs::rename(&self.at, &self.place)?;
        self.is_placed = true;
        Ok(())
    }
}

/// Once a draft has taken its place, its old name may be that of another run's.
impl Drop for Draft {
    fn drop(&mut self) {
        if !self.is_placed {
            let _ = fs::remove_file(&self.at);
        }
    }
}

impl Output {
    /// Begins to write a file or a stream. Standard output is `-`, and any other name that leads to it: were
    /// its file replaced, all else that is written to it would be lost.
    pub fn begin(to: &OsStr) -> Result<Output, Failure> {
        let begun = match is_standard_output(to) {
            true => standard(io::stdout()).map(|out| Output::over(out, Kind::Standard, to)),
            false => open(to),
        };
        begun.map_err(|e| Failure::io(spoken(to), &e))
    }

    /// Begins to replace a plain file.
    pub fn replace(file: &OsStr) -> Result<Output, Failure> {
        replace(file).map_err(|e| Failure::io(said(file), &e))
    }

    /// Whether what is written can't be taken back, and is read by others as it comes.
    pub fn is_stream(&self) -> bool {
        !matches!(self.kind, Kind::Draft(_))
    }

    /// Whether it takes the place of a file that was there.
    pub fn replaces(&self) -> bool {
        matches!(&self.kind, Kind::Draft(draft) if draft.replaces)
    }

    fn over(file: File, kind: Kind, to: &OsStr) -> Output {
        Output {
            writer: BufWriter::new(file),
            kind,
            name: spoken(to),
        }
    }

    fn failed(&self, error: &io::Error) -> Failure {
        match self.kind {
            Kind::Standard => Failure::standard_output(&self.name, error),
            Kind::Named | Kind::Draft(_) => Failure::io(&self.name, error),
        }
    }

    pub fn write(&mut self, bytes: &[u8]) -> Result<(), Failure> {
        let written = self.writer.write_all(bytes);
        written.map_err(|e| self.failed(&e))
    }

    /// All is written: the draft takes its place.
    pub fn finish(mut self) -> Result<(), Failure> {
        let settled = self.settle();
        settled.map_err(|e| self.failed(&e))
    }

    fn settle(&mut self) -> io::Result<()> {
        self.writer.flush()?;
        let Kind::Draft(draft) = &mut self.kind else {
            return Ok(());
        };
        self.writer.get_ref().sync_all()?;
        draft.take_place()
    }
}

fn open(to: &OsStr) -> io::Result<Output> {
    match fs::metadata(to) {
        Ok(old) if old.is_file() => replace(to),
        Err(e) if e.kind() == ErrorKind::NotFound => draft(to, led_to(to), None),
        Err(e) => Err(e),
        // A pipe or a device has no old content to keep, and a folder can't be opened so.
        Ok(_) => {
            let file = OpenOptions::new().write(true).open(to)?;
            Ok(Output::over(file, Kind::Named, to))
        }
    }
}

/// The file that a link leads to is replaced, and not the link.
fn replace(file: &OsStr) -> io::Result<Output> {
    let place = fs::canonicalize(file)?;
    let old = fs::metadata(&place)?;
    let mode = old.permissions().mode() & RIGHTS;
    draft(file, place, Some(Permissions::from_mode(mode)))
}

/// Where a file that is not there yet is to be: past all links, so that they stay.
fn led_to(file: &OsStr) -> PathBuf {
    let mut place = PathBuf::from(file);
    for _ in 0..LINKS {
        let Ok(link) = fs::read_link(&place) else {
            break;
        };
        place.pop();
        place.push(link);
    }
    place
}

/// Begins a file that will take the place. Messages name it as it was named.
fn draft(to: &OsStr, place: PathBuf, permissions: Option<Permissions>) -> io::Result<Output> {
    let (at, file) = beside(&place, &options(permissions.is_some()))?;
    let draft = Draft {
        at,
        place,
        is_placed: false,
        replaces: permissions.is_some(),
    };
    if let Some(permissions) = permissions {
        file.set_permissions(permissions)?;
    }
    Ok(Output::over(file, Kind::Draft(draft), to))
}

/// How a draft is made. Before it has the rights of the file that it replaces, nobody else has any: that file
/// may have been closed to them.
fn options(replaces: bool) -> OpenOptions {
    let mut options = OpenOptions::new();
    options.write(true).create_new(true);
    if replaces {
        options.mode(0o600);
    }
    options
}

/// A new file beside the place, under a name that nothing has.
fn beside(place: &Path, options: &OpenOptions) -> io::Result<(PathBuf, File)> {
    for number in 0..NAMES {
        let name = format!(".zela-{}-{number}.tmp", process::id());
        let at = place.with_file_name(name);
        match options.open(&at) {
            Err(e) if e.kind() == ErrorKind::AlreadyExists => {}
            file => return Ok((at, file?)),
        }
    }
    let words = "the names of drafts beside it are all taken";
    Err(io::Error::new(ErrorKind::AlreadyExists, words))
}

/// An output's name in a message.
pub fn spoken(file: &OsStr) -> String {
    match file.to_str() {
        Some("-") => "standard output".to_string(),
        _ => said(file),
    }
}

#[cfg(test)]
mod tests {
    use super::*;
    use std::env;

    #[test]
    fn a_draft_that_replaces_a_file_is_closed_to_others_at_once() {
        let place = env::temp_dir().join("zela-output-test");
        let (at, file) = beside(&place, &options(true)).unwrap();
        let mode = file.metadata().unwrap().permissions().mode();
        fs::remove_file(at).unwrap();
        assert_eq!(mode & RIGHTS, 0o600);
    }
}
