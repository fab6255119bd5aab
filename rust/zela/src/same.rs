//! Whether two names lead to one file.

use crate::standard::standard;
use std::ffi::OsStr;
use std::fs::{self, Metadata};
use std::io;
use std::os::fd::AsFd;
use std::os::unix::fs::{FileTypeExt, MetadataExt};

/// Whether `from` would be overwritten by what is written to `to`.
pub fn are_same(from: &OsStr, to: &OsStr) -> bool {
    match (known(from, io::stdin()), known(to, io::stdout())) {
        (Ok(from), Ok(to)) => place(&from) == place(&to) && gives_back(&from),
        _ => false,
    }
}

/// Whether what is written to `to` goes where standard output goes.
pub fn is_standard_output(to: &OsStr) -> bool {
    let out = known(OsStr::new("-"), io::stdout());
    match (known(to, io::stdout()), out) {
        (Ok(to), Ok(out)) => place(&to) == place(&out),
        _ => to == "-",
    }
}

/// What the system knows of a file, or of a standard stream for `-`.
fn known(file: &OsStr, stream: impl AsFd) -> io::Result<Metadata> {
    match file == "-" {
        true => standard(stream)?.metadata(),
        false => fs::metadata(file),
    }
}

/// Links of either kind lead to the same place.
fn place(known: &Metadata) -> (u64, u64) {
    (known.dev(), known.ino())
}

/// Whether what is written there is read there again: not so of a terminal, the null device or a socket,
/// which may well be both standard input and standard output.
fn gives_back(known: &Metadata) -> bool {
    let kind = known.file_type();
    !kind.is_char_device() && !kind.is_socket()
}
