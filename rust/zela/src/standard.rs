//! The standard streams.

use std::fs::File;
use std::io;
use std::os::fd::AsFd;

/// A standard stream as a file. That of the library takes one that is not open for it as empty, or as written.
pub fn standard(stream: impl AsFd) -> io::Result<File> {
    stream.as_fd().try_clone_to_owned().map(File::from)
}
