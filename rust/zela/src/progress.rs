//! A progress bar on standard error, where that is a terminal and reading takes long. Several files may be
//! read at once, and share one bar.

use crate::columns::cut;
use crate::words::grouped;
use std::io::{self, IsTerminal, Write};
use std::sync::atomic::{AtomicU64, Ordering};
use std::sync::{Mutex, PoisonError};
use std::time::{Duration, Instant};

/// Before this a run is too short for a bar.
const PATIENCE: Duration = Duration::from_millis(500);
/// The bar is not drawn more often than this.
const PACE: Duration = Duration::from_millis(100);
/// Signs of a full bar. With a name and any size it keeps within 80 columns: a line that goes on below is not
/// wiped out.
const FULL: u64 = 20;
/// Columns of a name that are shown.
const NAME: usize = 24;

pub struct Progress {
    is_shown: bool,
    name: String,
    size: Option<u64>,
    read: AtomicU64,
    bar: Mutex<Bar>,
}

struct Bar {
    next: Instant,
    is_drawn: bool,
}

impl Progress {
    /// The bar of what is now begun, by a name and how many bytes there are to read; it is never shown where
    /// standard error is no terminal, or all is to be quiet.
    pub fn new(name: String, size: Option<u64>, is_quiet: bool) -> Progress {
        let next = Instant::now() + PATIENCE;
        Progress {
            is_shown: !is_quiet && io::stderr().is_terminal(),
            name,
            size,
            read: AtomicU64::new(0),
            bar: Mutex::new(Bar {
                next,
                is_drawn: false,
            }),
        }
    }

    /// So many bytes more are read: draws the bar, where it is time to.
    pub fn add(&self, bytes: u64) {
        if !self.is_shown {
            return;
        }
        let read = self.read.fetch_add(bytes, Ordering::Relaxed) + bytes;
        // Whoever finds the bar in use leaves it to the one that uses it.
        let Ok(mut bar) = self.bar.try_lock() else {
            return;
        };
        let now = Instant::now();
        if now < bar.next {
            return;
        }
        bar.next = now + PACE;
        bar.is_drawn = true;
        put(&format!("\r{}\x1b[K", line(&self.name, read, self.size)));
    }

    /// Writes something else, with the line to itself.
    pub fn around<T>(&self, write: impl FnOnce() -> T) -> T {
        let mut bar = self.bar.lock().unwrap_or_else(PoisonError::into_inner);
        bar.wipe();
        write()
    }
}

impl Bar {
    fn wipe(&mut self) {
        if self.is_drawn {
            put("\r\x1b[K");
            self.is_drawn = false;
        }
    }
}

/// The bar is wiped out when all is done, so that what follows has the line to itself.
impl Drop for Progress {
    fn drop(&mut self) {
        let bar = self.bar.get_mut();
        bar.unwrap_or_else(PoisonError::into_inner).wipe();
    }
}

/// A terminal that is gone needs no bar.
fn put(text: &str) {
    let mut err = io::stderr();
    let _ = err.write_all(text.as_bytes()).and_then(|()| err.flush());
}

fn line(name: &str, read: u64, size: Option<u64>) -> String {
    let name = cut(name, NAME);
    let Some(size) = size else {
        return format!("{name}  {}", megabytes(read));
    };
    // A file that grows while it is read is never more than done.
    let part = |of: u64| u128::from(read.min(size)) * u128::from(of) / u128::from(size.max(1));
    let done = usize::try_from(part(FULL)).unwrap_or_default();
    let rest = (FULL as usize).saturating_sub(done);
    let (percent, total) = (part(100), megabytes(size));
    let bar = "#".repeat(done) + &".".repeat(rest);
    format!("{name}  [{bar}] {percent:3}% of {total}")
}

fn megabytes(bytes: u64) -> String {
    format!("{} MB", grouped(bytes / 1_000_000))
}

#[cfg(test)]
mod tests {
    use super::*;
    use crate::columns::columns;

    #[test]
    fn a_bar_is_as_full_as_the_file_is_read() {
        let half = "a.ac3  [##########..........]  50% of 20 MB";
        assert_eq!(line("a.ac3", 10_000_000, Some(20_000_000)), half);
        let done = "a.ac3  [####################] 100% of 20 MB";
        assert_eq!(line("a.ac3", 30_000_000, Some(20_000_000)), done);
        let none = "a.ac3  [....................]   0% of 18,446,744,073,709 MB";
        assert_eq!(line("a.ac3", 0, Some(u64::MAX)), none);
    }

    #[test]
    fn without_a_size_the_bytes_are_told() {
        assert_eq!(
            line("standard input", 4_200_000, None),
            "standard input  4 MB"
        );
    }

    #[test]
    fn a_line_is_narrower_than_a_terminal() {
        for name in ["b".repeat(99), "音".repeat(99)] {
            for size in [None, Some(u64::MAX)] {
                for read in [0, u64::MAX] {
                    let line = line(&name, read, size);
                    assert!(columns(&line) < 80, "{line}");
                }
            }
        }
    }
}
