//! The core on a processor that the archives have no code for: they run in a process of their own
//! under the kit's emulator, as `rt` runs programs there, and each call is sent to it
//! (`relay/relay.c`). This serves tests. It is slow, and its times say nothing.

mod bytes;
#[cfg(feature = "cursor")]
mod elements;
#[cfg(feature = "cursor")]
mod slots;

use std::cell::RefCell;
use std::io::{self, BufReader, Read as _, Write};
use std::process::{Child, ChildStdin, ChildStdout, Command, Stdio};

pub use bytes::{
    bits_get, bits_range_eq, bits_range_zero, bits_set, crc16, crc16_zeros, crc_status, probe,
    repair,
};
#[cfg(feature = "cursor")]
pub use elements::{
    check_tiling, close_span, element_at, read_element, read_raw, read_tail, role_is_checksum,
    role_is_drc, role_is_span, span,
};
#[cfg(feature = "cursor")]
pub use slots::{
    aht, allocate, allocate_block, allocate_none, conventional, delta_code, read_delta,
    read_exponents,
};

/// The kit's folder for this machine, and the program: the build script made it.
const TOOLCHAIN: &str = env!("ZELAMODURK_TOOLCHAIN");
const PROGRAM: &str = concat!(env!("OUT_DIR"), "/relay");

/// Bytes, which pass as a pointer and their number.
const BYTES: u8 = 1;
/// Room for a number, or an array, which passes as a pointer alone.
const ROOM: u8 = 2;

/// An argument of a call. What is lent has its kind in `relay.c`, and its bytes as they stand in memory
/// on x86-64.
enum Argument<'a> {
    Number(u64),
    /// Lent for reading.
    Read(u8, &'a [u8]),
    /// Lent, and the call may change it.
    Changed(u8, &'a mut [u8]),
}

use Argument::{Changed, Number, Read};

impl Argument<'_> {
    /// The argument as `relay.c` reads it: its kind, its number or its length, its bytes.
    fn put(&self, request: &mut Vec<u8>) {
        let (kind, bytes): (u8, &[u8]) = match self {
            Number(number) => {
                request.push(0);
                return request.extend(number.to_le_bytes());
            }
            Read(kind, bytes) => (*kind, bytes),
            Changed(kind, bytes) => (*kind, bytes),
        };
        request.push(kind);
        request.extend((bytes.len() as u64).to_le_bytes());
        request.extend_from_slice(bytes);
    }

    /// Takes back what was lent, as it is after the call.
    fn take(&mut self, from: &mut impl io::Read) -> io::Result<()> {
        match self {
            Number(_) => Ok(()),
            Read(_, bytes) => take_unchanged(bytes, from),
            Changed(_, bytes) => from.read_exact(bytes),
        }
    }
}

/// Takes back bytes that a call may only read.
fn take_unchanged(bytes: &[u8], from: &mut impl io::Read) -> io::Result<()> {
    let mut after = vec![0; bytes.len()];
    from.read_exact(&mut after)?;
    if after == bytes {
        return Ok(());
    }
    Err(io::Error::other("bytes lent for reading were written"))
}

/// A position, width or count.
fn size(size: usize) -> Argument<'static> {
    Number(size as u64)
}

/// Room for a number or an array.
fn room(bytes: &mut [u8]) -> Argument<'_> {
    Changed(ROOM, bytes)
}

/// The process that has the archives.
struct Relay {
    child: Child,
    // Closed by `drop` before the child is waited for.
    to: Option<ChildStdin>,
    from: BufReader<ChildStdout>,
}

impl Relay {
    fn start() -> io::Result<Self> {
        let mut child = Command::new(format!("{TOOLCHAIN}/bin/qemu-x86_64"))
            .arg(format!("{TOOLCHAIN}/lib/ld-linux-x86-64.so.2"))
            .arg("--library-path")
            .arg(format!("{TOOLCHAIN}/lib"))
            .arg(PROGRAM)
            .stdin(Stdio::piped())
            .stdout(Stdio::piped())
            .spawn()?;
        let to = child.stdin.take();
        match child.stdout.take() {
            Some(from) => Ok(Relay {
                child,
                to,
                from: BufReader::new(from),
            }),
            None => Err(io::Error::other("no pipe from the emulator")),
        }
    }

    /// Sends a call, and takes back its answer and what was lent to it.
    fn call(&mut self, function: u8, arguments: &mut [Argument]) -> io::Result<u8> {
        let mut request = vec![function, arguments.len() as u8];
        for argument in &*arguments {
            argument.put(&mut request);
        }
        let mut to = self.to.as_ref().ok_or(io::ErrorKind::BrokenPipe)?;
        to.write_all(&request)?;
        let mut answer = [0];
        self.from.read_exact(&mut answer)?;
        for argument in arguments {
            argument.take(&mut self.from)?;
        }
        Ok(answer[0])
    }
}

impl Drop for Relay {
    fn drop(&mut self) {
        drop(self.to.take());
        let _ = self.child.wait();
    }
}

thread_local! {
    /// A process for each thread that calls, from its first call to its end.
    static RELAY: RefCell<Option<Relay>> = const { RefCell::new(None) };
}

/// A call's answer. Without the emulator there is none to give, whatever the input, so this ends the
/// program then, with nothing dropped: a file that is being written stays as it is.
fn call(function: u8, arguments: &mut [Argument]) -> u8 {
    let answered = RELAY.with_borrow_mut(|relay| {
        let relay = match relay {
            Some(relay) => relay,
            None => relay.insert(Relay::start()?),
        };
        relay.call(function, arguments)
    });
    answered.unwrap_or_else(|e| {
        eprintln!("zelamodurk: the kit's emulator failed: {e}");
        std::process::exit(101)
    })
}
