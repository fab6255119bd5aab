//! What the Rust does with a call. The one module that needs it.

use crate::answers::Answer;

/// Whether the Rust was there when this was built.
pub const PRESENT: bool = cfg!(oracle);

/// Names' numbers, each with the text that stands for it in the Rust.
pub const NAMES: [(u32, &str); 9] = [
    (0, "the smallest number"),
    (1, "exps[ch][0]"),
    (32, "auxbits"),
    (34, "auxdatae"),
    (37, "crc2"),
    (255, "the core's last number"),
    (256, "a caller's first number"),
    (0x8000_0000, "the top bit"),
    (u32::MAX, "the largest number"),
];

/// The other names that the core itself logs, with the Rust's texts.
pub const LOGGED: [(u32, &str); 16] = [
    (2, "exps[ch]"),
    (3, "cplabsexp"),
    (4, "cplexps"),
    (5, "lfeexps[0]"),
    (6, "lfeexps"),
    (16, "deltnseg"),
    (17, "deltoffst"),
    (18, "deltlen"),
    (19, "deltba"),
    (20, "cpldeltnseg"),
    (21, "cpldeltoffst"),
    (22, "cpldeltlen"),
    (23, "cpldeltba"),
    (33, "auxdatal"),
    (35, "crcrsv"),
    (36, "encinfo"),
];

/// What the Rust does with a call.
#[derive(Clone, Debug, PartialEq, Eq)]
pub struct Asked {
    /// It panics; the answer's number, bit and value say nothing then.
    pub panicked: bool,
    /// What it answers and leaves, in the core's terms. It leaves something also where it panics.
    pub answer: Answer,
    /// The position and width of its last field, which may be too large for the words of a log.
    pub last: Option<(usize, usize)>,
}

#[cfg(oracle)]
mod block;
#[cfg(oracle)]
mod channel;
#[cfg(oracle)]
mod cursor;
#[cfg(oracle)]
mod frame;
#[cfg(oracle)]
mod reading;
#[cfg(oracle)]
mod whole;

#[cfg(oracle)]
mod there {
    use super::{block, channel, cursor, frame, quiet, reading, whole, Asked};
    use crate::answers::Answer;
    use crate::call::Call;
    use crate::rule;
    use crate::whole::Told;
    use oracle::{bits, crc};

    /// What the Rust does with a call, or none where it is not there.
    pub fn ask(call: &Call) -> Option<Asked> {
        match call {
            Call::Allocate(given) => return Some(channel::ask(given)),
            Call::AllocateBlock(given) => return Some(block::ask(given)),
            _ => {}
        }
        if let Some(asked) = reading::ask(call) {
            return Some(asked);
        }
        if let Some(asked) = frame::ask(call).or_else(|| cursor::ask(call)) {
            return Some(asked);
        }
        let mut after = match call {
            Call::Set { bytes, .. } => bytes.to_vec(),
            _ => Vec::new(),
        };
        let value = quiet::caught(|| value(call, &mut after));
        Some(Asked {
            panicked: value.is_none(),
            answer: Answer::taken(value.unwrap_or(0), after),
            last: None,
        })
    }

    /// What the Rust's parser tells of a frame over its own modules and over the drop-in core, or none where it
    /// is not there.
    pub fn parsed(frame: &[u8]) -> Option<[Told; 2]> {
        Some([whole::original(frame), whole::drop_in(frame)])
    }

    /// What it tells over the drop-in core alone.
    pub fn over_drop_in(frame: &[u8]) -> Option<Told> {
        Some(whole::drop_in(frame))
    }

    /// The value of a function of bits or crc.
    fn value(call: &Call, after: &mut [u8]) -> u32 {
        match call {
            Call::Get { bytes, pos, n } => bits::get(bytes, *pos, *n),
            Call::Set { pos, n, value, .. } => {
                bits::set(after, *pos, *n, *value);
                0
            }
            Call::RangeEq { x, a, y, b, n } => u32::from(bits::range_eq(x, *a, y, *b, *n)),
            Call::RangeZero { x, a, n } => u32::from(bits::range_zero(x, *a, *n)),
            Call::Crc16 { init, bytes } => u32::from(crc::crc16(*init, bytes)),
            // The Rust has no run of zeros without a buffer: it hands a buffer of zeros over.
            Call::Zeros { init, n } => u32::from(crc::crc16(*init, &vec![0; rule::run(*n)])),
            _ => 0,
        }
    }
}

#[cfg(oracle)]
pub use block::lengths;
#[cfg(oracle)]
pub use channel::{pointers_by, tables};
#[cfg(oracle)]
pub use cursor::{index, kinds, tiles};
#[cfg(oracle)]
pub use there::{ask, over_drop_in, parsed};
#[cfg(oracle)]
pub use whole::lend;

#[cfg(not(oracle))]
mod absent {
    use super::Asked;
    use crate::call::{Allocation, Block, Call};
    use crate::whole::Told;
    use zelamodurk::blocks::SLOTS;
    use zelamodurk::syntax::Role;

    /// What the Rust does with a call, or none where it is not there.
    pub fn ask(_: &Call) -> Option<Asked> {
        None
    }

    /// What the Rust's parser tells of a frame over both cores, or none where it is not there.
    pub fn parsed(_: &[u8]) -> Option<[Told; 2]> {
        None
    }

    /// What it tells over the drop-in core alone.
    pub fn over_drop_in(_: &[u8]) -> Option<Told> {
        None
    }

    /// Lends the Rust's tables to the drop-in core, where they are there.
    pub fn lend() -> Result<(), String> {
        Ok(())
    }

    /// What the Rust says of elements with these positions and widths, or none where it is not there.
    pub fn tiles(_: &[(usize, usize)], _: usize) -> Option<Asked> {
        None
    }

    /// The index that the Rust logs for one that is handed in, or none where it is not there.
    pub fn index(_: usize) -> Option<i16> {
        None
    }

    /// Whether a role is of dynamic range control, a checksum, a span; none where the Rust is not there.
    pub fn kinds(_: Role) -> Option<[bool; 3]> {
        None
    }

    /// The Rust's pointers with other exponents; none where it panics, or is not there.
    pub fn pointers_by(_: &Allocation, _: &[i16]) -> Option<Vec<u8>> {
        None
    }

    /// How many pointers the Rust answers for each slot; none where it panics or refuses, or is not there.
    pub fn lengths(_: &Block) -> Option<[usize; SLOTS]> {
        None
    }

    /// Tables that are fit, where the Rust's HEARING and LOG_ADD are not there.
    pub fn tables() -> (Vec<u16>, Vec<u8>) {
        (vec![0; 150], vec![0; 256])
    }
}

#[cfg(not(oracle))]
pub use absent::{
    ask, index, kinds, lend, lengths, over_drop_in, parsed, pointers_by, tables, tiles,
};

/// Panics caught, and not printed: the Rust's are what is looked for.
#[cfg(oracle)]
mod quiet {
    use std::cell::Cell;
    use std::panic::{catch_unwind, set_hook, take_hook, AssertUnwindSafe};
    use std::sync::Once;

    thread_local! {
        static SILENT: Cell<bool> = const { Cell::new(false) };
    }

    /// Has the panic hook say nothing on a thread that is silent; the tests' threads share the hook.
    fn install() {
        static ONCE: Once = Once::new();
        ONCE.call_once(|| {
            let usual = take_hook();
            set_hook(Box::new(move |info| {
                if !SILENT.get() {
                    usual(info);
                }
            }));
        });
    }

    /// What `call` answers, or none where it panics.
    pub fn caught<T>(call: impl FnOnce() -> T) -> Option<T> {
        install();
        SILENT.set(true);
        let answer = catch_unwind(AssertUnwindSafe(call));
        SILENT.set(false);
        answer.ok()
    }
}
