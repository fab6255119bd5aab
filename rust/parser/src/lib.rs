//! The E-AC-3 parser of the Rust that the core was ported from, unchanged and built where it stands, over
//! the drop-in core: this root is the Rust's own, with the core's modules out of `ddpmeta_core`. Where the
//! Rust is missing there is no parser here; `oracle` says so.
#![forbid(unsafe_code)]
// The text is not ours to mend.
#![allow(warnings, clippy::all, clippy::pedantic)]

pub use ddpmeta_core::{alloc, bits, blocks, crc, error, frame, lent, syntax};

// A `#[path]` must be written out, so the build script writes the declarations.
include!(concat!(env!("OUT_DIR"), "/modules.rs"));
