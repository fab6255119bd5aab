//! The Rust that the core was ported from (saindriches/ddpmeta at 7e6cb39a55), built unchanged out
//! of the folder where it stands: `../shared/docs/src` beside the project, or what the environment
//! variable `ZELAMODURK_RUST` names. Where that folder is missing this crate is empty, and says so
//! to the crates that depend on it.
#![forbid(unsafe_code)]
// The text is not ours to mend.
#![allow(warnings, clippy::all, clippy::pedantic)]

// A `#[path]` must be written out, so the build script writes the declarations.
include!(concat!(env!("OUT_DIR"), "/modules.rs"));
