//! Declares the Rust's modules.
#![forbid(unsafe_code)]

mod declare;

/// The modules that the core stands beside, and the parser above them. They use each other as `crate::..`.
const MODULES: [&str; 10] = [
    "alloc",
    "bitalloc_tables",
    "bits",
    "blocks",
    "crc",
    "eac3",
    "error",
    "frame",
    "syntax",
    "tables",
];

fn main() -> Result<(), Box<dyn std::error::Error>> {
    println!("cargo::rerun-if-changed=declare.rs");
    let present = declare::declare(&MODULES)?;
    println!("cargo::metadata=present={}", u8::from(present));
    Ok(())
}
