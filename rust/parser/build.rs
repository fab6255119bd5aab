//! Declares the Rust's parser and its tables.
#![forbid(unsafe_code)]

#[path = "../oracle/declare.rs"]
mod declare;

/// What is not in the drop-in: the parser, and the tables that stay with it.
const MODULES: [&str; 3] = ["bitalloc_tables", "eac3", "tables"];

fn main() -> Result<(), Box<dyn std::error::Error>> {
    println!("cargo::rerun-if-changed=../oracle/declare.rs");
    declare::declare(&MODULES)?;
    Ok(())
}
