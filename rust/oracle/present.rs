//! The build script of the crates that compare with the Rust: sets the cfg `oracle` where it is there.
#![forbid(unsafe_code)]

fn main() {
    println!("cargo::rerun-if-changed=../oracle/present.rs");
    println!("cargo::rustc-check-cfg=cfg(oracle)");
    if std::env::var("DEP_ORACLE_PRESENT").as_deref() == Ok("1") {
        println!("cargo::rustc-cfg=oracle");
    }
}
