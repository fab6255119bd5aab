//! Names modules of the Rust by path, so that they are built where they stand and none is copied. The build
//! scripts of the crates that build them share this.

use std::env;
use std::error::Error;
use std::fmt::Write;
use std::fs;
use std::path::{Path, PathBuf};

/// Another folder than the one beside the project.
const FOLDER: &str = "ZELAMODURK_RUST";

/// Writes the declarations of the modules for the crate that is built, and answers whether all are there.
/// Where one is not, none is declared.
pub fn declare(modules: &[&str]) -> Result<bool, Box<dyn Error>> {
    let folder = folder()?;
    println!("cargo::rerun-if-changed=build.rs");
    println!("cargo::rerun-if-env-changed={FOLDER}");
    println!("cargo::rerun-if-changed={}", folder.display());
    let present = modules.iter().all(|name| file(&folder, name).is_file());
    let text = if present {
        declarations(&folder, modules)?
    } else {
        String::new()
    };
    let out = PathBuf::from(env::var("OUT_DIR")?);
    fs::write(out.join("modules.rs"), text)?;
    Ok(present)
}

fn folder() -> Result<PathBuf, env::VarError> {
    if let Some(given) = env::var_os(FOLDER) {
        return Ok(PathBuf::from(given));
    }
    let here = env::var("CARGO_MANIFEST_DIR")?;
    // This crate, the workspace, the project; the Rust stands beside the project.
    Ok(Path::new(&here).join("../../../shared/docs/src"))
}

fn file(folder: &Path, module: &str) -> PathBuf {
    folder.join(module).with_extension("rs")
}

fn declarations(folder: &Path, modules: &[&str]) -> std::io::Result<String> {
    let mut text = String::new();
    for name in modules {
        let path = file(folder, name).canonicalize()?;
        let _ = writeln!(text, "#[path = {path:?}]\npub mod {name};");
    }
    Ok(text)
}
