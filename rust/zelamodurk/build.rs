//! Builds the archives of the proved core with `rt lib`, and links them. On a machine that is not
//! x86-64 it makes a program of them for the kit's emulator instead (src/relay.rs). Archives that are
//! there already, in the folder that `ZELAMODURK_ARCHIVES` names, are linked as they are.
#![forbid(unsafe_code)]

use std::env;
use std::fs::{self, File};
use std::path::{Path, PathBuf};
use std::process::Command;

/// The archive whose functions are over bytes alone: `lib` and this name and `.a`. The crate that `rt lib`
/// makes it of has this name and `_c`.
const BYTES: &str = "capi_bytes";
/// The archive of all other functions.
const CURSOR: &str = "capi";
/// The one target that the archives have code for.
const TARGET: &str = "x86_64-unknown-linux-gnu";
/// The variable that names a folder of archives to link, on a machine without the kit.
const READY: &str = "ZELAMODURK_ARCHIVES";

fn main() {
    if let Err(why) = build() {
        // Cargo fails the build for these, and prints nothing else with them.
        for line in why.lines() {
            println!("cargo::error={line}");
        }
    }
}

fn build() -> Result<(), String> {
    println!("cargo::rustc-check-cfg=cfg(linked)");
    println!("cargo::rerun-if-env-changed={READY}");
    match env::var_os(READY) {
        Some(folder) => link_ready(Path::new(&folder), crates()),
        None => build_archives(crates()),
    }
}

fn build_archives(crates: &[&str]) -> Result<(), String> {
    let root = project_root()?;
    watch(&root)?;
    let (arch, os) = (set("CARGO_CFG_TARGET_ARCH")?, set("CARGO_CFG_TARGET_OS")?);
    let kit = if arch == "x86_64" && os == "linux" {
        None
    } else {
        Some(Kit::for_machine(&arch, &os)?)
    };
    let out = PathBuf::from(set("OUT_DIR")?);
    let archives = archives(&root, &out, crates)?;
    match kit {
        None => link(&out, crates),
        Some(kit) => kit.relay(&root, &out, &archives)?,
    }
    Ok(())
}

/// Whether the crate is built with all that reads by a cursor or allocates.
fn has_cursor() -> bool {
    env::var_os("CARGO_FEATURE_CURSOR").is_some()
}

/// The archives that this build needs. `rt` proves all that they stand on, so no other is built.
fn crates() -> &'static [&'static str] {
    if has_cursor() {
        &[BYTES, CURSOR]
    } else {
        &[BYTES]
    }
}

/// A variable that cargo sets.
fn set(name: &str) -> Result<String, String> {
    env::var(name).map_err(|e| format!("{name}: {e}"))
}

/// The folder with crates.txt: two levels up from this crate.
fn project_root() -> Result<PathBuf, String> {
    let root = Path::new(&set("CARGO_MANIFEST_DIR")?).join("../..");
    if root.join("crates.txt").is_file() {
        return Ok(root);
    }
    let at = root.display();
    Err(format!(
        "no crates.txt in {at}: the archives are built from the project around this crate"
    ))
}

/// Names everything that the archives are made from, so that they are made anew where that changes.
fn watch(root: &Path) -> Result<(), String> {
    for file in ["build.rs", "relay"] {
        println!("cargo::rerun-if-changed={file}");
    }
    for file in ["crates.txt", "include"] {
        println!("cargo::rerun-if-changed={}", root.join(file).display());
    }
    let crates = root.join("crates");
    let listed = fs::read_dir(&crates).map_err(|e| format!("cannot read crates/: {e}"))?;
    for entry in listed.flatten() {
        for part in ["src", "specs", "proofs"] {
            let folder = entry.path().join(part);
            if folder.is_dir() {
                println!("cargo::rerun-if-changed={}", folder.display());
            }
        }
    }
    Ok(())
}

/// Has `rt` write the archives, each in its crate's folder out/, and copies them to `out`.
fn archives(root: &Path, out: &Path, crates: &[&str]) -> Result<Vec<PathBuf>, String> {
    // Builds into several target folders share the crates' folders out/: one at a time. A file system
    // that locks nothing is no reason to fail.
    let turn = File::open(root.join("crates.txt")).map_err(|e| format!("crates.txt: {e}"))?;
    let _ = turn.lock();
    let made = crates.iter().map(|name| archive(root, out, name));
    made.collect()
}

/// One archive, and its copy: a later `rt ci` removes what is in out/, and this build's output must still
/// link then.
fn archive(root: &Path, out: &Path, name: &str) -> Result<PathBuf, String> {
    let folder = format!("crates/{name}_c");
    run(Command::new("rt")
        .arg("lib")
        .current_dir(root.join(&folder)))?;
    let made = format!("{folder}/out/lib{name}_c.a");
    let kept = out.join(format!("lib{name}.a"));
    fs::copy(root.join(&made), &kept).map_err(|e| format!("rt left no archive at {made}: {e}"))?;
    Ok(kept)
}

/// Links the archives of a folder that somebody made for this target.
fn link_ready(folder: &Path, crates: &[&str]) -> Result<(), String> {
    for name in crates {
        let archive = folder.join(format!("lib{name}.a"));
        if !(archive.is_absolute() && archive.is_file()) {
            let at = archive.display();
            return Err(format!(
                "{READY} must name a folder by its whole path, with the archives in it; there is no {at}"
            ));
        }
        println!("cargo::rerun-if-changed={}", archive.display());
    }
    link(folder, crates);
    Ok(())
}

fn link(folder: &Path, crates: &[&str]) {
    println!("cargo::rustc-cfg=linked");
    println!("cargo::rustc-link-search=native={}", folder.display());
    for name in crates {
        println!("cargo::rustc-link-lib=static={name}");
    }
}

/// The parts of the kit that make and run x86-64 programs on this machine.
struct Kit {
    toolchain: PathBuf,
    linker: PathBuf,
}

impl Kit {
    /// The kit of a machine that emulates x86-64, found beside the guide that `rt doc` names.
    fn for_machine(arch: &str, os: &str) -> Result<Self, String> {
        let guide = run(Command::new("rt").arg("doc"))?;
        let home = Path::new(guide.trim()).parent();
        let own = home.unwrap_or(Path::new("")).join("on").join(arch);
        let kit = Kit {
            toolchain: own.join("toolchain"),
            linker: own.join("bin/rattle-link"),
        };
        if os == "linux" && kit.toolchain.join("bin/qemu-x86_64").is_file() {
            return Ok(kit);
        }
        Err(format!(
            "the archives of the proved core are for x86_64 Linux alone; this build is for {arch} {os}, and the kit has no emulator for it"
        ))
    }

    /// Makes the program that src/relay.rs runs.
    fn relay(&self, root: &Path, out: &Path, archives: &[PathBuf]) -> Result<(), String> {
        let object = out.join("relay.o");
        run(Command::new(self.toolchain.join("bin/clang"))
            .args([
                "-target", TARGET, "-std=c99", "-O2", "-fPIE", "-Wall", "-Wextra", "-Werror",
            ])
            .args(has_cursor().then_some("-DZELA_CURSOR"))
            .args(["-nostdinc", "-I", "relay/include", "-I"])
            .arg(root.join("include"))
            .args(["-c", "relay/relay.c", "-o"])
            .arg(&object))?;
        run(Command::new(&self.linker)
            .args(["--target", TARGET, "--toolchain"])
            .arg(&self.toolchain)
            .arg("-o")
            .arg(out.join("relay"))
            .arg(&object)
            .args(archives))?;
        let toolchain = self.toolchain.display();
        println!("cargo::rustc-env=ZELAMODURK_TOOLCHAIN={toolchain}");
        Ok(())
    }
}

/// Runs a program of the kit and hands over what it printed, or says what went wrong.
fn run(command: &mut Command) -> Result<String, String> {
    let name = command.get_program().to_string_lossy().into_owned();
    let ran = command.output().map_err(|e| match name.as_str() {
        "rt" => format!(
            "cannot run `rt` ({e}): the Rattle kit's `rt` must be on PATH to build the archives"
        ),
        _ => format!("cannot run the kit's {name}: {e}"),
    })?;
    if ran.status.success() {
        return Ok(String::from_utf8_lossy(&ran.stdout).into_owned());
    }
    let said = [ran.stderr, ran.stdout].concat();
    let (status, end) = (ran.status, last_lines(&String::from_utf8_lossy(&said), 12));
    Err(format!(
        "{name} failed ({status}); it said at the end:\n{end}"
    ))
}

/// The end of what a program said without what went well, each line cut: the prover's errors can run
/// to thousands of characters.
fn last_lines(said: &str, count: usize) -> String {
    let well = |line: &&str| {
        let loads = ["library ", "statements ", "axioms ", "checked "];
        line.ends_with(": proved") || loads.iter().any(|word| line.starts_with(word))
    };
    let lines: Vec<&str> = said.lines().filter(|line| !well(line)).collect();
    lines[lines.len().saturating_sub(count)..]
        .iter()
        .map(|line| line.chars().take(300).collect::<String>())
        .collect::<Vec<_>>()
        .join("\n")
}
