//! Links the archive `libjuplatsk.a`: from the folder that JUPLATSK_LIB names, else as `rt lib` makes it in the folder
//! `crates/juplatsk`, which proves the library first and takes some minutes the first time.

use std::path::{Path, PathBuf};
use std::process::Command;
use std::{env, fs, process};

/// Names the folder of the archive; a relative path starts at this package.
const FOLDER: &str = "JUPLATSK_LIB";

fn main() {
    if let Err(problem) = link() {
        eprintln!("{problem}");
        process::exit(1);
    }
}

fn link() -> Result<(), String> {
    let target = variable("TARGET")?;
    if !target.starts_with("x86_64-") || !target.contains("linux") {
        return Err(format!("juplatsk: the archive is for x86-64 Linux, not for {target}"));
    }
    println!("cargo:rerun-if-env-changed={FOLDER}");
    println!("cargo:rerun-if-changed=build.rs");
    let package = PathBuf::from(variable("CARGO_MANIFEST_DIR")?);
    let (folder, named) = match env::var(FOLDER) {
        Ok(folder) => (package.join(folder), true),
        Err(_) => (staticlib(&package.join(".."))?, false),
    };
    let archive = folder.join("libjuplatsk.a");
    if !archive.is_file() {
        return Err(format!("juplatsk: there is no {}", archive.display()));
    }
    // `rt lib` writes the archive anew each time: there the sources are watched in its place
    if named {
        println!("cargo:rerun-if-changed={}", archive.display());
    }
    println!("cargo:rustc-link-search=native={}", folder.display());
    println!("cargo:rustc-link-lib=static=juplatsk");
    Ok(())
}

/// Proves and makes the archive; the folder that it lies in.
fn staticlib(repository: &Path) -> Result<PathBuf, String> {
    println!("cargo:rerun-if-changed={}", repository.join("crates.txt").display());
    // what is proved, and not the folders `out` beside it, in which `rt` keeps what it made
    let crates = repository.join("crates");
    for entry in fs::read_dir(&crates).map_err(|e| format!("{}: {e}", crates.display()))? {
        let folder = entry.map_err(|e| format!("{}: {e}", crates.display()))?.path();
        for part in ["src", "specs", "proofs"].map(|part| folder.join(part)) {
            if part.is_dir() {
                println!("cargo:rerun-if-changed={}", part.display());
            }
        }
    }
    let folder = repository.join("crates/juplatsk");
    let run = Command::new("rt").arg("lib").current_dir(&folder).output();
    let output = run.map_err(|e| format!("juplatsk: rt lib: {e}\nor name the archive's folder in {FOLDER}"))?;
    if !output.status.success() {
        let said = String::from_utf8_lossy(&output.stdout) + String::from_utf8_lossy(&output.stderr);
        return Err(format!("juplatsk: rt lib does not end well:\n{said}"));
    }
    Ok(folder.join("out"))
}

fn variable(name: &str) -> Result<String, String> {
    env::var(name).map_err(|e| format!("{name}: {e}"))
}
