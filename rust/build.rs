//! Finds the archive: in the folder that `LLOBATELH_ARCHIVE` names, or else where `./archive` puts the one for the target. And takes the numbers
//! of `llobatelh.h`, which lies in the folder that `LLOBATELH_INCLUDE` names, or else in the repository's `include`.

#[path = "build/defines.rs"]
mod defines;

use std::env;
use std::fs;
use std::path::{Path, PathBuf};
use std::process;

fn main() {
    let archive = folder("LLOBATELH_ARCHIVE", || {
        let architecture = env::var_os("CARGO_CFG_TARGET_ARCH").unwrap_or_default();
        Path::new("target/archive").join(architecture)
    });
    link(&archive);
    let header = folder("LLOBATELH_INCLUDE", || "include".into()).join("llobatelh.h");
    if let Err(why) = take_numbers(&header) {
        eprintln!("{}: {why}", header.display());
        process::exit(1);
    }
}

/// The folder that a variable names, or else one of the repository that this crate stands in.
fn folder(variable: &str, beside: impl FnOnce() -> PathBuf) -> PathBuf {
    println!("cargo:rerun-if-env-changed={variable}");
    match env::var_os(variable) {
        Some(folder) => PathBuf::from(folder),
        None => {
            let mut top = PathBuf::from(env::var_os("CARGO_MANIFEST_DIR").unwrap_or_default());
            top.pop();
            top.join(beside())
        }
    }
}

fn link(folder: &Path) {
    let archive = folder.join("libllobatelh.a");
    println!("cargo:rerun-if-changed={}", archive.display());
    if !archive.is_file() {
        println!(
            "cargo:warning=there is no {}: ./archive makes it",
            archive.display()
        );
    }
    println!("cargo:rustc-link-search=native={}", folder.display());
    println!("cargo:rustc-link-lib=static=llobatelh");
}

/// Puts the header's numbers where `src/header.rs` takes them from.
fn take_numbers(header: &Path) -> Result<(), String> {
    println!("cargo:rerun-if-changed={}", header.display());
    let text = fs::read_to_string(header).map_err(|error| error.to_string())?;
    let out = PathBuf::from(env::var_os("OUT_DIR").unwrap_or_default());
    fs::write(out.join("header.rs"), defines::as_rust(&text)?).map_err(|error| error.to_string())
}
