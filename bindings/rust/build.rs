//! Finds the library `cargo_toml`: in the folder that `CARGO_TOML_LIB` names, in the folder `lib` of
//! this package, or by pkg-config.

use std::path::{Path, PathBuf};
use std::process::Command;
use std::{env, process};

/// Tells Cargo to link the library in a folder. Whether it is there, static or shared.
fn links(folder: &Path) -> bool {
    let kind = if folder.join("libcargo_toml.a").is_file() {
        "static"
    } else if folder.join("libcargo_toml.so").is_file() {
        "dylib"
    } else {
        return false;
    };
    println!("cargo:rustc-link-search=native={}", folder.display());
    println!("cargo:rustc-link-lib={kind}=cargo_toml");
    println!("cargo:rerun-if-changed={}", folder.display());
    true
}

/// The folder of the library by pkg-config, if it knows one.
fn installed() -> Option<PathBuf> {
    let words = ["--variable=libdir", "cargo_toml"];
    let said = Command::new("pkg-config").args(words).output().ok()?;
    let folder = String::from_utf8(said.stdout).ok()?;
    Some(PathBuf::from(folder.trim())).filter(|_| said.status.success())
}

fn main() {
    println!("cargo:rerun-if-changed=build.rs");
    println!("cargo:rerun-if-env-changed=CARGO_TOML_LIB");
    // documentation is made without the library
    if env::var_os("DOCS_RS").is_some() {
        return;
    }
    let named = env::var_os("CARGO_TOML_LIB").map(PathBuf::from);
    let is_found = match named {
        Some(folder) => links(&folder),
        None => links(Path::new("lib")) || installed().is_some_and(|folder| links(&folder)),
    };
    if !is_found {
        eprintln!("libcargo_toml.a isn't there: let CARGO_TOML_LIB name the folder that it is in");
        process::exit(1);
    }
}
