//! Fills the original's own `Manifest` by the proved reader and completion, and compares it with
//! what the original reads and completes: `filling FILE ..` prints a line for each manifest.

use cargo_toml::{AbstractFilesystem, Manifest, Value};
use std::collections::HashSet;
use std::io;

/// The files of a small package.
const PATHS: [&str; 5] = [
    "build.rs",
    "src/lib.rs",
    "src/bin/tool.rs",
    "examples/show/main.rs",
    "tests/all.rs",
];

/// These files, as the original asks for them.
struct Listing;

impl AbstractFilesystem for Listing {
    fn file_names_in(&self, folder: &str) -> io::Result<HashSet<Box<str>>> {
        let inside = PATHS.iter().filter_map(|path| match folder {
            "" | "." => Some(*path),
            _ => path.strip_prefix(folder)?.strip_prefix('/'),
        });
        let names = inside.filter_map(|path| path.split('/').next());
        let found: HashSet<Box<str>> = names.map(Into::into).collect();
        if found.is_empty() {
            return Err(io::ErrorKind::NotFound.into());
        }
        Ok(found)
    }
}

/// What is inherited equals nothing, so the texts of the two are compared, without the mark of an
/// inherited dependency, which serde skips.
fn shown(manifest: &Manifest) -> String {
    format!("{manifest:?}").replace("inherited: true", "inherited: false")
}

fn completed(text: &[u8]) -> Option<Manifest> {
    let mut manifest = Manifest::from_slice(text).ok()?;
    manifest
        .complete_from_abstract_filesystem::<Value, _>(Listing, None)
        .ok()?;
    Some(manifest)
}

fn verdict(ours: Option<Manifest>, theirs: Option<Manifest>) -> &'static str {
    match (ours.as_ref().map(shown), theirs.as_ref().map(shown)) {
        (Some(ours), Some(theirs)) if ours == theirs => "same",
        (Some(_), Some(_)) => "DIFFER",
        (None, None) => "refused",
        (Some(_), None) => "taken here",
        (None, Some(_)) => "refused here",
    }
}

fn main() -> io::Result<()> {
    for file in std::env::args().skip(1) {
        let text = std::fs::read(&file)?;
        let read = cargo_toml_proved::read(&text).ok();
        let full = cargo_toml_proved::complete(&text, PATHS, None).ok();
        let of_original = Manifest::from_slice(&text).ok();
        println!("read: {} | {file}", verdict(read, of_original));
        println!("complete: {} | {file}", verdict(full, completed(&text)));
    }
    Ok(())
}
