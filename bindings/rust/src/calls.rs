//! The calls of the library, from texts to values.

use crate::answers::{DocumentedFeature, Finding};
use crate::error::{Error, Fault};
use crate::sys::{self, Status};
use serde::de::{DeserializeOwned, Error as _};
use serde::Deserialize;
use std::cell::Cell;
use std::collections::hash_map::RandomState;
use std::hash::{BuildHasher, Hasher};
use std::sync::OnceLock;

/// What fits at once, as most answers do, and the most room that a thread keeps for its next call.
const FIRST_ROOM: usize = 1 << 14;
const MOST_ROOM: usize = 1 << 20;

/// What a refusal is as JSON.
#[derive(Deserialize)]
struct Refusal {
    words: String,
    #[serde(default)]
    faults: Vec<Fault>,
}

/// The one list of an answer.
#[derive(Deserialize)]
struct Listed<T> {
    #[serde(alias = "faults", alias = "findings", alias = "features")]
    list: Vec<T>,
}

/// The keys of hashed maps, chosen once for the process.
pub(crate) fn keys() -> (u64, u64) {
    static KEYS: OnceLock<(u64, u64)> = OnceLock::new();
    *KEYS.get_or_init(|| {
        let random = || RandomState::new().build_hasher().finish();
        (random(), random())
    })
}

/// What is made of an answer of the library, or else of its refusal.
pub(crate) fn answered<T>(
    call: impl Fn(&mut Vec<u8>) -> (Status, usize),
    made: impl FnOnce(&str) -> Result<T, serde_json::Error>,
) -> Result<T, Error> {
    thread_local!(static ROOM: Cell<Vec<u8>> = const { Cell::new(Vec::new()) });
    let mut room = ROOM.with(Cell::take);
    room.reserve(FIRST_ROOM);
    let (mut status, mut needed) = call(&mut room);
    while needed > room.len() {
        room.clear();
        room.reserve(needed);
        (status, needed) = call(&mut room);
    }
    let answer = match std::str::from_utf8(&room) {
        Ok(text) if status == sys::DONE => made(text).map_err(Error::Shape),
        Ok(text) => Err(refused(status, text)),
        Err(fault) => Err(Error::Shape(serde_json::Error::custom(fault))),
    };
    room.clear();
    room.shrink_to(MOST_ROOM);
    ROOM.with(|it| it.set(room));
    answer
}

/// Why a call has no answer, by its status.
fn refused(status: Status, text: &str) -> Error {
    if status == sys::OUT_OF_MEMORY {
        return Error::OutOfMemory;
    }
    match serde_json::from_str(text) {
        Ok(Refusal { words, faults }) if status == sys::REFUSED => Error::Refused { words, faults },
        Ok(Refusal { words, .. }) => Error::BadArgument(words),
        Err(fault) => Error::Shape(fault),
    }
}

/// The value that a call answers.
pub(crate) fn value<T: DeserializeOwned>(
    call: impl Fn(&mut Vec<u8>) -> (Status, usize),
) -> Result<T, Error> {
    answered(call, |json| serde_json::from_str(json))
}

/// The version of the library.
pub fn version() -> Result<String, Error> {
    answered(sys::version, |text| Ok(text.to_owned()))
}

/// The manifest that a text is, as any type that serde reads: tables are maps, dates are texts.
/// Nothing is inherited, and no target is added.
pub fn read<M: DeserializeOwned>(text: impl AsRef<[u8]>) -> Result<M, Error> {
    let text = text.as_ref();
    value(|room| sys::manifest(text, room))
}

/// The root of a workspace.
#[derive(Debug, Clone, Copy)]
pub struct Workspace<'a> {
    /// The path of its `Cargo.toml`, which should be absolute.
    pub path: &'a str,
    /// The text of its `Cargo.toml`.
    pub text: &'a [u8],
}

/// The manifest with what it inherits, and with the targets that Cargo finds.
///
/// `paths` are the files of the package, as seen from its folder, which stand in for a listing of
/// it. What is inherited comes from the workspace, unless the manifest has one of its own.
pub fn complete<M: DeserializeOwned>(
    text: impl AsRef<[u8]>,
    paths: impl IntoIterator<Item = impl AsRef<str>>,
    workspace: Option<Workspace<'_>>,
) -> Result<M, Error> {
    let (text, mut listed) = (text.as_ref(), String::new());
    for path in paths {
        listed.push_str(path.as_ref());
        listed.push('\0');
    }
    let (root, path) = workspace.map_or((b"".as_slice(), ""), |it| (it.text, it.path));
    value(|room| sys::complete(text, listed.as_bytes(), root, path.as_bytes(), room))
}

/// What keeps a text from being read as a manifest, in the order of the places.
pub fn check(text: impl AsRef<[u8]>) -> Result<Vec<Fault>, Error> {
    let text = text.as_ref();
    value(|room| sys::check(text, room)).map(|found: Listed<_>| found.list)
}

/// What is amiss with the features of a manifest.
pub fn lint(text: impl AsRef<[u8]>) -> Result<Vec<Finding>, Error> {
    let (text, (key_1, key_2)) = (text.as_ref(), keys());
    value(|room| sys::lint(text, key_1, key_2, room)).map(|found: Listed<_>| found.list)
}

/// The features that users may ask for, with all that each leads to, in byte order.
pub fn document(text: impl AsRef<[u8]>) -> Result<Vec<DocumentedFeature>, Error> {
    let (text, (key_1, key_2)) = (text.as_ref(), keys());
    value(|room| sys::document(text, key_1, key_2, room)).map(|found: Listed<_>| found.list)
}

/// The line of JSON that the index of crates.io has of a crate, from the manifest in its archive.
///
/// The checksum is the archive's SHA-256, 64 hex digits in lower case. Without it the line has no
/// `cksum`, and Cargo doesn't take it.
pub fn index(text: impl AsRef<[u8]>, checksum: Option<&str>) -> Result<String, Error> {
    let (text, (key_1, key_2)) = (text.as_ref(), keys());
    let checksum = checksum.unwrap_or("").as_bytes();
    answered(
        |room| sys::index(text, checksum, key_1, key_2, room),
        |line| Ok(line.to_owned()),
    )
}
