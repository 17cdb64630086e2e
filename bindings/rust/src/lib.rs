//! Reads a `Cargo.toml`, completes it and resolves its features, by a proved library.
//!
//! Each call is a function of what it is given. It reads no file, keeps nothing but the room of its
//! answer, and may be made from several threads at once. What the library answers is proved; this
//! package, which hands it on, is tested.
//!
//! ```
//! let text = "[features]\nfast = ['dep:log']\n\
//!     [dependencies]\nlog = { version = '1', optional = true }\n";
//! let answer = cargo_toml_proved::Resolver::new().parse(text)?;
//! assert!(answer.features["fast"].enables_deps["log"].is_dep_only);
//! # Ok::<(), cargo_toml_proved::Error>(())
//! ```
//!
//! # Errors
//!
//! A call fails where the text isn't a manifest or nests deeper than 128, where another argument
//! isn't one that it takes, where the answer doesn't fit into the type that is asked for, or out of
//! memory. `complete` also refuses a manifest that lacks what it inherits, and `index` a crate that
//! an index doesn't take.
#![deny(missing_docs, unsafe_code)]
#![warn(clippy::pedantic)]
#![allow(clippy::missing_errors_doc)] // those of all calls are told above

mod answers;
mod calls;
mod error;
mod resolver;
#[allow(unsafe_code)]
mod sys;

pub use answers::{DepAction, DocumentedFeature, Enabled, Feature, Features, Finding};
pub use calls::{check, complete, document, index, lint, read, version, Workspace};
pub use error::{Error, Fault};
pub use resolver::{Resolver, MAX_ITEMS};
