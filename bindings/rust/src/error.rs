//! Why a call has no answer.

use serde::Deserialize;
use std::fmt;

/// Something at fault in a text.
#[derive(Debug, Clone, PartialEq, Eq, Deserialize)]
#[non_exhaustive]
pub struct Fault {
    /// The line, from 1 on, of the key or of where the text stops being TOML.
    pub line: usize,
    /// The column there, from 1 on, in characters.
    pub column: usize,
    /// The path of the key, as `dependencies.log.version`. It is empty where the whole text is at
    /// fault.
    pub key: String,
    /// What is wrong.
    pub words: String,
}

/// The place, the key and the words.
impl fmt::Display for Fault {
    fn fmt(&self, f: &mut fmt::Formatter<'_>) -> fmt::Result {
        let colon = if self.key.is_empty() { "" } else { ": " };
        let (key, words) = (&self.key, &self.words);
        write!(f, "{}:{}: {key}{colon}{words}", self.line, self.column)
    }
}

/// Why a call has no answer.
#[derive(Debug)]
#[non_exhaustive]
pub enum Error {
    /// The manifest is refused.
    Refused {
        /// Why, in a line.
        words: String,
        /// What is at fault in its text, as far as that is known.
        faults: Vec<Fault>,
    },
    /// Out of memory.
    OutOfMemory,
    /// An argument isn't one that the call takes; why.
    BadArgument(String),
    /// The answer doesn't fit into the type that was asked for.
    Shape(serde_json::Error),
}

impl Error {
    /// What is at fault in the text, in the order of the places.
    #[must_use]
    pub fn faults(&self) -> &[Fault] {
        match self {
            Error::Refused { faults, .. } => faults,
            _ => &[],
        }
    }
}

impl fmt::Display for Error {
    fn fmt(&self, f: &mut fmt::Formatter<'_>) -> fmt::Result {
        match self {
            Error::Refused { faults, .. } if !faults.is_empty() => {
                let lines: Vec<String> = faults.iter().map(Fault::to_string).collect();
                f.write_str(&lines.join("\n"))
            }
            Error::OutOfMemory => f.write_str("out of memory"),
            Error::Refused { words, .. } | Error::BadArgument(words) => f.write_str(words),
            Error::Shape(fault) => write!(f, "the answer doesn't fit: {fault}"),
        }
    }
}

impl std::error::Error for Error {
    fn source(&self) -> Option<&(dyn std::error::Error + 'static)> {
        match self {
            Error::Shape(fault) => Some(fault),
            _ => None,
        }
    }
}
