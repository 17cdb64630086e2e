//! From a manifest to its features.

use crate::answers::Features;
use crate::calls::{keys, value};
use crate::error::Error;
use crate::sys;
use std::fmt;

/// How many features, texts of one, and keys of a table of dependencies count, unless
/// [`Resolver::max_items`] says otherwise.
pub const MAX_ITEMS: u32 = 2048;

/// Which hidden names are kept.
type Filter<'a> = Box<dyn Fn(&str) -> bool + 'a>;

/// Resolves the features of manifests. Those whose names begin with `_` are removed, and what they
/// turn on is given to those that turn them on.
#[derive(Default)]
pub struct Resolver<'a> {
    max_items: Option<u32>,
    keep: Option<Filter<'a>>,
}

impl fmt::Debug for Resolver<'_> {
    fn fmt(&self, f: &mut fmt::Formatter<'_>) -> fmt::Result {
        write!(f, "Resolver {{ max_items: {:?}, .. }}", self.max_items)
    }
}

impl<'a> Resolver<'a> {
    /// One with the usual limit, which keeps no hidden feature.
    #[must_use]
    pub fn new() -> Resolver<'a> {
        Resolver::default()
    }

    /// The same with another limit, from 1 on.
    #[must_use]
    pub fn max_items(mut self, max_items: u32) -> Resolver<'a> {
        self.max_items = Some(max_items);
        self
    }

    /// The same with a filter, which is asked for each hidden name whether it is kept. It should
    /// give a name the same answer each time.
    #[must_use]
    pub fn keep(mut self, keep: impl Fn(&str) -> bool + 'a) -> Resolver<'a> {
        self.keep = Some(Box::new(keep));
        self
    }

    /// The features of the manifest that a text is, as it is written: nothing is inherited.
    ///
    /// With a filter the library is asked twice where the filter keeps a name.
    pub fn parse(&self, text: impl AsRef<[u8]>) -> Result<Features, Error> {
        let text = text.as_ref();
        let all = self.resolved(text, "")?;
        let hidden = all.hidden_features.keys().map(String::as_str);
        let is_kept = |name: &&str| self.keep.as_ref().is_some_and(|keep| keep(name));
        let kept: Vec<&str> = hidden.filter(is_kept).collect();
        if kept.is_empty() {
            return Ok(all);
        }
        self.resolved(text, &kept.join("\n"))
    }

    fn resolved(&self, text: &[u8], kept: &str) -> Result<Features, Error> {
        let (limit, (key_1, key_2)) = (u64::from(self.max_items.unwrap_or(MAX_ITEMS)), keys());
        let kept = kept.as_bytes();
        let found = value(|room| sys::features(text, kept, limit, key_1, key_2, room));
        found.map(Features::with_names)
    }
}
