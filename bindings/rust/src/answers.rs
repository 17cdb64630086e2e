//! What the answers hold.

use serde::Deserialize;
use std::collections::{BTreeMap, BTreeSet};

/// What a feature does with a dependency.
#[derive(Debug, Clone, Default, PartialEq, Eq, Deserialize)]
#[non_exhaustive]
pub struct DepAction {
    /// Whether it waits until something else turns the dependency on, as `log?/std` does.
    #[serde(rename = "conditional")]
    pub is_conditional: bool,
    /// Whether it stands for the dependency alone, and not for its feature, as `dep:log` does.
    #[serde(rename = "dep_only")]
    pub is_dep_only: bool,
    /// The dependency's features that are asked for.
    #[serde(rename = "features")]
    pub dep_features: BTreeSet<String>,
}

/// A feature, once hidden ones are removed.
#[derive(Debug, Clone, PartialEq, Eq, Deserialize)]
#[non_exhaustive]
pub struct Feature {
    /// Its name.
    #[serde(skip)]
    pub key: String,
    /// What it does with dependencies, by their keys.
    #[serde(rename = "dependencies")]
    pub enables_deps: BTreeMap<String, DepAction>,
    /// The features that it turns on directly.
    #[serde(rename = "names")]
    pub enables_features: BTreeSet<String>,
    /// The features that turn it on directly.
    pub enabled_by: BTreeSet<String>,
    /// The binaries that require it, in the manifest's order.
    #[serde(rename = "binaries")]
    pub required_by_bins: Vec<String>,
    /// Whether the table `[features]` lists it. Otherwise an optional dependency implies it.
    #[serde(rename = "listed")]
    pub explicit: bool,
    /// False where its table says `public = false`.
    pub public: bool,
    /// What its table says of it under `doc`.
    #[serde(rename = "text")]
    pub doc: Option<String>,
}

impl Feature {
    /// Whether another feature turns it on.
    #[must_use]
    pub fn is_referenced(&self) -> bool {
        !self.enabled_by.is_empty()
    }

    /// Whether it is for users: not hidden, and listed, or implied without another that names it.
    #[must_use]
    pub fn is_user_facing(&self) -> bool {
        (self.explicit || !self.is_referenced()) && !self.key.starts_with('_')
    }

    /// The features that turn it on directly, except `default`.
    pub fn non_default_enabled_by(&self) -> impl Iterator<Item = &str> {
        let names = self.enabled_by.iter().map(String::as_str);
        names.filter(|name| *name != "default")
    }

    /// The features that it turns on transitively, itself among them; and by their keys the
    /// dependencies that these act on unconditionally, each with the feature and its action.
    #[must_use]
    pub fn enables_recursive<'a>(&'a self, features: &'a BTreeMap<String, Feature>) -> Enabled<'a> {
        let mut enabled = Enabled::default();
        let mut waiting = vec![self];
        while let Some(feature) = waiting.pop() {
            if enabled.features.insert(&feature.key, feature).is_some() {
                continue;
            }
            let actions = feature.enables_deps.iter();
            for (key, action) in actions.filter(|it| !it.1.is_conditional) {
                let actions = enabled.dependencies.entry(key.as_str()).or_default();
                actions.push((&feature.key, action));
            }
            let names = feature.enables_features.iter().rev();
            waiting.extend(names.filter_map(|name| features.get(name)));
        }
        enabled
    }
}

/// What a feature turns on, transitively.
#[derive(Debug, Clone, Default)]
#[non_exhaustive]
pub struct Enabled<'a> {
    /// The features, by their names.
    pub features: BTreeMap<&'a str, &'a Feature>,
    /// The dependencies, by their keys: each feature that acts on one, and its action.
    pub dependencies: BTreeMap<&'a str, Vec<(&'a str, &'a DepAction)>>,
}

/// The features of a manifest.
#[derive(Debug, Clone, PartialEq, Eq, Deserialize)]
#[non_exhaustive]
pub struct Features {
    /// Those that are left, by their names.
    pub features: BTreeMap<String, Feature>,
    /// Those that were removed, each with the features that stand for it.
    #[serde(rename = "hidden")]
    pub hidden_features: BTreeMap<String, BTreeSet<String>>,
    /// Whether there are such.
    #[serde(skip)]
    pub removed_hidden_features: bool,
    /// Whether the manifest has more than the limit, so that some of it doesn't count.
    #[serde(rename = "cut")]
    pub is_cut: bool,
}

impl Features {
    /// The same, with what the answer doesn't tell twice.
    pub(crate) fn with_names(mut self) -> Features {
        for (name, feature) in &mut self.features {
            feature.key.clone_from(name);
        }
        self.removed_hidden_features = !self.hidden_features.is_empty();
        self
    }
}

/// Something amiss with a feature.
#[derive(Debug, Clone, PartialEq, Eq, Deserialize)]
#[non_exhaustive]
pub struct Finding {
    /// As `cycle`. The tools' documentation lists all.
    pub code: String,
    /// `error`, `warning` or `hint`.
    pub level: String,
    /// The feature, the key of a dependency, or the name of a target.
    pub feature: String,
    /// The text at fault, if any.
    pub text: String,
    /// The line of the text, or of the feature, from 1 on.
    pub line: usize,
    /// The column there, from 1 on, in characters.
    pub column: usize,
    /// What is amiss.
    pub words: String,
}

/// A feature that users may ask for, with all that it leads to.
#[derive(Debug, Clone, PartialEq, Eq, Deserialize)]
#[non_exhaustive]
pub struct DocumentedFeature {
    /// Its name.
    pub name: String,
    /// Whether the feature `default` turns it on.
    pub default: bool,
    /// The features that it turns on, transitively.
    pub features: Vec<String>,
    /// What it asks of dependencies, transitively, by their keys.
    pub dependencies: BTreeMap<String, DepAction>,
    /// Whether the table `[features]` lists it. Otherwise it is an optional dependency's.
    pub listed: bool,
    /// What its table says of it under `doc`.
    pub text: Option<String>,
}
