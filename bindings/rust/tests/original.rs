//! What the original crate's own tests ask of reading, completing and resolving, asked of the
//! library: a manifest of every kind of feature, a virtual manifest, and what is inherited.

use cargo_toml_proved::{check, complete, read, Error, Feature, Features, Resolver, Workspace};
use serde_json::Value;
use std::collections::BTreeMap;

const KINDS: &str = r#"[package]
name = "foo"

[[bin]]
name = "thebin"
required-features = ["__hidden2", "loop3"]

[dependencies]
not_optional = { path = "..", package = "actual_pkg", features = ["f1", "f2"] }
depend = { version = "1.0.0", package = "actual_pkg", optional = true, default-features = false }
implied_standalone = { version = "1.0.0", optional = true }
implied_referenced = { version = "1.0.0", optional = true }
not_relevant = "2"
feature_for_hidden = { version = "2", optional = true }
__hidden_dep = { version = "2", optional = true }

[build-dependencies]
a_dep = { version = "1.0.0", optional = true }

[features]
default = ["x"]
a = []
b = ["a", "implied_referenced/with_feature", "depend/default", "depend/default"]
c = ["__hidden"]
x = ["__hidden", "c", "not_optional/f2", "not_optional/f3", "not_optional/default"]
__hidden = ["__hidden2"]
__hidden2 = ["dep:depend", "depend/with_x", "depend?/with_y", "__hidden0"]
__hidden0 = ["a"]
enables_hidden = ["__hidden0"]
__feature_for_hidden = ["feature_for_hidden"]
loop1 = ["loop2"]
loop2 = ["loop3", "a_dep?/maybe", "a_dep?/maybe_too", "depend/with_loop"]
loop3 = ["loop1", "implied_referenced/from_loop_3"]
"#;

fn resolved(resolver: &Resolver) -> Features {
    resolver.parse(KINDS).expect("a manifest")
}

fn features() -> BTreeMap<String, Feature> {
    let found = resolved(&Resolver::new());
    assert!(found.removed_hidden_features);
    found.features
}

/// What a feature turns on: the keys of dependencies, and features; and what turns it on.
fn around(feature: &Feature) -> [Vec<&str>; 3] {
    let [names, users] =
        [&feature.enables_features, &feature.enabled_by].map(|it| it.iter().map(|name| &**name));
    let keys = feature.enables_deps.keys().map(|key| &**key);
    [keys.collect(), names.collect(), users.collect()]
}

#[test]
fn no_hidden_name_is_left() {
    for (name, feature) in features() {
        let all = around(&feature).concat();
        let is_hidden = |it: &&str| it.starts_with('_');
        assert!(!all.iter().chain([&&*name]).any(is_hidden), "{name}");
    }
}

#[test]
fn features_are_those_that_are_listed_or_implied() {
    let found = features();
    assert_eq!(found.len(), 13);
    for absent in ["depend", "not_relevant", "not_optional", "__hidden_dep"] {
        assert!(!found.contains_key(absent), "{absent}");
    }
    for implied in ["implied_standalone", "implied_referenced", "a_dep"] {
        assert!(!found[implied].explicit, "{implied}");
    }
    assert!(!found["feature_for_hidden"].is_referenced());
}

#[test]
fn what_hidden_features_enable_is_handed_on() {
    let found = features();
    let [dependencies, names, _] = around(&found["x"]);
    assert_eq!(dependencies, ["depend", "not_optional"]);
    assert_eq!(names, ["a", "c"]);
    let users = vec!["b", "c", "enables_hidden", "x"];
    assert_eq!(around(&found["a"]), [vec![], vec![], users]);
}

#[test]
fn features_in_a_ring_keep_their_order() {
    let found = features();
    let ring = [
        ("loop1", vec![], "loop2", "loop3"),
        ("loop2", vec!["a_dep", "depend"], "loop3", "loop1"),
        ("loop3", vec!["implied_referenced"], "loop1", "loop2"),
    ];
    for (name, keys, next, last) in ring {
        assert_eq!(around(&found[name]), [keys, vec![next], vec![last]]);
    }
    let actions = &found["loop2"].enables_deps;
    assert!(actions["a_dep"].is_conditional && !actions["depend"].is_conditional);
}

#[test]
fn a_ring_is_followed_once() {
    let found = features();
    let enabled = found["loop1"].enables_recursive(&found);
    for name in ["loop1", "loop2", "loop3"] {
        assert_eq!(enabled.features[name].key, name);
    }
    for (key, feature) in [("implied_referenced", "loop3"), ("depend", "loop2")] {
        assert_eq!(enabled.dependencies[key][0].0, feature);
    }
    assert!(!enabled.dependencies.contains_key("a_dep"));
}

#[test]
fn a_virtual_manifest_has_no_package() {
    let text = "[workspace]\nmembers = ['autobin', 'autolib']\n";
    let manifest: Value = read(text).expect("a manifest");
    assert!(manifest.get("package").is_none());
    assert!(Resolver::new().parse(text).is_ok());
}

#[test]
fn a_filter_keeps_hidden_features() {
    let found = resolved(&Resolver::new().keep(|name| name == "__hidden2"));
    assert_eq!(around(&found.features["x"])[1], ["__hidden2", "c"]);
    assert_eq!(found.features["__hidden2"].required_by_bins, ["thebin"]);
    assert!(!found.hidden_features.contains_key("__hidden2"));
}

#[test]
fn a_limit_counts_features() {
    assert!(resolved(&Resolver::new().max_items(1)).is_cut);
    let fault = Resolver::new().max_items(0).parse(KINDS);
    assert!(matches!(fault, Err(Error::BadArgument(_))), "{fault:?}");
}

#[test]
fn what_is_inherited_comes_from_the_workspace() {
    let text = "[package]\nname = 'a'\nversion.workspace = true\n\
        [dependencies]\nlog = { workspace = true, optional = true }\n";
    let root = b"[workspace.package]\nversion = '1.2.3'\n[workspace.dependencies]\nlog = '0.4'\n";
    let path = "/w/Cargo.toml";
    let workspace = Workspace { path, text: root };
    let paths = ["Cargo.toml", "src/lib.rs", "src/bin/tool.rs"];
    let manifest: Value = complete(text, paths, Some(workspace)).expect("a manifest");
    assert_eq!(manifest["package"]["version"], "1.2.3");
    assert_eq!(manifest["dependencies"]["log"]["optional"], true);
    assert_eq!(manifest["bin"][0]["name"], "tool");
    assert_eq!(manifest["lib"]["path"], "src/lib.rs");
    assert!(complete::<Value>(text, paths, None).is_err());
}

#[test]
fn a_fault_has_its_place_and_key() {
    let text = "[package]\nname = 'a'\nedition = 2021\n";
    let refusal = read::<Value>(text).expect_err("no manifest");
    assert_eq!(refusal.faults().len(), 1);
    let fault = &refusal.faults()[0];
    assert_eq!((fault.line, fault.column), (3, 1));
    assert_eq!(fault.key, "package.edition");
    assert_eq!(check(text).expect("faults"), refusal.faults());
}
