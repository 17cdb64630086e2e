//! The words of the program `cargo-toml`, over the library: `features [--max N] FILE` and
//! `complete FILE`. It prints the same lines, so that the two can be compared.

use cargo_toml_proved::{complete, Error, Feature, Features, Resolver, Workspace};
use serde_json::Value;
use std::fmt::Write;
use std::path::{Path, PathBuf};
use std::process::ExitCode;
use std::{env, fs, io};

/// Texts with commas between them, or `-`.
fn listed<'a>(texts: impl IntoIterator<Item = &'a str>) -> String {
    let texts: Vec<&str> = texts.into_iter().collect();
    if texts.is_empty() {
        return "-".to_owned();
    }
    texts.join(", ")
}

fn names<'a>(of: impl IntoIterator<Item = &'a String>) -> String {
    listed(of.into_iter().map(String::as_str))
}

fn actions(feature: &Feature) -> String {
    let all: Vec<String> = feature
        .enables_deps
        .iter()
        .map(|(key, action)| {
            let waits = if action.is_conditional { "?" } else { "" };
            let alone = if action.is_dep_only { "!" } else { "" };
            let asked = action.dep_features.iter().map(|it| format!("/{it}"));
            format!("{key}{waits}{alone}{}", asked.collect::<String>())
        })
        .collect();
    names(&all)
}

fn feature_lines(found: &Features) -> String {
    let mut text = String::new();
    for (name, feature) in &found.features {
        let origin = if feature.explicit {
            "explicit"
        } else {
            "implied"
        };
        let _ = write!(
            text,
            "feature {name} | {origin} | names: {} | deps: {} | by: {} | bins: {}",
            names(&feature.enables_features),
            actions(feature),
            names(&feature.enabled_by),
            names(&feature.required_by_bins),
        );
        text += if feature.public { "" } else { " | private" };
        if let Some(doc) = &feature.doc {
            let _ = write!(text, " | doc: {doc}");
        }
        text.push('\n');
    }
    for (name, instead) in &found.hidden_features {
        let _ = writeln!(text, "hidden {name} | {}", names(instead));
    }
    text
}

/// The files in a folder and below it, as seen from the package's folder.
fn add_files(folder: &Path, from: &str, paths: &mut Vec<String>) {
    let Ok(entries) = fs::read_dir(folder) else {
        return;
    };
    for entry in entries.flatten() {
        let name = format!("{from}{}", entry.file_name().to_string_lossy());
        if entry.path().is_dir() {
            add_files(&entry.path(), &format!("{name}/"), paths);
        } else {
            paths.push(name);
        }
    }
}

/// The root of the workspace that a manifest in a folder belongs to, and its text, if there is one.
fn root_of(folder: &Path, manifest: &Value) -> Option<(PathBuf, Vec<u8>)> {
    let named = manifest["package"]["workspace"].as_str();
    let above: Vec<PathBuf> = match named {
        Some(path) => vec![folder.join(path)],
        None => folder.ancestors().skip(1).map(Path::to_owned).collect(),
    };
    above.into_iter().find_map(|at| {
        let path = at.join("Cargo.toml");
        let text = fs::read(&path).ok()?;
        let is_root = named.is_some()
            || cargo_toml_proved::read::<Value>(&text)
                .map_or(true, |root| root.get("workspace").is_some());
        is_root.then_some((path, text))
    })
}

fn product_line(kind: &str, product: &Value) -> String {
    let cell = |key: &str| product[key].as_str().unwrap_or("-").to_owned();
    let mut line = format!("{kind} | {} | {}", cell("name"), cell("path"));
    if kind != "lib" {
        let required = product["required-features"].as_array();
        let texts = required.into_iter().flatten().filter_map(Value::as_str);
        let _ = write!(line, " | required: {}", listed(texts));
    }
    line + "\n"
}

fn shown(file: &Value) -> &str {
    match file {
        Value::Bool(true) => "<default>",
        Value::Bool(false) => "<disabled>",
        _ => file.as_str().unwrap_or("-"),
    }
}

fn product_lines(manifest: &Value) -> String {
    let mut text = String::new();
    if let Some(library) = manifest.get("lib") {
        text += &product_line("lib", library);
    }
    for kind in ["bin", "example", "test", "bench"] {
        for product in manifest[kind].as_array().into_iter().flatten() {
            text += &product_line(kind, product);
        }
    }
    if let Some(package) = manifest.get("package") {
        // a readme that is `true` is left out
        let readme = package.get("readme").unwrap_or(&Value::Bool(true));
        let (build, readme) = (shown(&package["build"]), shown(readme));
        let _ = write!(text, "build | {build}\nreadme | {readme}\n");
    }
    text
}

fn completed(file: &Path, text: &[u8]) -> Result<Value, Error> {
    let folder = file.parent().map_or_else(PathBuf::new, Path::to_owned);
    let mut paths = Vec::new();
    add_files(&folder, "", &mut paths);
    let manifest: Value = cargo_toml_proved::read(text)?;
    let root = root_of(&folder, &manifest);
    let path = root.as_ref().map(|it| it.0.to_string_lossy().into_owned());
    let workspace = root.as_ref().zip(path.as_deref());
    let told = workspace.map(|((_, text), path)| Workspace { path, text });
    complete(text, &paths, told)
}

fn answer(words: &[String]) -> Option<io::Result<Result<String, Error>>> {
    let words: Vec<&str> = words.iter().map(String::as_str).collect();
    let (limit, file) = match words[..] {
        ["features", file] => (Some(2048), file),
        ["features", "--max", limit, file] => (Some(limit.parse().ok()?), file),
        ["complete", file] => (None, file),
        _ => return None,
    };
    let text = match fs::read(file) {
        Ok(text) => text,
        Err(fault) => return Some(Err(fault)),
    };
    Some(Ok(match limit {
        Some(limit) => {
            let found = Resolver::new().max_items(limit).parse(&text);
            found.map(|it| feature_lines(&it))
        }
        None => completed(Path::new(file), &text).map(|it| product_lines(&it)),
    }))
}

fn main() -> ExitCode {
    let words: Vec<String> = env::args().skip(1).collect();
    match answer(&words) {
        None => {
            eprintln!("usage: cargo-toml features [--max N] FILE | complete FILE");
            ExitCode::from(2)
        }
        Some(Ok(Ok(text))) => {
            print!("{text}");
            ExitCode::SUCCESS
        }
        Some(Ok(Err(fault))) => {
            eprintln!("error: {fault}");
            ExitCode::FAILURE
        }
        Some(Err(fault)) => {
            eprintln!("error: {fault}");
            ExitCode::FAILURE
        }
    }
}
