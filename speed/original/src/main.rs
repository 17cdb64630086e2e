//! Times calls of the original crate.
//!
//! `original OPERATION FILE .. COUNT` makes ready what the call needs, makes it COUNT times,
//! and prints the best time of one call in nanoseconds and how many things the answer holds. The
//! answer's release is timed too, except that of `complete`. Right before and right after each
//! call the clock is asked, and at no other time: the counter of memory goes by that.
//!
//! `original print FILE ..` completes each manifest and prints it as a line of JSON.

use cargo_toml::features::{Kind, ParseDependency, Resolver};
use cargo_toml::{AbstractFilesystem, Error, Manifest, Value};
use std::collections::{HashMap, HashSet};
use std::hint::black_box;
use std::io::{self, Write};
use std::path::Path;
use std::time::{Duration, Instant};

/// A folder in which nothing is.
struct Nothing;

impl AbstractFilesystem for Nothing {
    fn file_names_in(&self, _rel_path: &str) -> io::Result<HashSet<Box<str>>> {
        Ok(HashSet::new())
    }
}

/// The best time, and how many things the answers hold.
struct Measured {
    best: Duration,
    size: usize,
}

impl Measured {
    fn new() -> Self {
        Measured { best: Duration::MAX, size: 0 }
    }

    fn add(&mut self, time: Duration, size: usize) {
        self.best = self.best.min(time);
        self.size = size;
    }
}

fn repeat(count: u64, mut call: impl FnMut() -> usize) -> Measured {
    let mut measured = Measured::new();
    for _ in 0..count {
        let start = Instant::now();
        let size = black_box(call());
        measured.add(start.elapsed(), size);
    }
    measured
}

fn size_of(manifest: &Manifest) -> usize {
    manifest.dependencies.len() + manifest.features.len()
}

fn read(bytes: &[u8], count: u64) -> Measured {
    repeat(count, || {
        let manifest = Manifest::from_slice(black_box(bytes)).expect("a manifest");
        size_of(&manifest)
    })
}

/// Several, one after the other.
fn each(texts: &[Vec<u8>], count: u64) -> Measured {
    repeat(count, || {
        let sizes = texts.iter().map(|text| {
            let manifest = Manifest::from_slice(black_box(text)).expect("a manifest");
            size_of(&manifest)
        });
        sizes.sum()
    })
}

fn tree_of(manifest: &Manifest) -> Value {
    Value::try_from(black_box(manifest)).expect("a tree")
}

fn write(manifest: &Manifest, count: u64) -> Measured {
    repeat(count, || tree_of(manifest).as_table().map_or(0, |table| table.len()))
}

fn resolve(manifest: &Manifest) -> usize {
    let answer = Resolver::new().parse(black_box(manifest));
    answer.features.len() + answer.dependencies.len() + answer.hidden_features.len()
}

fn parse(manifest: &Manifest, count: u64) -> Measured {
    repeat(count, || resolve(manifest))
}

/// Of several, one after the other.
fn parse_each(manifests: &[Manifest], count: u64) -> Measured {
    repeat(count, || manifests.iter().map(resolve).sum())
}

/// From the text to the answer.
fn answer_of(bytes: &[u8]) -> usize {
    resolve(&Manifest::from_slice(black_box(bytes)).expect("a manifest"))
}

fn answer(bytes: &[u8], count: u64) -> Measured {
    repeat(count, || answer_of(bytes))
}

fn answer_each(texts: &[Vec<u8>], count: u64) -> Measured {
    repeat(count, || texts.iter().map(|text| answer_of(text)).sum())
}

fn put_text(text: &str, line: &mut String) {
    line.push('"');
    for letter in text.chars() {
        match letter {
            '"' | '\\' => line.extend(['\\', letter]),
            letter if letter < ' ' => line.push_str(&format!("\\u{:04x}", letter as u32)),
            letter => line.push(letter),
        }
    }
    line.push('"');
}

fn put_json(tree: &Value, line: &mut String) {
    match tree {
        Value::String(text) => put_text(text, line),
        Value::Datetime(date) => put_text(&date.to_string(), line),
        Value::Integer(number) => line.push_str(&number.to_string()),
        Value::Float(number) => line.push_str(&number.to_string()),
        Value::Boolean(is_true) => line.push_str(if *is_true { "true" } else { "false" }),
        Value::Array(items) => {
            let mut before = '[';
            for item in items {
                line.push(before);
                put_json(item, line);
                before = ',';
            }
            line.push_str(if before == '[' { "[]" } else { "]" });
        }
        Value::Table(table) => {
            let mut before = '{';
            for (key, item) in table {
                line.push(before);
                put_text(key, line);
                line.push(':');
                put_json(item, line);
                before = ',';
            }
            line.push_str(if before == '{' { "{}" } else { "}" });
        }
    }
}

/// Each manifest with what stands around it, as a line of JSON.
fn print(files: &[&str]) -> Result<(), Error> {
    let mut out = io::BufWriter::new(io::stdout().lock());
    for file in files {
        let mut line = String::new();
        put_json(&tree_of(&Manifest::from_path(file)?), &mut line);
        line.push('\n');
        out.write_all(line.as_bytes())?;
    }
    Ok(out.flush()?)
}

/// Its features and normal dependencies, as if they stood in no manifest.
fn custom(manifest: &Manifest, count: u64) -> Measured {
    let table: HashMap<String, Vec<String>> = manifest.features.clone().into_iter().collect();
    let entries: Vec<_> = manifest
        .dependencies
        .iter()
        .map(|(key, dep)| ParseDependency { key, kind: Kind::Normal, target: None, dep })
        .collect();
    repeat(count, || {
        let answer = Resolver::new().parse_custom(black_box(&table), entries.iter().cloned());
        answer.features.len() + answer.dependencies.len() + answer.hidden_features.len()
    })
}

fn recursive(manifest: &Manifest, count: u64) -> Measured {
    let answer = Resolver::new().parse(manifest);
    let feature = &answer.features["default"];
    repeat(count, || {
        let (features, dependencies) = feature.enables_recursive(black_box(&answer.features));
        features.len() + dependencies.len()
    })
}

fn complete(member: &[u8], root: &Manifest, count: u64) -> Result<Measured, Error> {
    let mut measured = Measured::new();
    for _ in 0..count {
        let mut manifest = Manifest::from_slice(black_box(member))?;
        let start = Instant::now();
        manifest.complete_from_abstract_filesystem(Nothing, Some((root, Path::new("/root"))))?;
        measured.add(start.elapsed(), size_of(&manifest));
    }
    Ok(measured)
}

fn run(words: &[&str]) -> Result<Measured, Error> {
    let manifest = |file: &str| Manifest::from_slice(&std::fs::read(file)?);
    let count = words.last().and_then(|word| word.parse().ok());
    let count = count.ok_or(Error::Other("COUNT is a number"))?;
    match words {
        [verb @ ("each" | "answer-each"), files @ .., _] => {
            let texts = files.iter().map(std::fs::read).collect::<Result<Vec<_>, _>>()?;
            Ok(if *verb == "each" { each(&texts, count) } else { answer_each(&texts, count) })
        }
        ["parse-each", files @ .., _] => {
            let manifests =
                files.iter().map(|file| manifest(file)).collect::<Result<Vec<_>, _>>()?;
            Ok(parse_each(&manifests, count))
        }
        ["read", file, _] => Ok(read(&std::fs::read(file)?, count)),
        ["answer", file, _] => Ok(answer(&std::fs::read(file)?, count)),
        ["write", file, _] => Ok(write(&manifest(file)?, count)),
        // the state of its hashed maps is random anyway
        ["parse" | "seeded-parse", file, _] => Ok(parse(&manifest(file)?, count)),
        ["custom", file, _] => Ok(custom(&manifest(file)?, count)),
        ["recursive", file, _] => Ok(recursive(&manifest(file)?, count)),
        ["complete", member, root, _] => complete(&std::fs::read(member)?, &manifest(root)?, count),
        _ => Err(Error::Other("no such operation")),
    }
}

fn main() -> Result<(), Error> {
    let words: Vec<String> = std::env::args().skip(1).collect();
    let words: Vec<&str> = words.iter().map(String::as_str).collect();
    if let ["print", files @ ..] = words.as_slice() {
        return print(files);
    }
    let measured = run(&words)?;
    println!("{} {}", measured.best.as_nanos(), measured.size);
    Ok(())
}
