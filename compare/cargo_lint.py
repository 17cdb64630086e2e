"""Holds `lint` against Cargo, offline, on random manifests: what Cargo refuses of features is an
error of `lint`, with the same feature and text, and nothing else is.

    compare/cargo lint [--count N] [--seed N] [--program PROGRAM]

Cargo reads each manifest and resolves it with all features, over dependencies that lie beside it.
Where a target requires features, it also checks all targets, by a compiler that does nothing. A
difference that is meant is of a class that `MEANT` names, and any other is a failure.
"""

import os
import random
import re
import subprocess
import sys

from judging import Comparison, listed, put, quoted, without_network

KEYS = ["d", "e", "x-y", "_h"]
NAMES = ["default", "a", "b", "c", "_p", "d", "std", "1.0"]
ODD_NAMES = ["", "a b", "a/b", "a:b", "a?", "dep:a", "+a", "-a", ".a", "a+", "a-b", "a.b", "é", "_"]
ODD_NAMES += ["\u0301a", "a\u0301", "a\n", "ⅷ", "a\u2028", "😀", "a😀", "0", "ª", "a·b", "٣", "a٣"]
ODD_TEXTS = ["no", "dep:no", "no/f", "no?/f", "d?", "dep:d?", "dep:d/f", "dep:d?/f", "d/f/g", ""]
ODD_TEXTS += ["/", "d/", "/f", "d??/f", "dep:", "dep:dep:d", "d/a b", "d?/-f", "default", "?"]
REQUESTS = ["f", "g", "f", "e/f", "dep:f", "", "a b", "f?"]
TARGETS = ["", "", "", "target.'cfg(unix)'.", "target.x86_64-pc-windows-gnu."]
KINDS = ["dependencies", "dev-dependencies", "build-dependencies"]
PRODUCTS = ["bin", "example", "test", "bench"]
PLACES = {"bin": "src/bin", "example": "examples", "test": "tests", "bench": "benches"}

MEANT = {
    "plain table": "a feature written as a table that says nothing leaves no trace in the manifest",
    "underscores": "the tables `dev_dependencies` and `build_dependencies`, up to edition 2021",
    "other": "Cargo refuses the manifest for what is not about features",
}

# what Cargo says of features, and the codes that `lint` has for it; the groups are in its words
SAYINGS = [
    (r"feature name cannot be empty", ["bad-name"]),
    (r"invalid character `.*` in feature", ["bad-name"]),
    (r"feature named? .*is not allowed to", ["bad-name"]),
    (r"invalid type: map, expected a sequence", ["feature-table"]),
    (r"feature `(?P<f>[^`]*)` includes `(?P<t>[^`]*)` which is neither", ["unknown", "bad-text"]),
    (r"`(?P<f>[^`]*)` includes `(?P<t>[^`]*)`, but `.*` is an optional dependency", ["reserved"]),
    (r"`(?P<f>[^`]*)` includes `(?P<t>[^`]*)`, but `.*` is not an opt", ["not-optional"]),
    (r"`(?P<f>[^`]*)` includes `(?P<t>[^`]*)` with a `\?`, but", ["not-optional", "bad-text"]),
    (r"`(?P<f>[^`]*)` includes `(?P<t>[^`]*)`, but `.*` is not", ["unknown", "bad-text"]),
    (r"`(?P<f>[^`]*)` includes `(?P<t>[^`]*)` with both `dep:` and `/`", ["bad-text"]),
    (r"slashes in feature `(?P<t>[^`]*)` \(included by feature `(?P<f>[^`]*)`\)", ["bad-text"]),
    (r"optional dependency `(?P<f>[^`]*)` is not included in any feature", ["same-name"]),
    (r"dev-dependencies are not allowed to be optional: `(?P<f>[^`]*)`", ["optional-dev"]),
    (r"feature `(?P<t>[^`]*)` in dependency `(?P<f>[^`]*)` is not allowed", ["bad-request"]),
    (r"cyclic feature dependency: feature `(?P<f>[^`]*)` depends on itself", ["names-itself"]),
    (r"depends on `(?P<d>[^`]*)` with feature `(?P<n>[^`]*)` but", ["bad-request", "bad-text"]),
    (r"error: invalid feature `(?P<t>[^`]*)` .* of target `(?P<f>[^`]*)`", ["bad-required"]),
]
WARNED = r"warning: invalid feature `(.*?)` in required-features of target `(.*?)`"


class Manifest:
    """A random manifest, odd by this chance. Each key has one source."""

    def __init__(self, seed, number, odd=0.7):
        self.random = random.Random(f"{seed}-{number}")
        self.name = f"p{number}"
        self.is_odd = self.happens(odd)
        self.edition = self.one(["2015", "2018", "2021", "2021", "2024"])
        self.has_plain_table = self.has_underscores = False
        self.products, self.keys, self.optional = [], set(), set()
        lines = ["[package]", f'name = "{self.name}"', 'version = "1.0.0"']
        lines += [f'edition = "{self.edition}"', *self.tables(), *self.features(), *self.targets()]
        self.text = "\n".join(lines) + "\n"

    def happens(self, chance):
        return self.random.random() < chance

    def is_odd_now(self, chance):
        return self.is_odd and self.happens(chance)

    def one(self, of):
        return self.random.choice(of)

    def tables(self):
        lines = []
        for kind in KINDS:
            for target in sorted({self.one(TARGETS) for _ in range(2)}):
                keys = [key for key in KEYS if self.happens(0.35)]
                if not keys:
                    continue
                name = kind
                if "-" in kind and self.edition != "2024" and self.is_odd_now(0.05):
                    name = kind.replace("-", "_")
                    self.has_underscores = True
                lines += [f"[{target}{name}]", *(self.entry(key, kind) for key in keys)]
        return lines

    def entry(self, key, kind):
        parts = [f'path = "stubs/{key}"']
        self.keys.add(key)
        if self.happens(0.5) if kind != "dev-dependencies" else self.is_odd_now(0.1):
            parts.append("optional = true")
            self.optional.add(key)
        if self.happens(0.2):
            requests = REQUESTS if self.is_odd_now(0.3) else REQUESTS[:3]
            parts.append(f"features = {listed([self.one(requests)])}")
        return f"{key} = {{ {', '.join(parts)} }}"

    def features(self):
        names = [name for name in NAMES if self.happens(0.4)]
        if self.is_odd_now(0.2):
            names.append(self.one(ODD_NAMES))
        lines = ["[features]"]
        for name in names:
            texts = listed([self.of_list(names) for _ in range(self.random.randrange(4))])
            if self.is_odd_now(0.03):
                said = self.one(["", ", public = false", ', doc = "x"'])
                self.has_plain_table |= not said
                texts = f"{{ enables = {texts}{said} }}"
            lines.append(f"{quoted(name)} = {texts}")
        return lines

    def of_list(self, names):
        if self.is_odd_now(0.1):
            return self.one(ODD_TEXTS + names)
        others = [f"{key}/f" for key in sorted(self.keys)]
        for key in sorted(self.optional):
            others += [key, f"dep:{key}", f"{key}?/g"]
        key = self.one(KEYS)
        odd = [key, f"dep:{key}", f"{key}/f", f"{key}?/g"] if self.is_odd else []
        return self.one(names + others + odd or ["std"])

    def targets(self):
        lines = []
        for kind in PRODUCTS:
            if self.happens(0.1):
                texts = [self.of_list(NAMES) for _ in range(self.random.randrange(3))]
                self.products.append(kind)
                lines += [f"[[{kind}]]", f'name = "it-{kind}"']
                lines.append(f"required-features = {listed(texts)}")
        return lines

    def write(self, folder):
        put(f"{folder}/Cargo.toml", self.text)
        put(f"{folder}/src/lib.rs", "")
        for kind in self.products:
            put(f"{folder}/{PLACES[kind]}/it-{kind}.rs", "fn main() {}")
        for key in KEYS:
            head = f'[package]\nname = "{key}"\nversion = "1.0.0"\nedition = "2021"\n'
            put(f"{folder}/stubs/{key}/Cargo.toml", f"{head}[features]\nf = []\ng = []\n")
            put(f"{folder}/stubs/{key}/src/lib.rs", "")


class Judge:
    """Cargo in a home of its own, with a compiler that does nothing."""

    def __init__(self, top):
        compiler = f"{top}/compiler"
        asks = 'case "$*" in *-vV* | *--print*) exec rustc "$@" ;; esac'
        put(compiler, f"#!/bin/sh\n{asks}\nexit 1\n")
        os.chmod(compiler, 0o755)
        self.env = without_network(f"{top}/home")
        self.env |= {"RUSTC": compiler, "CARGO_TERM_COLOR": "never"}

    def said(self, words, folder):
        words = ["cargo", *words, "--offline", "--manifest-path", f"{folder}/Cargo.toml"]
        done = subprocess.run(words, env=self.env, capture_output=True, text=True)
        return done.returncode, done.stderr

    def judged(self, folder, requires):
        """What Cargo says in refusing, if it does, and what it warns of."""
        status, said = self.said(["metadata", "--format-version", "1"], folder)
        if status or not requires:
            return (said if status else None), set()
        _, said = self.said(["check", "--all-targets", "--all-features"], folder)
        warned = {(target, text) for text, target in re.findall(WARNED, said)}
        return (said if "error: invalid feature" in said else None), warned


def findings(program, paths):
    """What the program finds in each manifest: level, code, feature and text."""
    found = {path: set() for path in paths}
    done = subprocess.run([*program, "lint", *paths], capture_output=True, text=True)
    for line in done.stdout.splitlines():
        fields = [unescaped(field) for field in line.split(" | ")]
        place, level = fields[0].rsplit(": ", 1)
        found[place.rsplit(":", 2)[0]].add((level, *fields[1:4]))
    return found


def unescaped(text):
    by_number = lambda m: chr(int(m.group(1), 16)) if m.group(1) else m.group(2)
    return re.sub(r"\\u\{([0-9a-f]+)\}|\\(.)", by_number, text)


def is_told(saying, codes, match, errors):
    """Whether an error has one of the codes, and the feature and the text that Cargo names."""
    named = match.groupdict()
    for _, code, feature, text in errors:
        if code not in codes or named.get("f", feature) != feature:
            continue
        if "n" in named and code == "bad-request":
            fits = (feature, text) == (named["d"], named["n"])
        elif "n" in named:
            fits = re.fullmatch(re.escape(named["d"]) + r"\??/" + re.escape(named["n"]), text)
        else:
            fits = named.get("t", text) == text
        if fits:
            return True
    return False


def verdict(manifest, refusal, warned, found):
    """None where both agree, the class of a difference that is meant, or what differs."""
    errors = [one for one in found if one[0] == "error"]
    missing = {one[2:] for one in found if one[1] == "missing"}
    if refusal is None:
        if errors:
            return "underscores" if manifest.has_underscores else f"Cargo takes it: {errors}"
        same = missing == warned or manifest.has_underscores
        return None if same else f"required: {missing}\nCargo: {warned}"
    for saying, codes in SAYINGS:
        match = re.search(saying, refusal)
        if match is None:
            continue
        if is_told(saying, codes, match, errors):
            return None
        if "feature-table" in codes and manifest.has_plain_table:
            return "plain table"
        return "underscores" if manifest.has_underscores else f"{errors}\n{refusal}"
    return "other"


def main():
    comparison = Comparison(__doc__, MEANT)
    judge = Judge(f"{comparison.folder}/cargo")
    manifests = [Manifest(comparison.seed, number) for number in range(comparison.count)]
    paths = [f"{comparison.folder}/{number}/Cargo.toml" for number in range(comparison.count)]
    for manifest, path in zip(manifests, paths):
        manifest.write(os.path.dirname(path))
    found = {}
    for first in range(0, comparison.count, 500):
        found |= findings(comparison.program, paths[first : first + 500])

    def answer(folder, number):
        manifest = manifests[number]
        said = judge.judged(folder, bool(manifest.products))
        return verdict(manifest, *said, found[paths[number]])

    comparison.hold(answer, range(comparison.count))
    return comparison.end()


if __name__ == "__main__":
    sys.exit(main())
