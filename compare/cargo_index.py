"""Holds `index` against the line that Cargo writes into the registry of a workspace."""

import json
import os
import re
import subprocess
import sys

from judging import Comparison, put, without_network
from manifests import CORP, KEYS, Manifests

CRATES_IO = "https://github.com/rust-lang/crates.io-index"
OTHER = "https://example.com/other"

MEANT = {
    "refused": "both refuse it",
    "underscores": "the tool refuses `_` for `-` by name, where Cargo reads it up to edition 2021",
    "unversioned": "the tool refuses a package without a version, which Cargo takes as 0.0.0",
    "unpublished": "Cargo packages what isn't published in the registry",
    "unread": "Cargo refuses the manifest for what `index` isn't about",
    "unresolved": "Cargo finds no crate for a dependency here, or too many",
}
# What Cargo says of a manifest that it doesn't read, and of features: `index` has to refuse these.
OF_FEATURES = re.compile(r"feature|`dep:|optional dependenc")
UNRESOLVED = re.compile(r"failed to select a version|no matching package|registry index was not|"
                        r"failed to load source|failed to get|all dependencies must have a version|"
                        r"source .* has been replaced")
OF_LINE = ["name", "vers", "links", "rust_version"]
OF_ENTRY = ["name", "req", "features", "optional", "default_features", "target", "kind"]
STUB = "[features]\nstd = []\nderive = []\nalloc = []\n"
HEAD = 'edition = "2021"\ndescription = "x"\nlicense = "MIT"\n'


def put_crate(folder, manifest):
    put(f"{folder}/Cargo.toml", manifest)
    put(f"{folder}/src/lib.rs", "")


def package(name, version="1.0.0"):
    """The table of a package that Cargo packages."""
    return f'[package]\nname = "{name}"\nversion = "{version}"\n{HEAD}'


def run(words, **how):
    done = subprocess.run(words, capture_output=True, text=True, check=False, **how)
    return done.returncode, done.stdout, done.stderr


class Work:
    """The tool's program, Cargo with a home of its own, and a folder for files."""

    def __init__(self, program, folder):
        self.program, self.folder = program, folder
        home = f"{folder}/cargo/home"
        self.env = without_network(home)
        vendored = 'replace-with = "vendored"\n'
        put(
            f"{home}/config.toml",
            f'[registries.corp]\nindex = "{CORP}"\n'
            f'[source.corp]\nregistry = "{CORP}"\n{vendored}[source.crates-io]\n{vendored}'
            f'[source.vendored]\ndirectory = "{folder}/cargo/vendor"\n',
        )
        for name in [*KEYS, "renamed", "other"]:
            for version in ["0.4.1", "1.2.3"]:
                self.vendor(name, version)

    def vendor(self, name, version):
        """Puts a crate where Cargo looks for what it would download."""
        place = f"{self.folder}/cargo/vendor/{name}-{version}"
        put_crate(place, f"{package(name, version)}{STUB}")
        put(f"{place}/.cargo-checksum.json", '{"files":{},"package":null}')

    def cargo(self, *words, cwd=None):
        """Status, output and words of a call of Cargo."""
        return run(["cargo", *words], env=self.env, cwd=cwd or self.folder)

    def metadata(self, path, *words):
        """What Cargo knows of a manifest, or why it refuses it."""
        words = ["--format-version", "1", "--manifest-path", path, *words]
        status, out, why = self.cargo("metadata", "--offline", *words)
        return (json.loads(out), "") if status == 0 else (None, why)

    def tool(self, *words):
        """Status, output and words of a call of the tool."""
        return run([*self.program, *words])


def of_line(line):
    """What a line says, whichever version of the index it is of, and where each crate is from."""
    entries = [
        {key: entry[key] for key in OF_ENTRY}
        | {"package": entry.get("package"), "registry": entry["registry"] or CRATES_IO}
        for entry in line["deps"]
    ]
    later = line.get("features2") or {}
    lists = {name: texts + later.get(name, []) for name, texts in line["features"].items()}
    return {key: line[key] for key in OF_LINE} | {"deps": entries, "features": lists}


def line_of(work, folder, name):
    """The line that Cargo writes of a crate, or why it writes none. That line leaves out
    `rust_version`, which is as `cargo metadata` tells it."""
    words = ["--workspace", "--no-verify", "--offline", "--allow-dirty", "--registry", "crates-io"]
    _, _, why = work.cargo("package", *words, cwd=folder)
    for place, _, files in os.walk(f"{folder}/target/package/tmp-registry/index"):
        if name in files:
            with open(f"{place}/{name}", encoding="utf-8") as file:
                line = json.loads(file.read())
            known, _ = work.metadata(f"{folder}/{name}/Cargo.toml", "--no-deps")
            named = [one for one in known["packages"] if one["name"] == name]
            return line | {"rust_version": named[0]["rust_version"]}, ""
    return None, why


def make(folder, made):
    """A crate, in a workspace with one that depends on it, so that Cargo writes its line."""
    manifest = made.member("it", "../other")
    put(f"{folder}/Cargo.toml", made.root(["it", "other", "user"]))
    put_crate(f"{folder}/it", manifest)
    put(f"{folder}/it/build.rs", "fn main() {}")
    put_crate(f"{folder}/other", f"{package('other', '1.2.3')}{STUB}")
    depends = f'[dependencies]\nit = {{ path = "../it", version = "={made.version}" }}\n'
    put_crate(f"{folder}/user", f"{package('user')}{depends}")


def answer_of(work, folder, seed):
    """None where both say the same, the class of a difference that is meant, or the difference."""
    made = Manifests(seed)
    make(folder, made)
    want, why = line_of(work, folder, "it")
    words = ["--registry-name", f"corp={CORP}", f"{folder}/it/Cargo.toml"]
    status, out, told = work.tool("index", *words)
    if "isn't of crates.io" in told:
        # Cargo packages it all the same, and refuses to publish it
        words = ["--registry", OTHER, "--registry-name", f"crates-io={OTHER}", *words]
        status, out, told = work.tool("index", *words)
    if want and status == 0:
        found, want = of_line(json.loads(out)), of_line(want)
        return None if found == want else f"{found}\n{want}"
    if want:
        if "_` in its name" in told or "`default_features`" in told:
            return "underscores"
        if "the package has no version" in told:
            return "unversioned"
        return "unpublished" if "isn't published" in told else f"{told}\n{want}"
    if status != 0:
        return "refused"
    if OF_FEATURES.search(why) and not UNRESOLVED.search(why):
        return f"{out}\n{why}"
    return "unresolved" if UNRESOLVED.search(why) else "unread"


def main():
    comparison = Comparison(__doc__, MEANT)
    work = Work(comparison.program, comparison.folder)
    answer = lambda folder, number: answer_of(work, folder, f"{comparison.seed}-{number}")
    comparison.hold(answer, range(comparison.count))
    return comparison.end()


if __name__ == "__main__":
    sys.exit(main())
