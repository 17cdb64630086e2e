"""What an archive of a release says of its proof: PROVED.txt."""

from __future__ import annotations

import os
import re
import subprocess

from sources import crate_lines

# The crates that stand behind what is in an archive.
TOPS = ["cargo_toml_cli", "cargo_toml_tools_cli", "cargo_toml_c"]
FUNCTION = re.compile(r"(?m)^\s*(?:pub(?:\([a-z ]+\))? )?(?:const )?(?:extern \"C\" )?fn \w+")
HEAD = """Rueanvil's cargo_toml {version}

Made of commit {commit}, with the kit `{kit}`.

Each function of the crates below is proved: it returns, does nothing undefined, and meets each
clause of its contract, as far as the contracts go. docs/PROVED.md says how far. A program or a
library is built only of crates whose every function is proved. The gate, `./test --proved`, also
has the checker refuse {bodies} wrong bodies, and runs the tests.

Functions, as the sources have them, closures and what derives write not counted:

"""
TAIL = """
Trusted: the toolchain of the kit, the C library, and what the kit's std, toml, toml_datetime,
toml_parser, semver, serde_json, json, clap, sha2, hex and unicode_ident state.

Tested, not proved: the packages for Rust and Python, the header for C, the pages of the manual and
the completions.

To check this archive, make it again: check out the commit, run `./release OUT` with that kit, and
compare the checksums.
"""


def said(*words: str, at: str) -> str:
    done = subprocess.run(words, cwd=at, check=False, capture_output=True, text=True)
    return done.stdout.strip() if done.returncode == 0 else ""


def commit(root: str) -> str:
    """The commit, and whether files differ from it."""
    name = said("git", "rev-parse", "HEAD", at=root) or "unknown"
    changed = said("git", "status", "--porcelain", at=root)
    return f"{name}, with changes" if changed else name


def functions(folder: str) -> int:
    """How many functions the sources of a crate have."""
    count = 0
    for at, _, names in os.walk(f"{folder}/src"):
        for name in names:
            if name.endswith(".rt"):
                with open(f"{at}/{name}", encoding="utf-8") as file:
                    count += len(FUNCTION.findall(file.read()))
    return count


def crates(root: str) -> list[str]:
    """The crates behind the archive, the lowest first."""
    return list(dict.fromkeys(name for top in TOPS for name in crate_lines(root, top)))


def bodies(root: str) -> int:
    """How many wrong bodies the gate tries."""
    return sum(
        name.endswith(".edit")
        for at, _, names in os.walk(f"{root}/crates")
        if os.path.basename(at) == "must-fail"
        for name in names
    )


def report(root: str, version: str) -> str:
    """The text of PROVED.txt."""
    counts = {name: functions(f"{root}/crates/{name}") for name in crates(root)}
    kit = said("rt", "version", at=root)
    text = HEAD.format(version=version, commit=commit(root), kit=kit, bodies=bodies(root))
    text += "".join(f"{count:6} {name}\n" for name, count in counts.items())
    return f"{text}{sum(counts.values()):6} in all\n{TAIL}"
