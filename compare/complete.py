#!/usr/bin/env python3
"""Compares what two programs print for `complete` of members of random workspaces: this one,
which is built first if need be, and one over the original that takes the same words.

    compare/complete.py PROGRAM OTHER [--count N] [--seed N]

Of each workspace three manifests are completed. The status has to be the same, what is printed, and
the fault. Two faults of the original have words of their own where this crate says that nothing is
there; they count as alike."""

from __future__ import annotations

import argparse
import os
import re
import subprocess
import sys
import tempfile

from judging import build, listed, put
from workspaces import Workspaces

NAMES = ["a", "b", "main", "x-y", "a.rs", "é"]
KINDS = {"bin": "src/bin", "example": "examples", "test": "tests", "bench": "benches"}
ALONE = ["build.rs", "README.md", "README.txt", "README", "src/lib.rs", "src/main.rs"]
FILES = ["true", "false", '"other"']
NOTHING_THERE = re.compile("Can't find workspace in .*|.*because it has no parent directories.*")


class Completions(Workspaces):
    """Workspaces whose members state products and have files for them."""

    def product(self, kind: str) -> list[str]:
        name = self.random.choice(NAMES)
        lines = [f'name = "{name}"'] if self.happens(0.8) else []
        if self.happens(0.4):
            path = self.random.choice([f"{name}.rs", f"{name}/main.rs"])
            lines.append(f'path = "{KINDS.get(kind, "src")}/{path}"')
        if self.happens(0.2):
            lines.append(f"required-features = {listed(self.some(NAMES, 2))}")
        return lines

    def package(self, number: int) -> list[str]:
        lines = super().package(number)
        for key in ["build", "readme"]:
            if self.happens(0.4):
                lines.append(f"{key} = {self.random.choice(FILES)}")
        for key in ["autobins", "autoexamples", "autotests", "autobenches"]:
            if self.happens(0.2):
                lines.append(f"{key} = {self.random.choice(['true', 'false'])}")
        if self.happens(0.2):
            lines.append(f'workspace = "{self.random.choice(["..", "../..", "../../.."])}"')
        return lines

    def member(self, number: int) -> list[str]:
        lines = super().member(number)
        if self.happens(0.2):
            lines += ["[lib]"] + self.product("lib")
        for kind in KINDS:
            for _ in range(self.random.choice([0, 0, 1, 2])):
                lines += [f"[[{kind}]]"] + self.product(kind)
        return lines + (["[lints]", "workspace = true"] if self.happens(0.1) else [])

    def add_files(self, folder: str) -> None:
        files = [name for name in ALONE if self.happens(0.3)]
        for inner in KINDS.values():
            # one file for a name: of two, the original takes any
            for name in {name.removesuffix(".rs"): name for name in self.some(NAMES, 3)}.values():
                form = self.random.choice(["/{0}.rs", "/{0}/main.rs", "/{0}"])
                files.append(inner + form.format(name))
        for file in files:
            path = f"{folder}/{file}"
            above = [os.path.dirname(path)]
            while above[-1] != folder:
                above.append(os.path.dirname(above[-1]))
            if not os.path.exists(path) and not any(map(os.path.isfile, above)):
                put(path, "")

    def manifests(self, folder: str) -> list[str]:
        """Some of the manifests of a workspace that is written into this folder."""
        self.write(folder)
        found = sorted(
            f"{at}/Cargo.toml" for at, _, names in os.walk(folder) if "Cargo.toml" in names
        )
        for manifest in found:
            self.add_files(os.path.dirname(manifest))
        return self.random.sample(found, min(3, len(found)))


def answer(program: str, manifest: str) -> tuple[int, str, str]:
    done = subprocess.run([program, "complete", manifest], capture_output=True, text=True)
    return done.returncode, done.stdout, NOTHING_THERE.sub("entity not found", done.stderr)


def main() -> None:
    parser = argparse.ArgumentParser(description=__doc__)
    parser.add_argument("program")
    parser.add_argument("other")
    parser.add_argument("--count", type=int, default=1000, help="how many workspaces; 1000")
    parser.add_argument("--seed", type=int, default=1, help="which ones; 1")
    arguments = parser.parse_args()
    build(arguments.program)
    made = Completions(arguments.seed)
    manifests, refused, differ = 0, 0, 0
    for number in range(arguments.count):
        with tempfile.TemporaryDirectory() as folder:
            for manifest in made.manifests(f"{folder}/{number}"):
                own, other = (answer(p, manifest) for p in [arguments.program, arguments.other])
                manifests += 1
                refused += own[0] != 0
                if own != other:
                    differ += 1
                    if differ <= 3:
                        print(open(manifest, encoding="utf-8").read(), own, other, sep="\n")
    made = f"{arguments.count} workspaces, {manifests} manifests"
    print(f"{made}, {refused} refused, {differ} differ")
    return min(differ, 1)


if __name__ == "__main__":
    sys.exit(main())
