"""What the comparisons share: texts and lists of TOML, files, programs, Cargo without a network,
and the count of what came."""

from __future__ import annotations

import argparse
import collections
import concurrent.futures
import os
import shutil
import subprocess
import sys
import tempfile
from collections.abc import Callable, Iterable

ROOT = os.path.dirname(os.path.dirname(os.path.realpath(__file__)))
CARGO_TOML, CARGO_TOML_TOOLS = f"{ROOT}/cargo-toml", f"{ROOT}/cargo-toml-tools"
# So many calls of Cargo run side by side, and so many failures are printed.
SIDE_BY_SIDE = 2
SHOWN = 5


def quoted(text: str) -> str:
    plain = text.replace("\\", "\\\\").replace('"', '\\"')
    return '"' + "".join(c if c >= " " else f"\\u{ord(c):04x}" for c in plain) + '"'


def listed(texts: Iterable[str]) -> str:
    return f"[{', '.join(map(quoted, texts))}]"


def put(path: str, text: str) -> None:
    os.makedirs(os.path.dirname(path), exist_ok=True)
    with open(path, "w", encoding="utf-8") as file:
        file.write(text)


def build(program: str) -> None:
    """Builds the program if need be, where it is one of this repository's, and ends the run where
    that fails. An unproved answer would have a notice on standard error, and take minutes."""
    path = os.path.realpath(program)
    if path in (CARGO_TOML, CARGO_TOML_TOOLS):
        # it says what it builds, and how long that takes
        done = subprocess.run([path, "--build"], stdin=subprocess.DEVNULL, stdout=sys.stderr)
        if done.returncode:
            sys.exit(done.returncode)


def without_network(home: str) -> dict[str, str]:
    """An environment in which Cargo has this home, and no network."""
    return os.environ | {"CARGO_HOME": home, "CARGO_NET_OFFLINE": "true"}


class Comparison:
    """A comparison with Cargo: what the command line asks for, a folder for files, and how often
    each class came: `same`, one that is meant, or FAILED."""

    def __init__(self, doc: str, meant: dict[str, str], count: int = 100) -> None:
        reader = argparse.ArgumentParser(description=doc)
        reader.add_argument("--count", type=int, default=count, help=f"how many inputs; {count}")
        reader.add_argument("--seed", type=int, default=1, help="which ones; 1")
        program = "another program of the same words; ./cargo-toml-tools, built first if need be"
        reader.add_argument("--program", default=CARGO_TOML_TOOLS, help=program)
        words = reader.parse_args()
        build(words.program)
        self.count, self.seed, self.program = words.count, words.seed, words.program.split()
        self.meant, self.folder, self.found = meant, tempfile.mkdtemp(), collections.Counter()

    def hold(self, answer: Callable[[str, int], str | None], numbers: Iterable[int]) -> None:
        """Counts what the function says of each number and its folder: nothing where all is the
        same, a class that is meant, or the text of a failure."""
        places = [f"{self.folder}/{number}" for number in numbers]
        with concurrent.futures.ThreadPoolExecutor(SIDE_BY_SIDE) as pool:
            for place, came in zip(places, pool.map(answer, places, numbers)):
                kind = "same" if came is None else came if came in self.meant else "FAILED"
                self.found[kind] += 1
                if kind != "FAILED":
                    shutil.rmtree(place, ignore_errors=True)
                elif self.found[kind] <= SHOWN:
                    print(f"{place}\n{came}\n", flush=True)

    def end(self) -> int:
        """Prints the counts, and returns the status. Files of failures stay."""
        for kind, times in self.found.most_common():
            print(f"{times:6} {kind}" + (f": {self.meant[kind]}" if kind in self.meant else ""))
        if not self.found["FAILED"]:
            shutil.rmtree(self.folder)
        return min(self.found["FAILED"], 1)
