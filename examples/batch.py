#!/usr/bin/env python3
"""Lines of an index for all `.crate` files of a folder, on all cores, in the order of their names.

    python3 examples/batch.py FOLDER [JOBS] > lines

A call of `cargo_toml_proved` is a pure function of bytes, so the same function `line_of` goes into
any engine that maps rows, as Spark's `rdd.map(line_of)` or Ray's `Dataset.map`. An archive that is
refused has its words on standard error, and the status is then 1.
"""

from __future__ import annotations

import multiprocessing
import os
import sys
from typing import List, Tuple

import cargo_toml_proved as cargo_toml

#: How many archives a process takes at once.
SHARE = 64


def line_of(path: str) -> Tuple[bool, str]:
    """The line of an archive, or why it has none."""
    try:
        return True, cargo_toml.from_crate(path).line()
    except (OSError, ValueError) as fault:
        return False, f"error: {path}: {fault}"


def main(words: List[str]) -> int:
    if not 1 <= len(words) <= 2:
        print("usage: batch.py FOLDER [JOBS]", file=sys.stderr)
        return 2
    jobs = int(words[1]) if len(words) > 1 else len(os.sched_getaffinity(0))
    names = sorted(name for name in os.listdir(words[0]) if name.endswith(".crate"))
    paths = [os.path.join(words[0], name) for name in names]
    status = 0
    with multiprocessing.Pool(jobs) as pool:
        for is_done, line in pool.imap(line_of, paths, SHARE):
            print(line, file=sys.stdout if is_done else sys.stderr)
            status = status if is_done else 1
    return status


if __name__ == "__main__":
    sys.exit(main(sys.argv[1:]))
