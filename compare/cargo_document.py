"""Holds the rows of `document` against Cargo, offline, on random manifests: what `default` and each
feature turn on, by `cargo metadata --features F`.

    compare/cargo document [--count N] [--seed N] [--program PROGRAM]

The manifests are made as those of `cargo_lint.py`, less odd; those that Cargo takes count. A page
doesn't name hidden features. A difference that is meant is of a class that `MEANT` names.
"""

import json
import re
import subprocess
import sys

from cargo_lint import Judge, Manifest
from judging import Comparison

BATCH = 200
MEANT = {
    "refused": "Cargo refuses the manifest, which doesn't count",
    "underscores": "the tables `dev_dependencies` and `build_dependencies`, up to edition 2021",
}


def pages(program, paths):
    """The rows of each page: of each feature whether it is a default, and what it turns on."""
    done = subprocess.run([*program, "document", *paths], capture_output=True, text=True)
    found = {}
    for page in re.split(r"^# ", done.stdout, flags=re.M)[1:]:
        title = re.match(r"Features of `(.*?)`", page).group(1)
        rows = {}
        for line in page.splitlines():
            cells = [cell.strip() for cell in line.strip("|").split("|")]
            if line.startswith("| `") and len(cells) >= 4:
                name = cells[0].strip("`")
                rows[name] = (cells[1] == "yes", set(re.findall(r"`([^`]*)`", cells[2])))
        found[title] = rows
    return found


class Answers(Judge):
    """What Cargo turns on."""

    def metadata(self, folder, *words):
        words = ["cargo", "metadata", "--format-version", "1", "--offline", *words]
        words += ["--manifest-path", f"{folder}/Cargo.toml"]
        done = subprocess.run(words, env=self.env, capture_output=True, text=True)
        return json.loads(done.stdout) if done.returncode == 0 else None

    def turned_on(self, folder, *words):
        known = self.metadata(folder, *words)
        nodes = known["resolve"]["nodes"]
        return set(next(n for n in nodes if n["id"] == known["resolve"]["root"])["features"])

    def rows(self, folder):
        """The rows of a page, if Cargo takes the manifest."""
        known = self.metadata(folder)
        if known is None:
            return None
        root = known["resolve"]["root"]
        package = next(one for one in known["packages"] if one["id"] == root)
        defaults = self.turned_on(folder)
        rows = {}
        for name in package["features"]:
            if name[0] != "_":
                on = self.turned_on(folder, "--no-default-features", "--features", name)
                on = {other for other in on if other != name and other[0] != "_"}
                rows[name] = (name in defaults, on)
        return rows


def answer_of(judge, manifest, rows, folder):
    """None where a page has Cargo's rows, a class that is meant, or the rows of both."""
    want = judge.rows(folder)
    if want is None:
        return "refused"
    if rows is not None and "default" not in want:
        rows.pop("default", None)
    if rows == want:
        return None
    return "underscores" if manifest.has_underscores else f"{rows}\n{want}"


def main():
    comparison = Comparison(__doc__, MEANT)
    judge, kinds, first = Answers(f"{comparison.folder}/cargo"), comparison.found, 0
    while kinds["same"] + kinds["FAILED"] < comparison.count:
        numbers = range(first, first + BATCH)
        first += BATCH
        made = {number: Manifest(comparison.seed, number, odd=0.1) for number in numbers}
        for number, manifest in made.items():
            manifest.write(f"{comparison.folder}/{number}")
        found = pages(comparison.program, [f"{comparison.folder}/{n}/Cargo.toml" for n in numbers])

        def answer(folder, number):
            return answer_of(judge, made[number], found.get(made[number].name), folder)

        comparison.hold(answer, numbers)
    return comparison.end()


if __name__ == "__main__":
    sys.exit(main())
