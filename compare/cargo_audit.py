#!/usr/bin/env python3
"""Holds `audit` against Cargo itself, offline, on random workspaces.

    compare/cargo_audit.py [--count N] [--seed N] [--program PROGRAM]

Members and their values have to be those of `cargo metadata --no-deps`, and what Cargo refuses has
to be a finding, or a refusal. A difference that is meant is of a class that MEANT names; any other
is a failure, and the status is then 1. The first failures are kept, and printed.
"""

from __future__ import annotations

import json
import os
import subprocess
import sys

from judging import Comparison, without_network
from workspaces import OddWorkspaces

KEYS = ["folder", "name", "version", "edition", "license", "rust_version", "publish"]
# Codes of what Cargo refuses. The others are of what it takes.
REFUSED = {
    *("absent", "bad-pattern", "default-member", "features", "incomplete", "no-lints"),
    *("no-target", "not-inherited", "optional-shared", "other-workspace", "outside", "same-name"),
    *("two-workspaces", "unlisted", "virtual", "workspace-within"),
}
MEANT = {
    "manifest": "Cargo refuses of one manifest what `audit` isn't about, as two sources of one key",
    "no workspace": "Cargo takes a package alone, where `audit` refuses one without a workspace",
    "from a member": "Cargo looks at `default-members` where it is asked in the root alone",
}
# What Cargo says where a refusal is of the class `manifest`.
OTHERS = ("different source paths", "invalid character", "failed to parse the version")


class Judge:
    """Cargo in a folder of its own, which has no network."""

    def __init__(self, folder: str) -> None:
        self.env = without_network(f"{folder}/home")

    def metadata(self, folder: str) -> tuple[dict | None, str]:
        """What Cargo knows of the package in a folder, or why it refuses that."""
        words = ["cargo", "metadata", "--no-deps", "--offline", "--format-version", "1"]
        words += ["--manifest-path", f"{folder}/Cargo.toml"]
        done = subprocess.run(words, env=self.env, capture_output=True, text=True, check=False)
        return (json.loads(done.stdout), "") if done.returncode == 0 else (None, done.stderr)


def of_package(package: dict, root: str) -> dict:
    publish = package["publish"]
    if publish is not None:
        publish = ", ".join(publish) or "no"
    folder = os.path.relpath(os.path.dirname(package["manifest_path"]), root)
    values = {key: package[key] for key in KEYS if key not in ("folder", "publish")}
    return values | {"folder": folder, "publish": publish or "yes"}


def by_folder(one: dict) -> str:
    return one["folder"]


def difference(judge: Judge, program: list[str], folder: str) -> str | None:
    """What differs of the workspace around a folder: nothing, the name of a class, or words."""
    known, why = judge.metadata(folder)
    done = subprocess.run(
        [*program, "audit", "--json", folder], capture_output=True, text=True, check=False
    )
    if done.returncode not in (0, 1, 3) or (done.returncode == 1) == bool(done.stdout):
        return f"status {done.returncode}: {done.stderr}"
    report = json.loads(done.stdout) if done.stdout else {"findings": [], "members": []}
    codes = {one["code"] for one in report["findings"]} & REFUSED
    if known is None:
        if codes or done.returncode == 1:
            return None
        return "manifest" if any(words in why for words in OTHERS) else f"no finding\n{why}"
    root = known["workspace_root"]
    if done.returncode == 1:
        alone = "there is no workspace" in done.stderr
        return "no workspace" if alone else done.stderr
    if codes == {"default-member"} and os.path.realpath(folder) != os.path.realpath(root):
        return "from a member"
    if codes:
        told = [one for one in report["findings"] if one["code"] in codes]
        return f"Cargo takes it\n{json.dumps(told, indent=1)}"
    found = sorted(({key: one[key] for key in KEYS} for one in report["members"]), key=by_folder)
    want = sorted((of_package(one, root) for one in known["packages"]), key=by_folder)
    if found == want:
        return None
    return f"found\n{json.dumps(found, indent=1)}\nwanted\n{json.dumps(want, indent=1)}"


def main() -> int:
    comparison = Comparison(__doc__, MEANT, count=300)
    judge = Judge(comparison.folder)

    def answer(folder: str, number: int) -> str | None:
        asked = OddWorkspaces(f"{comparison.seed}-{number}").write(folder)
        return difference(judge, comparison.program, asked)

    comparison.hold(answer, range(comparison.count))
    return comparison.end()


if __name__ == "__main__":
    sys.exit(main())
