"""The words of the program `cargo-toml`, over the package for Python: `features [--max N] FILE` and
`complete FILE`. It prints the same lines, so that the two can be compared.

CARGO_TOML_SO names the library, and PYTHONPATH the package."""

from __future__ import annotations

import os
import sys

import cargo_toml_proved as cargo_toml
from collections.abc import Iterable, Iterator

USAGE = "usage: cargo-toml features [--max N] FILE | complete FILE"


def listed(texts: Iterable[str]) -> str:
    texts = [*texts]
    return ", ".join(texts) if texts else "-"


def action(key: str, it: dict) -> str:
    marks = ("?" if it["conditional"] else "") + ("!" if it["dep_only"] else "")
    return key + marks + "".join(f"/{name}" for name in it["features"])


def feature_line(name: str, it: dict) -> str:
    actions = listed(action(*pair) for pair in it["dependencies"].items())
    line = f"feature {name} | {'explicit' if it['listed'] else 'implied'}"
    line += f" | names: {listed(it['names'])} | deps: {actions}"
    line += f" | by: {listed(it['enabled_by'])} | bins: {listed(it['binaries'])}"
    line += "" if it["public"] else " | private"
    return line + ("" if it["text"] is None else f" | doc: {it['text']}")


def feature_lines(text: bytes, limit: int) -> list[str]:
    found = cargo_toml.features(text, max_items=limit)
    lines = [feature_line(*pair) for pair in found["features"].items()]
    return lines + [f"hidden {name} | {listed(it)}" for name, it in found["hidden"].items()]


def files_in(folder: str) -> Iterator[str]:
    """The files in a folder and below it, as seen from it."""
    for at, _, names in os.walk(folder, followlinks=True):
        for name in names:
            yield os.path.relpath(f"{at}/{name}", folder)


def root_of(folder: str, manifest: dict) -> tuple[str, bytes] | None:
    """The path of the root that a manifest in a folder belongs to, and its text, if any."""
    named = manifest.get("package", {}).get("workspace")
    at = os.path.join(folder, named) if named is not None else os.path.dirname(folder)
    while True:
        path = os.path.join(at, "Cargo.toml")
        if os.path.isfile(path):
            with open(path, "rb") as file:
                text = file.read()
            if named is not None or is_root(text):
                return path, text
        if named is not None or at == "/":
            return None
        at = os.path.dirname(at)


def is_root(text: bytes) -> bool:
    try:
        return "workspace" in cargo_toml.read(text)
    except cargo_toml.ManifestError:
        return True


def shown(file: object) -> object:
    return {True: "<default>", False: "<disabled>", None: "-"}.get(file, file)


def product_line(kind: str, it: dict) -> str:
    line = f"{kind} | {it.get('name', '-')} | {it.get('path', '-')}"
    required = f" | required: {listed(it.get('required-features', []))}"
    return line + ("" if kind == "lib" else required)


def product_lines(manifest: dict) -> list[str]:
    lines = [product_line("lib", manifest["lib"])] if "lib" in manifest else []
    for kind in ["bin", "example", "test", "bench"]:
        lines += [product_line(kind, it) for it in manifest.get(kind, [])]
    if "package" in manifest:
        package = manifest["package"]
        lines += [f"build | {shown(package.get('build'))}"]
        # a readme that is `true` is left out
        lines += [f"readme | {shown(package.get('readme', True))}"]
    return lines


def lines_of(words: list[str]) -> list[str]:
    with open(words[-1], "rb") as file:
        text = file.read()
    if words[0] == "features":
        return feature_lines(text, int(words[2]) if len(words) == 4 else cargo_toml.MAX_ITEMS)
    folder = os.path.dirname(os.path.abspath(words[-1]))
    root = root_of(folder, cargo_toml.read(text))
    return product_lines(cargo_toml.complete(text, files_in(folder), root))


def main(words: list[str]) -> int:
    if not (len(words) == 2 or (len(words) == 4 and words[:2] == ["features", "--max"])):
        print(USAGE, file=sys.stderr)
        return 2
    try:
        lines = lines_of(words)
    except (OSError, ValueError) as fault:
        print(f"error: {fault}", file=sys.stderr)
        return 1
    sys.stdout.write("".join(f"{line}\n" for line in lines))
    return 0


if __name__ == "__main__":
    sys.stdout.reconfigure(encoding="utf-8")
    sys.exit(main(sys.argv[1:]))
