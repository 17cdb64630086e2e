"""What scripts read of the sources: the lines of crates.txt, what a text imports, and what the
crate `cargo_toml` hands on."""

from __future__ import annotations

import re
import subprocess
from collections.abc import Iterator
from pathlib import Path

ROOT = Path(__file__).resolve().parent.parent
CRATES = ROOT / "crates"
IMPORT = re.compile(
    r"^ *(ghost )?use Rattle\.(cargo_toml\w*)((?:\.[^\s.{};]+)*)\.?(?:\{([^}]*)\})?(?: as \S+)?;?$",
    re.MULTILINE,
)
HANDED_ON = re.compile(r"^pub use (\w+)::[\w:]*?(?:(\w+)|\{([^}]*)\});", re.MULTILINE)


def crate_lines(root: Path | str, *crate: str) -> dict[str, str]:
    """The lines of crates.txt by their crates; or those of one crate and of what it stands on, and
    none where there is no such crate. scripts/closure alone reads that file."""
    words = [f"{root}/scripts/closure", root, *crate]
    told = subprocess.run(words, check=False, stdout=subprocess.PIPE, text=True).stdout
    return {re.split("[: ]", line)[0]: line for line in told.splitlines()}


def sources(tops: list[str]) -> dict[Path, str]:
    """Each source file of these crates and below, with its text."""
    return {
        file: file.read_text()
        for crate in dict.fromkeys(name for top in tops for name in crate_lines(ROOT, top))
        for file in sorted((CRATES / crate / "src").rglob("*.rt"))
    }


def crate_of(file: Path) -> str:
    """The crate to which a file belongs."""
    return file.relative_to(CRATES).parts[0]


def spec_file(crate: str, module: str) -> Path | None:
    """The file of a module of definitions, if any. Of a record in a file it is that file."""
    parts = module.split(".")
    for cut in range(len(parts), 0, -1):
        file = CRATES / crate / "specs" / ("/".join(parts[:cut]) + ".antt")
        if file.exists():
            return file
    return None


def imports(text: str, is_ghost: bool = False) -> Iterator[tuple[str, str, str, str]]:
    """Each definition of this repository that the text imports: its crate, its module, its name,
    and what the text calls it. A module that is imported whole has its own name for both."""
    for ghost, crate, path, inside in IMPORT.findall(text):
        if bool(ghost) != is_ghost:
            continue
        for item in inside.split(",") if inside else [""]:
            name, _, called = item.strip().partition(" as ")
            *module, last = [it for it in f"{path}.{name}".split(".") if it]
            if module[:1] == ["specs"] and (name or not inside):
                yield crate, ".".join(module[1:]), last, called or last


def handed_on(file: Path) -> list[tuple[str, str]]:
    """The names that a file hands on, each with the crate or the module that has it."""
    return [
        (name, source)
        for source, one, many in HANDED_ON.findall(file.read_text())
        for name in map(str.strip, (many or one).split(","))
        if name
    ]


def public_names() -> dict[str, list[tuple[str, str]]]:
    """What `cargo_toml` hands on, by the module of the facade: names, each with its crate."""
    source = CRATES / "cargo_toml/src"
    return {
        "cargo_toml": handed_on(source / "lib.rt"),
        "cargo_toml::features": handed_on(source / "features.rt"),
    }
