"""The files of rows, as memory/run and scripts/limits lay them out on a disk."""

from __future__ import annotations

import os

ROOT = os.path.dirname(os.path.dirname(os.path.realpath(__file__)))
ROWS = f"{ROOT}/crates/cargo_toml_rows/data"


def write(path: str, text: str) -> str:
    os.makedirs(os.path.dirname(path), exist_ok=True)
    with open(path, "w", encoding="utf-8") as file:
        file.write(text)
    return path


def lines_of(path: str) -> list[str]:
    """The lines of a file of a row. Where it isn't there, its template, `PATH.in`, makes them: in
    place of `file PATH` those of that file, and of `repeat FIRST LAST TEXT` a TEXT for each number,
    in which `{}` stands for the number in four digits, `{+}` for the next and `{-}` for the one
    before."""
    is_there = os.path.isfile(path)
    with open(path if is_there else f"{path}.in", encoding="utf-8") as file:
        read = file.read().splitlines()
    if is_there:
        return read
    lines = []
    for line in read:
        if line.startswith("file "):
            lines += lines_of(f"{ROWS}/{line[5:]}")
        elif line.startswith("repeat "):
            first, last, text = line.split(" ", 3)[1:]
            for number in range(int(first), int(last) + 1):
                made = text.replace("{}", f"{number:04}").replace("{+}", f"{number + 1:04}")
                lines.append(made.replace("{-}", f"{number - 1:04}"))
        else:
            lines.append(line)
    return lines


def make_listing(folder: str, listing: str) -> None:
    """The files of a listing, `FOLDER: NAME NAME ..`, unless it has other answers than names. A
    name with a line of its own is a folder."""
    lines = [line.partition(":") for line in lines_of(listing)]
    folders = {path for path, _, _ in lines}
    for path, _, names in lines:
        os.makedirs(f"{folder}/{path}", exist_ok=True)
        for name in names.split():
            inner = f"{path}/{name}".lstrip("/")
            if "!" not in name and inner not in folders and inner != "Cargo.toml":
                write(f"{folder}/{inner}", "")
