"""What speed/run and memory/run share: a folder to work in, and a driver over the crates. A driver
is no crate of the repository, so it is built beside copies of them, with a line more in
crates.txt."""

from __future__ import annotations

import contextlib
import os
import shutil
import subprocess
import sys
import tempfile

from sources import ROOT, crate_lines

TOLD = {"stdin": subprocess.DEVNULL, "stdout": sys.stderr}


def usual_work(name: str) -> str:
    return f"{tempfile.gettempdir()}/cargo_toml_{name}"


def work_folder(name: str, asked: str) -> str:
    """The folder that is asked for. The usual one may be another user's."""
    work = os.path.abspath(asked)
    os.makedirs(work, exist_ok=True)
    if asked == usual_work(name) and os.stat(work).st_uid != os.getuid():
        sys.exit(f"{name}: {work} is another user's: name a folder by --work")
    return work


def linked(source: str, target: str) -> None:
    """A second name for the file, or a copy where the work is kept on another disk."""
    try:
        os.link(source, target)
    except OSError:
        shutil.copy2(source, target)


def copy_crate(source: str, target: str) -> None:
    """A crate with its library as it is built; the rest of what its checks keep isn't needed."""
    shutil.rmtree(target, ignore_errors=True)
    for part in ["src", "specs", "proofs"]:
        if os.path.isdir(f"{source}/{part}"):
            shutil.copytree(f"{source}/{part}", f"{target}/{part}")
    if os.path.isdir(f"{source}/out/rlib"):
        shutil.copytree(f"{source}/out/rlib", f"{target}/out/rlib", copy_function=linked)


def build_driver(name: str, work: str, sources: str, uses: list[str]) -> str:
    """Proves and builds the driver of these sources, over the libraries of crates that it uses, and
    returns its program."""
    for crate in [it for it in uses if it in ("cargo_toml", "cargo_toml_program")]:
        subprocess.run(["rt", "lib"], cwd=f"{ROOT}/crates/{crate}", check=True, **TOLD)
    folder, crate = f"{work}/tree", f"cargo_toml_{name}"
    for it in crate_lines(ROOT):
        copy_crate(f"{ROOT}/crates/{it}", f"{folder}/crates/{it}")
    shutil.copy(f"{ROOT}/HANDLES", folder)
    with open(f"{folder}/crates.txt", "w", encoding="utf-8") as file:
        lines = [*crate_lines(ROOT).values(), f"{crate}: {' '.join(uses)}"]
        file.writelines(f"{line}\n" for line in lines)
    driver = f"{folder}/crates/{crate}"
    os.makedirs(f"{driver}/src", exist_ok=True)
    for source in os.listdir(sources):
        shutil.copy(f"{sources}/{source}", f"{driver}/src/{source.replace('.rattle', '.rt')}")
    program = f"{driver}/out/{crate}"
    # of an earlier run, as it would stay where the driver isn't proved now
    with contextlib.suppress(FileNotFoundError):
        os.remove(program)
    # without words the program refuses, with a status that is no matter here
    subprocess.run(["rt", "run"], cwd=driver, check=False, **TOLD)
    if not os.path.exists(program):
        sys.exit(f"{name}: the driver over this repository's crates could not be built")
    return program
