"""The library for C: compiled over what is proved, linked, and laid out for those who link it."""

from __future__ import annotations

import os
import re
import shutil
import subprocess
import sys

from running import Program, started

CRATE = "cargo_toml_c"
NAME = "cargo_toml"
STATIC, SHARED = f"lib{NAME}.a", f"lib{NAME}.so"
SOURCE = f"crates/{CRATE}/src/lib.rt"
HEADER = "bindings/c/cargo_toml.h"
EXPORT = re.compile(r'^pub extern "C" fn (\w+)\((.*?)\) -> (\w+)', re.MULTILINE | re.DOTALL)
# What the C library has to give the crates of the kit, compiled: the heap.
OF_KIT = ["c/liblibc_c.a", "c/libos_c.a"]
PKG_CONFIG = f"""prefix=${{pcfiledir}}/../..
libdir=${{prefix}}/lib
includedir=${{prefix}}/include

Name: {NAME}
Description: Manifests of Cargo, read, completed and resolved
Version: %s
Cflags: -I${{includedir}}
Libs: -L${{libdir}} -l{NAME}
"""


def source_of(root: str) -> str:
    with open(f"{root}/{SOURCE}", encoding="utf-8") as file:
        return file.read()


def exports(root: str) -> list[tuple[str, str, str]]:
    """The exports of the library: of each its name, its parameters and its result, as Rattle has
    them."""
    return EXPORT.findall(source_of(root))


def version(root: str) -> str:
    """What `cargo_toml_version` tells."""
    return re.search(r'^const VERSION: &str = "(.*)";', source_of(root), re.MULTILINE)[1]


def kit() -> str:
    """The folder of the kit whose `rt` is on the PATH."""
    return os.path.dirname(os.path.dirname(os.path.realpath(shutil.which("rt"))))


class Library(Program):
    """The library for C, as a program that is built is."""

    kind = "library"

    def __init__(self, launcher: str, called: str) -> None:
        super().__init__(launcher, CRATE, called)
        self.made = SHARED

    def made_of(self, at: str, folder: str) -> tuple[list[str], str]:
        """The static and the shared library, made of what is proved in a copy."""
        crate = f"{folder}/crates/{self.crate}"
        self.say("compiles and links what is proved, in some two minutes")
        with open(f"{at}/rt-lib", "w+", encoding="utf-8", errors="replace") as log:
            how = {"stdout": log, "stderr": subprocess.STDOUT}
            words = [sys.executable, "-B", f"{self.root}/scripts/stamp", kit(), folder, self.crate]
            for command in (words, ["rt", "lib"]):
                with started(command, at, cwd=crate, **how) as child:
                    child.wait()
            log.seek(0)
            said = log.read()
        archive = f"{crate}/out/lib{self.crate}.a"
        if not os.path.isfile(archive):
            return [], said
        names = [name for name, _, _ in exports(self.root)]
        try:
            return Linking(at, archive, names).made(), said
        except subprocess.CalledProcessError as fault:
            return [], f"{said}{fault}\n"


class Linking:
    """What the kit's tools make of a static library, by the names that are to be seen."""

    def __init__(self, at: str, archive: str, names: list[str]) -> None:
        self.at, self.archive, self.names, self.kit = at, archive, names, kit()

    def call(self, tool: str, *words: str) -> None:
        """Calls a tool of LLVM. The kit has all of them in one program."""
        program = f"{self.kit}/toolchain/bin/clang"
        subprocess.run([tool, *words], executable=program, check=True, cwd=self.at)

    def made(self) -> list[str]:
        """The two libraries. The static one has one object, with what it needs of the kit in it and
        no other names to be seen, so that it can be linked beside another of the kit's."""
        of_kit = [f"{self.kit}/{it}" for it in OF_KIT]
        whole = ["--whole-archive", self.archive, "--no-whole-archive", *of_kit]
        self.call("ld.lld", "-r", "-o", f"{NAME}.o", *whole)
        self.write("seen", *self.names)
        seen = "--keep-global-symbols=seen"
        self.call("llvm-objcopy", seen, "--strip-unneeded", f"{NAME}.o")
        self.call("llvm-ar", "rcsD", STATIC, f"{NAME}.o")
        names = " ".join(f"{it};" for it in self.names)
        self.write("versions", f"{{ global: {names} local: *; }};")
        how = ["-shared", "-soname", SHARED, "--version-script=versions", "--gc-sections"]
        how += ["-z", "defs", "-z", "relro", "-z", "now", "-z", "noexecstack", "--eh-frame-hdr"]
        of_system = f"{self.kit}/toolchain/lib/libc.so.6"
        self.call("ld.lld", *how, "-s", "-o", SHARED, f"{NAME}.o", of_system)
        return [f"{self.at}/{STATIC}", f"{self.at}/{SHARED}"]

    def write(self, name: str, *lines: str) -> None:
        with open(f"{self.at}/{name}", "w", encoding="utf-8") as file:
            file.writelines(f"{it}\n" for it in lines)


def lay_out(library: Library, out: str) -> None:
    """Puts the library that is built into a folder, with its header and what pkg-config reads."""
    for part in ("lib/pkgconfig", "include"):
        os.makedirs(f"{out}/{part}", exist_ok=True)
    for name in (STATIC, SHARED):
        place(f"{library.out}/{name}", f"{out}/lib/{name}", 0o755 if name == SHARED else 0o644)
    place(f"{library.root}/{HEADER}", f"{out}/include/{os.path.basename(HEADER)}", 0o644)
    with open(f"{out}/lib/pkgconfig/{NAME}.pc", "w", encoding="utf-8") as file:
        file.write(PKG_CONFIG % version(library.root))


def place(source: str, target: str, mode: int) -> None:
    """Puts a copy in its place in one step, since a program may have the old one at work."""
    new = f"{target}.new-{os.getpid()}"
    shutil.copyfile(source, new)
    os.chmod(new, mode)
    os.replace(new, target)
