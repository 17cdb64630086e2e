"""What ./test runs, and what has to come of it: the scripts, under `rt try` the rows, the tests and
the stored runs, and `rt fmt`.

`rt try` takes a minute or two of a processor to build a program, and then seconds to run it. So
programs that stand on the same crates are built as one: see `Programs`."""

from __future__ import annotations

import contextlib
import difflib
import hashlib
import os
import re
import shutil
import subprocess
from collections.abc import Iterable
from itertools import zip_longest

from running import started
from sources import crate_lines

ROOT = os.path.dirname(os.path.dirname(os.path.realpath(__file__)))
CRATES, SCRIPTS = f"{ROOT}/crates", f"{ROOT}/scripts"
# The jobs that passed: a file for each, named by a checksum of all that it comes of.
KEPT = f"{ROOT}/out/test"
# A run that is checked at each step takes several times as long as the program.
TRY = ["env", f"PATH={SCRIPTS}/without-hint:{os.environ['PATH']}", "rt", "try", "--seconds", "600"]
# Lines that are shown of one failure.
SHOWN = 40
# How one of the programs ended that are built as one.
ENDED = re.compile(r"^case=(\S+) run=ended status=(\d+) .*$", re.MULTILINE)
# As root, rows are run as `rt ci` runs them: as nobody, who is bound by modes.
NOBODY = 65534
AS_NOBODY = ["setpriv", f"--reuid={NOBODY}", f"--regid={NOBODY}", "--clear-groups"]


def text_of(path: str) -> str:
    with open(path, encoding="utf-8", errors="replace") as file:
        return file.read()


def lines_of(path: str) -> list[str]:
    return text_of(path).splitlines() if os.path.isfile(path) else []


def files_below(folder: str) -> list[str]:
    """The files below a folder, except what is made of others."""
    found = []
    for at, folders, names in os.walk(folder):
        folders[:] = [it for it in folders if it not in (".git", "out", "__pycache__")]
        found += [f"{at}/{name}" for name in names]
    return sorted(found)


def is_utf8(path: str) -> bool:
    return os.fsencode(path).decode(errors="replace") == path


def difference(wanted: str, came: str) -> str:
    wanted, came = wanted.splitlines(), came.splitlines()
    return "\n".join(difflib.unified_diff(wanted, came, "wanted", "came", n=1, lineterm=""))


class Job:
    """A command in a folder, the files that it comes of, and what came."""

    # whether it takes a processor and memory for most of the time
    is_heavy = False

    def __init__(self, name: str, folder: str, words: list[str], sources: list[str]) -> None:
        self.name, self.folder, self.words, self.sources = name, folder, words, sources
        self.is_for_nobody, self.kept = False, None
        # what failed, each with what is shown of it, or None where another shows it
        self.passed, self.failed, self.skipped = 0, {}, {}

    def is_kept(self, kit: bytes) -> bool:
        """Whether it passed with this kit, all of its files as they are."""
        made = hashlib.sha256(repr([kit, self.words, self.is_for_nobody]).encode())
        for path in [os.path.realpath(__file__), *filter(os.path.isfile, self.sources)]:
            with open(path, "rb") as file:
                data = file.read()
            made.update(os.fsencode(os.path.relpath(path, ROOT)) + b" %d\n" % len(data) + data)
        self.kept = f"{KEPT}/{made.hexdigest()}"
        # a disk that was full may have left an empty file
        passed = lines_of(self.kept)
        if passed:
            self.passed = int(passed[0])
            self.tell("nothing changed since it passed")
        return bool(passed)

    @contextlib.contextmanager
    def begun(self, at: str) -> contextlib.AbstractContextManager[subprocess.Popen]:
        """The job at work, with a folder for what it writes."""
        os.makedirs(f"{at}/tmp")
        words = [*AS_NOBODY, *self.words] if self.is_for_nobody else self.words
        if self.is_for_nobody:
            os.chown(f"{at}/tmp", NOBODY, NOBODY)
        with open(f"{at}/out", "wb") as out, open(f"{at}/said", "wb") as said:
            with started(words, at, cwd=self.folder, stdout=out, stderr=said) as child:
                yield child

    def end(self, status: int, at: str, seconds: float) -> None:
        """Tells what came, and keeps that it passed."""
        self.judge(status, text_of(f"{at}/out"), text_of(f"{at}/said"))
        self.tell(f"{seconds:.0f} s")
        # where nothing can be written, nothing is kept
        with contextlib.suppress(OSError):
            if not self.failed:
                os.makedirs(KEPT, exist_ok=True)
                with open(self.kept, "w", encoding="utf-8") as file:
                    file.write(f"{self.passed}\n")

    def tell(self, how: str) -> None:
        skipped = f", {len(self.skipped)} skipped" if self.skipped else ""
        lines = [f"{self.name}: {self.passed} passed, {len(self.failed)} failed{skipped} ({how})"]
        lines += [f"  skipped: {name}: {why}" for name, why in self.skipped.items()]
        for name, text in self.failed.items():
            if text is None:
                continue
            shown = text.splitlines()
            if len(shown) > SHOWN:
                shown[SHOWN:] = [f"({len(shown) - SHOWN} lines more)"]
            lines += [f"  FAILED: {name}", *(f"    {it}" for it in shown)]
        print(*lines, sep="\n", flush=True)


class Scripts(Job):
    """The scripts, which say how many checks they made."""

    def __init__(self) -> None:
        # they also try the programs and the library, where these are built
        built = [f"{CRATES}/{it}/out/{it}" for it in ("cargo_toml_cli", "cargo_toml_tools_cli")]
        built.append(f"{CRATES}/cargo_toml_c/out/libcargo_toml.so")
        super().__init__("scripts/check", ROOT, [f"{SCRIPTS}/check"], [*files_below(ROOT), *built])

    def judge(self, status: int | str | None, out: str, said: str) -> None:
        found = re.search(r"(?m)^scripts/check: (\d+) checks, (\d+) failed$", out)
        self.passed = int(found[1]) - int(found[2]) if found else 0
        left = re.findall(r"(?m)^scripts/[\w-]+: not tried: (.*?)(?:, which (.*))?$", out)
        self.skipped = {what: why or "it can't be tried here" for what, why in left}
        told = re.split(r"(?m)^scripts/check: FAILED: ", out)[1:]
        self.failed = dict(it.partition("\n")[::2] for it in told)
        if status and not self.failed:
            self.failed["a script"] = out + said


class Layout(Job):
    """What `rt fmt` makes of a copy of the crates, which the gate wants to be the same."""

    is_heavy = True

    def __init__(self, crates: list[str]) -> None:
        parts = [f"{CRATES}/{it}/{part}" for it in crates for part in ("src", "specs", "proofs")]
        words = ["sh", "-c", "for it in crates/*/; do (cd $it && rt fmt) || exit; done"]
        super().__init__("rt fmt", ROOT, words, [it for part in parts for it in files_below(part)])

    def begun(self, at: str) -> contextlib.AbstractContextManager[subprocess.Popen]:
        self.folder = f"{at}/repository"
        for path in [*self.sources, f"{ROOT}/crates.txt", f"{ROOT}/HANDLES"]:
            copy = self.copy_of(path)
            os.makedirs(os.path.dirname(copy), exist_ok=True)
            shutil.copy(path, copy)
        # rt takes the folder that has it for the top of a repository
        os.mkdir(f"{self.folder}/.git")
        return super().begun(at)

    def copy_of(self, path: str) -> str:
        return f"{self.folder}/{os.path.relpath(path, ROOT)}"

    def judge(self, status: int | str | None, out: str, said: str) -> None:
        for path in self.sources:
            here, laid_out = text_of(path), text_of(self.copy_of(path))
            if here != laid_out:
                self.failed[os.path.relpath(path, ROOT)] = difference(laid_out, here)
        if status:
            self.failed["`rt fmt`"] = out + said
        self.passed = int(not self.failed)


def code_of(crates: Iterable[str]) -> list[str]:
    return [it for name in crates for it in files_below(f"{CRATES}/{name}/src")]


class Tests(Job):
    """The #[test] functions of a crate."""

    is_heavy = True

    def __init__(self, crate: str) -> None:
        sources = [f"{ROOT}/crates.txt", *code_of(crate_lines(ROOT, crate))]
        super().__init__(f"tests of {crate}", f"{CRATES}/{crate}", [*TRY, "--test"], sources)

    def judge(self, status: int | str | None, out: str, said: str) -> None:
        told = re.findall(r"(?m)^test (\S+) \.\.\. (.*)$", out)
        self.passed = sum(how == "ok" for _, how in told)
        self.failed = {name: how for name, how in told if how != "ok"}
        if status or not self.passed:
            self.failed["`rt try --test`"] = out + said


class Run:
    """A program on its words, with the files beside it, and what came of it."""

    # whether it must not be run by root
    is_for_nobody = False

    def __init__(self, what: str, crate: str, words: list[str]) -> None:
        self.name, self.crate, self.words = f"{what} of {crate}", crate, words
        self.folder, self.below = f"{CRATES}/{crate}", [*crate_lines(ROOT, crate)]
        self.data = files_below(f"{self.folder}/data")
        stored = [f"{self.folder}/{it}" for it in ("args", "stdin", "stdout", "status")]
        self.sources = stored + self.data
        self.passed, self.failed, self.skipped = 0, {}, {}


class Stored(Run):
    """A program on its stored words: its status, and what it prints."""

    def __init__(self, crate: str) -> None:
        super().__init__("stored run", crate, lines_of(f"{CRATES}/{crate}/args"))

    def judge(self, status: int | str | None, out: str, said: str) -> None:
        wanted = [*lines_of(f"{self.folder}/status"), "0"][0]
        stored = text_of(f"{self.folder}/stdout")
        if status != wanted:
            self.failed[f"status {wanted} of {self.crate}"] = said
        elif out != stored:
            self.failed[f"output of {self.crate}"] = difference(stored, out)
        else:
            self.passed = 1


class Rows(Run):
    """The rows of a program of rows whose names hold a word. Each of its words is a row, KIND/NAME,
    and the line of `stdout` at the same place is what it has to print of it."""

    def __init__(self, crate: str, word: str, is_bound: bool) -> None:
        folder = f"{CRATES}/{crate}"
        stored = (lines_of(f"{folder}/{it}") for it in ("args", "stdout"))
        stored = zip_longest(*stored, fillvalue="")
        self.wanted = {row: f"{line}\n" for row, line in stored if word in row}
        why = {row: why_not(f"{folder}/data/{row}", is_bound) for row in self.wanted}
        self.asked = [row for row in self.wanted if not why[row]]
        super().__init__("rows", crate, self.asked)
        self.skipped = {row: it for row, it in why.items() if it}
        self.is_for_nobody = is_bound and os.geteuid() == 0

    def judge(self, status: int | str | None, out: str, said: str) -> None:
        heads = {f"{row}:".replace("/", " ", 1): row for row in self.asked}
        came, row = dict.fromkeys(self.asked, ""), None
        for line in out.splitlines(keepends=True):
            row = heads.pop(line.partition(":")[0] + ":", row)
            if row:
                came[row] += line
        for row, text in came.items():
            if text and text != self.wanted[row]:
                self.failed[row] = self.shown(row, text)
        lost = [row for row, text in came.items() if not text]
        self.failed.update(dict.fromkeys(lost))
        self.passed = len(came) - len(self.failed)
        if lost:
            self.failed[lost[0]] = f"nothing came of it, nor of {len(lost) - 1} others\n{said}"
        elif status != "0":
            self.failed[f"status 0 of {self.crate}"] = said

    def shown(self, row: str, text: str) -> str:
        """What came, beside the file of the row that is most like it."""
        came, at = text.partition(": ")[2], f"{self.folder}/data/{row}"
        texts = [text_of(it) for it in ([at] if os.path.isfile(at) else files_below(at))]
        shared = [len({*it.splitlines()} & {*came.splitlines()}) for it in texts]
        most = max(shared, default=0)
        return difference(texts[shared.index(most)], came) if most else f"came: {came}"


# The program of which some programs are a part: the first line of its input names one of them.
ONE_OF_THEM = """//! Runs the program that the first line of standard input names.
#![tactic(auto)]

use std::process::{ExitCode, Termination};

fn main(rt: HostRuntime) -> ExitCode {
    // what is read ahead goes back where the reader ends: the program reads on behind the name
    let first = rt.lines(rt.alloc()).next();
    match first {
        Some(Ok(name)) => match name.as_str() {
%s
            _ => ExitCode::from(2),
        },
        _ => ExitCode::from(2),
    }
}
"""


class Programs(Job):
    """Runs of several programs, built as one by `rt try`. In a copy of their sources each program
    is a library with a public `main`, and a case of `rt try --cases` for each names it, before what
    it reads itself."""

    is_heavy = True

    def __init__(self, runs: list[Run]) -> None:
        self.runs = runs
        self.below = dict.fromkeys(it for run in runs for it in run.below)
        sources = [f"{ROOT}/crates.txt", *code_of(self.below)]
        sources += [file for it in runs for file in it.sources]
        words, name = [it.words for it in runs], ", ".join(it.name for it in runs)
        super().__init__(name, ROOT, words, sources)
        self.is_for_nobody = any(it.is_for_nobody for it in runs)
        for it in runs:
            self.skipped.update(it.skipped)

    def begun(self, at: str) -> contextlib.AbstractContextManager[subprocess.Popen]:
        names, top = [it.crate for it in self.runs], f"{at}/repository"
        for name in self.below:
            shutil.copytree(f"{CRATES}/{name}/src", f"{top}/crates/{name}/src")
        lines = [line for name, line in crate_lines(ROOT).items() if name in self.below]
        put(f"{top}/crates.txt", *lines, f"one_of_them: {' '.join(names)}")
        put(f"{top}/HANDLES", *lines_of(f"{ROOT}/HANDLES"))
        for name in names:
            src = f"{top}/crates/{name}/src"
            text = text_of(f"{src}/main.rt").replace("\nfn main(", "\npub fn main(")
            put(f"{src}/lib.rt", text)
            os.remove(f"{src}/main.rt")
        calls = [f'            "{it}" => {it}::main(rt).report(&rt),' for it in names]
        put(f"{top}/crates/one_of_them/src/main.rt", ONE_OF_THEM % "\n".join(calls))
        # rt takes the folder that has it for the top of a repository
        os.mkdir(f"{top}/.git")
        self.folder, self.words = f"{top}/crates/one_of_them", [*TRY, "--cases", f"{at}/cases"]
        for run in self.runs:
            put(f"{at}/cases/{run.crate}", run.crate, *lines_of(f"{run.folder}/stdin"))
            put(f"{at}/cases/{run.crate}.args", *run.words)
            for path in filter(is_utf8, run.data):
                self.words += ["--data", f"{os.path.relpath(path, f'{run.folder}/data')}={path}"]
        return super().begun(at)

    def judge(self, status: int | str | None, out: str, said: str) -> None:
        ended = dict(ENDED.findall(said))
        # each program's output is behind a line with its name
        parts = re.split(rf"(?m)^== ({'|'.join(it.crate for it in self.runs)})\n", out)
        wrote = dict(zip(parts[1::2], parts[2::2]))
        for run in self.runs:
            run.judge(ended.get(run.crate), wrote.get(run.crate, ""), said)
            self.passed += run.passed
            self.failed.update(run.failed)


def put(path: str, *lines: str) -> None:
    os.makedirs(os.path.dirname(path), exist_ok=True)
    with open(path, "w", encoding="utf-8") as file:
        file.writelines(f"{it}\n" for it in lines)


def together(runs: Iterable[Run]) -> list[Job]:
    """Jobs of the runs. A program is built with one that stands on all that it stands on."""
    groups = {}
    for run in sorted(runs, key=lambda it: len(it.below), reverse=True):
        hosts = (it for it in groups if {*run.below} - {run.crate} <= {*it.below})
        groups.setdefault(next(hosts, run), []).append(run)
    return [Programs(it) for it in groups.values()]


def why_not(row: str, is_bound: bool) -> str:
    """Why the row in a folder isn't run here, if it isn't."""
    if not all(map(is_utf8, files_below(row))):
        return "`rt try` takes no file whose name isn't UTF-8; `rt ci` runs it"
    if not is_bound and any(it.endswith(" !denied") for it in lines_of(f"{row}/tree")):
        return "root may read everything, and nobody can't run `rt` here; `rt ci` runs it"
    return ""


def can_be_bound() -> bool:
    """Whether rows can be run by one who is bound by modes: by nobody, where this is root."""
    asked = ["sh", "-c", 'test -r "$0" && rt version', f"{ROOT}/crates.txt"]
    words, how = [*AS_NOBODY, *asked], {"stdout": subprocess.DEVNULL, "stderr": subprocess.DEVNULL}
    with contextlib.suppress(OSError):
        return os.geteuid() != 0 or subprocess.run(words, check=False, **how).returncode == 0
    return False


def jobs(word: str | None = None) -> list[Job]:
    """What is to be run, what takes longest first."""
    crates, is_bound = sorted(os.listdir(CRATES)), can_be_bound()
    programs = [it for it in crates if os.path.isfile(f"{CRATES}/{it}/stdout")]
    rows = [Rows(it, word or "", is_bound) for it in programs if it.endswith("_rows")]
    if word is not None:
        return together(it for it in rows if it.wanted)
    found = together([*rows, *(Stored(it) for it in programs if not it.endswith("_rows"))])
    for it in crates:
        if any("#[test]" in text_of(path) for path in files_below(f"{CRATES}/{it}/src")):
            found.append(Tests(it))
    size = {it: sum(map(os.path.getsize, filter(os.path.isfile, it.sources))) for it in found}
    return [Scripts(), *sorted(found, key=size.get, reverse=True), Layout(crates)]
