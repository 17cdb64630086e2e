"""What scripts/answer, scripts/building.py and ./test share: the program that is called, a room for
temporary files, and commands that end when the script does."""

from __future__ import annotations

import contextlib
import os
import re
import shutil
import signal
import subprocess
import sys
import tempfile
import time
from collections.abc import Callable, Iterable, Iterator
from typing import NoReturn

from sources import crate_lines

# The status where no answer can be had: scripts/program.sh lists the causes.
NO_ANSWER = 4
SIGNALS = (signal.SIGINT, signal.SIGTERM, signal.SIGHUP, signal.SIGQUIT)


class Program:
    """The program, its crate and its repository."""

    kind = "program"

    def __init__(self, launcher: str, crate: str, called: str) -> None:
        # the path of its script, and how that was called
        self.launcher, self.called = launcher, called
        self.root, self.name = os.path.split(launcher)
        self.crate, self.folder = crate, f"{self.root}/crates/{crate}"
        self.out = f"{self.folder}/out"
        # the name there of what is built
        self.made = crate
        self.times = times_of(self.root)

    def say(self, text: str) -> None:
        print(f"{self.name}: {text}", file=sys.stderr, flush=True)

    def is_fresh(self) -> tuple[bool, str]:
        """Whether it is built and newer than its sources, and else why it isn't."""
        words = [f"{self.root}/scripts/stale", self.root, self.crate, self.made]
        how = {"stdin": subprocess.DEVNULL, "stdout": subprocess.PIPE, "text": True}
        ran = subprocess.run(words, check=False, **how)
        return ran.returncode == 0, ran.stdout.strip()

    def made_of(self, _: str, folder: str) -> tuple[list[str], str]:
        """What the proofs in a copy have built, as a list of files, and what was said of that."""
        made = f"{folder}/crates/{self.crate}/out/{self.crate}"
        return [made] * os.path.isfile(made), ""

    def build_time(self) -> str:
        return f"some {self.minutes('build'):g} minutes on four cores"

    def minutes(self, what: str) -> float:
        """How long something takes: of this program, where that was measured, or of the first."""
        return self.times.get(f"{self.crate}_{what}", self.times[what])


def times_of(root: str) -> dict[str, float]:
    """The numbers of docs/times, by their names."""
    with open(f"{root}/docs/times", encoding="utf-8") as file:
        found = re.findall(r"(?m)^(\w+) (\d+)$", file.read())
    return {name: float(number) for name, number in found}


class Stopped(BaseException):
    """A signal ends this run."""

    def __init__(self, number: int) -> None:
        super().__init__(number)
        self.number = number


def stop(number: int, _: object) -> NoReturn:
    # what is cleared away then is cleared away in peace
    for each in SIGNALS:
        signal.signal(each, signal.SIG_IGN)
    raise Stopped(number)


@contextlib.contextmanager
def undisturbed() -> Iterator[None]:
    """A signal waits until this is done."""
    came = []
    heard = [it for it in SIGNALS if signal.getsignal(it) is stop]
    for it in heard:
        signal.signal(it, lambda number, _: came.append(number))
    try:
        yield
    finally:
        for it in heard:
            signal.signal(it, stop)
        if came:
            stop(came[0], None)


@contextlib.contextmanager
def room(program: Program, places: list[str | None]) -> Iterator[str]:
    """A folder for all that a run writes, in the first place that can be written. It goes when the
    run ends, however that ends."""
    made = None
    try:
        with undisturbed():
            for place in places:
                with contextlib.suppress(OSError):
                    made = tempfile.mkdtemp(prefix=f"{program.name}-", dir=place)
                    made = os.path.realpath(made)
                    # as root, rt runs what it built as nobody, in a folder below this one
                    os.chmod(made, 0o711)
                    break
        if not made:
            program.say("no temporary file can be written: set TMPDIR to a folder with room")
            sys.exit(NO_ANSWER)
        yield made
    finally:
        with undisturbed():
            shutil.rmtree(made or "", ignore_errors=True)


def copy_crates(program: Program, to: str, also: Iterable[str] = ()) -> dict[str, list[str]]:
    """Copies the crates that the program stands on and their lines of crates.txt, and returns what
    each stands on. The same of other crates, where they are there.

    Wrong bodies are for the gate alone."""
    crates = crate_lines(program.root, program.crate)
    if not crates:
        raise OSError("scripts/closure finds no crate")
    for crate in also:
        crates |= crate_lines(program.root, crate)

    def left_out(at: str, _: list[str]) -> list[str]:
        return ["out", "must-fail"] if os.path.dirname(at) == f"{program.root}/crates" else []

    os.mkdir(to)
    for name in crates:
        folder = f"{program.root}/crates/{name}"
        shutil.copytree(folder, f"{to}/crates/{name}", symlinks=True, ignore=left_out)
    shutil.copy(f"{program.root}/HANDLES", to)
    # rt takes the folder that has it for the top of a repository
    os.mkdir(f"{to}/.git")
    listed = [(name, crates[name]) for name in crate_lines(program.root) if name in crates]
    with open(f"{to}/crates.txt", "w", encoding="utf-8") as file:
        file.writelines(f"{line}\n" for _, line in listed)
    return {name: [it for it in line.split()[1:] if it in crates] for name, line in listed}


def workers(at: str) -> list[int]:
    """The processes that were started for a room. They have the room in their environment, since
    their temporary files lie there."""
    found, mark = [], f"={at}/".encode()
    for name in filter(str.isdigit, os.listdir("/proc")):
        with contextlib.suppress(OSError), open(f"/proc/{name}/environ", "rb") as file:
            if mark in file.read() and int(name) != os.getpid():
                found.append(int(name))
    return found


def end(child: subprocess.Popen, at: str) -> None:
    """Ends a command and all that it started for the room."""
    if child.returncode is None:
        # rt ends what it started when it is ended
        with contextlib.suppress(ProcessLookupError):
            os.killpg(child.pid, signal.SIGTERM)
        with contextlib.suppress(subprocess.TimeoutExpired):
            child.wait(5)
    for _ in range(100):
        left = workers(at)
        if not left:
            break
        for it in left:
            with contextlib.suppress(OSError):
                os.kill(it, signal.SIGKILL)
        time.sleep(0.02)
    child.wait()


@contextlib.contextmanager
def started(words: list[str], at: str, **how: object) -> Iterator[subprocess.Popen]:
    """A command whose temporary files lie in the room. It has a session of its own, so that Ctrl-C
    reaches this script alone. However this run ends, so does all that the command started."""
    os.makedirs(f"{at}/tmp", exist_ok=True)
    os.chmod(f"{at}/tmp", 0o711)
    how["env"] = {**os.environ, "TMPDIR": f"{at}/tmp"}
    child = None
    try:
        with undisturbed():
            how["stdin"] = subprocess.DEVNULL
            child = subprocess.Popen(words, start_new_session=True, **how)
        yield child
    finally:
        if child:
            with undisturbed():
                end(child, at)


def run(task: Callable[..., int], launcher: str, crate: str, called: str, *more: str) -> int:
    """Does the task for the program, and returns the status. A signal ends it by that signal."""
    name = os.path.basename(launcher)
    try:
        for number in SIGNALS:
            if signal.getsignal(number) is not signal.SIG_IGN:
                signal.signal(number, stop)
        return task(Program(launcher, crate, called), *more)
    except (OSError, KeyError) as fault:
        if isinstance(fault, shutil.Error):
            # the first of the files that can't be copied
            _, to, why = fault.args[0][0]
            fault = f"{why.split(': ')[0]}: {to}"
        print(f"{name}: {fault}", file=sys.stderr)
        return NO_ANSWER
    except Stopped as stopped:
        signal.signal(stopped.number, signal.SIG_DFL)
        os.kill(os.getpid(), stopped.number)
        return NO_ANSWER
