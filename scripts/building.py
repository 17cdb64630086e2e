#!/usr/bin/env python3
"""Proves and builds a program, or the library for C: by `rt ci`, in a copy of the crates that it
stands on. scripts/program.sh calls it: building.py LAUNCHER CRATE CALLED, where LAUNCHER is the
path of the program's script, and CALLED how that was called.

`rt ci` proves from nothing what no earlier run on this machine has proved, and keeps what passes
for later runs and for the gate. So a build that was interrupted goes on where it stopped. The copy
lies among the temporary files, and goes at the end.
"""

from __future__ import annotations

import contextlib
import fcntl
import os
import re
import shutil
import subprocess
import sys
import tempfile
import time
from collections.abc import Iterable, Iterator

sys.dont_write_bytecode = True
from running import NO_ANSWER, Program, Stopped, copy_crates, room, run, started  # noqa: E402

# What each crate stands on.
Below = dict[str, list[str]]
# Seconds between two looks at the run.
PAUSE = 0.3
# So many crates are proved at once. `rt ci NAME` gives a proof half of the processors, since it
# counts the crate's tests beside it, also where there are none; and no proof keeps all of its
# processors busy all the time.
SIDE_BY_SIDE = 3
# It is proved too, beside what the program waits for: programs of users stand on it.
LIBRARY = "cargo_toml"
# Begins a run that has time, since no other waits for it: two processors would cost more in all.
ONE_PROCESSOR = ["env", "RT_JOBS=1"]
# So a run ends that has judged nothing, as `rt ci NAME` does with a kit whose `rt ci` takes no
# name.
NOT_JUDGED = 2
DONE = re.compile(r"^rt: (\w+) (?:proved|is kept: .*)\n", re.MULTILINE)


def spelled(minutes: float) -> str:
    return f"{minutes:.0f} min" if minutes >= 1 else f"{60 * minutes:.0f} s"


def closed(below: Below) -> dict[str, set[str]]:
    """What each crate stands on, through others too."""
    found = {}

    def of(name: str) -> set[str]:
        if name not in found:
            found[name] = {*below[name]}.union(*map(of, below[name]))
        return found[name]

    return {name: of(name) for name in below}


class Progress:
    """How far a build is, and what of it is long."""

    def __init__(self, program: Program, below: Below) -> None:
        # what each crate stands on
        self.program, self.below = program, closed(below)
        self.done, self.at_work, self.shown, self.width = [], [], None, 0
        self.begun = time.monotonic()
        known = [program.times[it] for it in below if it in program.times] or [1]
        usual = sum(known) / len(known)
        self.shares = {it: program.times.get(it, usual) for it in below}

    def chains(self) -> dict[str, float]:
        """For each crate the longest chain of crates from it up, each of which stands on the one
        before, by their shares."""
        found = {}

        def of(name: str) -> float:
            if name not in found:
                above = [of(it) for it, low in self.below.items() if name in low]
                found[name] = self.shares[name] + max(above, default=0)
            return found[name]

        return {name: of(name) for name in self.below}

    def is_chain(self, crates: set[str]) -> bool:
        """Whether each of some crates stands on the others before it, so that no two of them can be
        proved side by side."""
        in_order = sorted(crates, key=lambda it: len(self.below[it]))
        return all(low in self.below[high] for low, high in zip(in_order, in_order[1:]))

    def look(self, said: str, at_work: Iterable[str]) -> None:
        """Takes in what `rt ci` has said so far, and which crates are being proved."""
        self.done = [it for it in dict.fromkeys(DONE.findall(said)) if it in self.below]
        # one that stands on another waits for it
        begun = {*at_work}.difference(self.done)
        self.at_work = [it for it in at_work if it in begun and begun.isdisjoint(self.below[it])]

    def show(self) -> None:
        """Shows how far the build is: a line a change, or one line that changes on a terminal."""
        so_far = spelled((time.monotonic() - self.begun) / 60)
        line = f"{len(self.done)} of {len(self.below)} crates proved, {so_far} so far"
        if self.at_work:
            line += f"; proving {', '.join(self.at_work)}"
        state = self.done, self.at_work
        if sys.stderr.isatty():
            line = f"{self.program.name}: {line}"[: shutil.get_terminal_size().columns - 1]
            print("\r" + line.ljust(self.width), end="", file=sys.stderr, flush=True)
            self.width = len(line)
        elif state != self.shown:
            self.program.say(line)
        self.shown = state

    def end(self) -> None:
        if self.width:
            print(file=sys.stderr, flush=True)


class Runs:
    """Runs of `rt ci` in the copy. Each is told to the progress, and ends where this does."""

    def __init__(
        self, progress: Progress, ends: contextlib.ExitStack, at: str, **how: object
    ) -> None:
        self.progress, self.ends, self.at, self.how = progress, ends, at, how

    def start(self, *names: str, has_time: bool = False) -> subprocess.Popen:
        words = [*(ONE_PROCESSOR if has_time else []), "rt", "ci", *names]
        return self.ends.enter_context(started(words, self.at, **self.how))

    def wait(self, at_work: dict[str, subprocess.Popen]) -> list[str]:
        """Waits for one of some runs, told by their crates, and returns those that ended."""
        while True:
            self.how["stdout"].seek(0)
            self.progress.look(self.how["stdout"].read(), at_work)
            self.progress.show()
            ended = [name for name, run in at_work.items() if run.poll() is not None]
            if ended:
                return ended
            time.sleep(PAUSE)

    def prove(self, top: str) -> bool:
        """Proves the crates and builds the program, and returns whether all passed. Each crate has
        a run of its own, once what it stands on is proved, until what is left is a chain. Where one
        fails, those at work go on, and no other begins; where one judges nothing, one run proves
        all."""
        progress, at_work, passed, judged = self.progress, {}, True, True
        left, above = {*progress.below} - {top}, progress.chains()
        while at_work or (passed and not progress.is_chain(left)):
            unproved = left | {*at_work}
            ready = [it for it in left if passed and unproved.isdisjoint(progress.below[it])]
            ready.sort(key=above.get, reverse=True)
            # what is at work may end at any time
            begun = {it: progress.shares[it] for it in at_work}
            longest = max((above[it] - begun.get(it, 0) for it in unproved), default=0)
            for name in ready[: SIDE_BY_SIDE - len(at_work)]:
                left.remove(name)
                has_time = longest - above[name] >= progress.shares[name]
                at_work[name] = self.start(name, has_time=has_time)
            for name in self.wait(at_work):
                status = at_work.pop(name).returncode
                judged = status != NOT_JUDGED and judged
                passed = status == 0 and passed
        if passed or not judged:
            last = self.start()
            self.wait(dict.fromkeys([*left, top], last))
            passed = last.returncode == 0
        return passed


def prove(program: Program, folder: str, below: Below) -> tuple[bool, str]:
    """Proves in the copy, and returns whether all passed, with what was said.

    `rt ci` alone would begin each proof with the processors that no other proof waits for, which is
    one where several can begin, and leave it with that. So each crate has a run of its own, as long
    as several can go side by side: to begin a run takes some twenty seconds."""
    at, progress = os.path.dirname(folder), Progress(program, below)
    with open(f"{at}/log", "a+", encoding="utf-8", errors="replace") as log:
        how = {"cwd": folder, "stdout": log, "stderr": subprocess.STDOUT}
        try:
            with contextlib.ExitStack() as ends:
                runs = Runs(progress, ends, at, **how)
                passed = runs.prove(program.crate)
        finally:
            progress.end()
        log.seek(0)
        return passed, log.read()


@contextlib.contextmanager
def in_turn(program: Program) -> Iterator[None]:
    """Waits while another run builds the program."""
    with open(program.launcher, "rb") as file:
        try:
            fcntl.flock(file, fcntl.LOCK_EX | fcntl.LOCK_NB)
        except BlockingIOError:
            program.say(f"another run builds the {program.kind}; waiting for it")
            fcntl.flock(file, fcntl.LOCK_EX)
        except OSError:
            # some file systems have no locks: each run then builds it
            pass
        yield


def beginning(program: Program) -> int:
    """The time of a file that is made now, where what is built is to stand. What is changed from
    now on is newer than that."""
    try:
        os.makedirs(program.out, exist_ok=True)
        with tempfile.TemporaryFile(dir=program.out) as file:
            return os.fstat(file.fileno()).st_mtime_ns
    except OSError as fault:
        program.say(f"the {program.kind} can't be put into {program.out}: {fault.strerror}")
        sys.exit(NO_ANSWER)


def put(program: Program, made: str, began: int) -> None:
    """Puts what was made in its place, whole and in one step."""
    place = f"{program.out}/{os.path.basename(made)}"
    new = f"{place}.new-{os.getpid()}"
    try:
        shutil.copyfile(made, new)
        os.chmod(new, 0o755)
        os.utime(new, ns=(began, began))
        os.replace(new, place)
    finally:
        with contextlib.suppress(FileNotFoundError):
            os.remove(new)


def build_here(program: Program, at: str) -> bool:
    """Builds of what the gate has just proved in the repository itself, with a room to work in.
    Returns whether it could be made."""
    began = beginning(program)
    made, said = program.made_of(at, program.root)
    for it in made:
        put(program, it, began)
    if not made:
        print(*said.splitlines()[-20:], sep="\n", file=sys.stderr)
        program.say(f"the {program.kind} could not be built")
    return bool(made)


def made_in(program: Program, at: str, began: int) -> bool:
    """Builds in the room and puts what is made in its place. Returns whether it stands there."""
    folder = f"{at}/repository"
    below = copy_crates(program, folder, also=[LIBRARY])
    is_proved, said = prove(program, folder, below)
    made, more = program.made_of(at, folder) if is_proved else ([], "")
    # the gate may have taken the folder away meanwhile
    os.makedirs(program.out, exist_ok=True)
    for it in made:
        put(program, it, began)
    if made:
        return True
    said, log = said + more, f"{program.out}/build.log"
    with open(log, "w", encoding="utf-8", errors="replace") as file:
        file.write(said)
    print(*said.splitlines()[-20:], sep="\n", file=sys.stderr)
    program.say(f"the {program.kind} could not be built; {log} says more")
    return False


def build_now(program: Program) -> int:
    began, clock = beginning(program), time.monotonic()
    program.say(
        f"proves and builds the {program.kind} from nothing, in {program.build_time()}; "
        "what rt has kept of earlier runs is taken up"
    )
    # the first lies on a disk, and is kept for longer than an hour
    places = [os.environ["TMPDIR"]] if os.environ.get("TMPDIR") else ["/var/tmp", "/tmp"]
    try:
        with room(program, places) as at:
            if not made_in(program, at, began):
                return NO_ANSWER
    except Stopped:
        program.say("stopped; the next build takes up what rt has kept of this one")
        raise
    is_fresh, why = program.is_fresh()
    if not is_fresh:
        program.say(
            f"a source was changed meanwhile, so the {program.kind} {why}: build it again"
        )
        return NO_ANSWER
    program.say(
        f"the proved {program.kind} is built, after {spelled((time.monotonic() - clock) / 60)}"
    )
    return 0


def build(program: Program) -> int:
    """Builds what is to be built, and returns the status."""
    with in_turn(program):
        if not program.is_fresh()[0]:
            return build_now(program)
    program.say(f"the proved {program.kind} is built, and newer than its sources")
    return 0


if __name__ == "__main__":
    sys.exit(run(build, *sys.argv[1:]))
