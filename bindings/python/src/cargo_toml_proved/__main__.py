"""The command line: `python -m cargo_toml_proved COMMAND FILE..`."""

from __future__ import annotations

import argparse
import json
import sys
from typing import Any, Callable, List, Optional

from . import ManifestError, check, document, features, from_crate, index, lint, read, version

CALLS: List[Callable[[bytes], Any]] = [read, features, check, lint, index, document]
COMMANDS = {call.__name__: call for call in CALLS}


def _done(command: str, name: str) -> bool:
    """Prints what a command answers of a file; whether it isn't refused."""
    try:
        if name.endswith(".crate"):
            crate = from_crate(name)
            value = crate.index() if command == "index" else COMMANDS[command](crate.text)
        else:
            with sys.stdin.buffer if name == "-" else open(name, "rb") as file:
                value = COMMANDS[command](file.read())
    except (OSError, ValueError) as fault:
        faults = fault.faults if isinstance(fault, ManifestError) else []
        for it in faults:
            key = f"{it['key']}: " if it["key"] else ""
            print(f"{name}:{it['line']}:{it['column']}: {key}{it['words']}", file=sys.stderr)
        if not faults:
            print(f"error: {name}: {fault}", file=sys.stderr)
        return False
    print(json.dumps(value, separators=(",", ":"), ensure_ascii=False))
    return True


def main(words: Optional[List[str]] = None) -> int:
    """The status of a command: 1 where a file is refused, 2 where the words are none."""
    parser = argparse.ArgumentParser(
        prog="python -m cargo_toml_proved",
        description="Prints a line of JSON for each FILE, a Cargo.toml or a .crate.",
    )
    parser.add_argument("--version", action="version", version=version())
    parser.add_argument("command", choices=sorted(COMMANDS))
    parser.add_argument("files", nargs="+", metavar="FILE", help="`-` is standard input")
    asked = parser.parse_args(words)
    return 0 if all([_done(asked.command, name) for name in asked.files]) else 1


if __name__ == "__main__":
    sys.exit(main())
