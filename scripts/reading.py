"""The definitions in specs/: what a file defines, and for each claim of README what to read.

scripts/claims.txt says which clauses are behind a claim of README's "What is proved", and which
definitions to read, in blocks:

    claim NAME                the bold word of a claim
    clause FILE CALL [NAME]   a clause of a call in that file below crates/
    block WORDS               begins a block
    CRATE MODULE: NAME ..     definitions of a module, in the order in which they are shown; more
                              in lines that begin with a blank

scripts/reading.md stands above them.
"""

from __future__ import annotations

import re
import sys
from collections.abc import Iterator
from pathlib import Path
from typing import NoReturn

from sources import CRATES, ROOT, imports, spec_file

# What a proof may unfold. Of any other name it knows the type alone: that is a lemma.
DEFINITION = re.compile(
    r"^ *(?:(?:abbrev|unfoldable) pub|pub (?:record|data)) ([\w«»◌+≤≡-]+)(?=[ :])", re.M
)
MUTUAL = re.compile(r"^(abbrev|unfoldable) mutual\n((?: .*\n|\n)+)", re.M)
WORD = re.compile(r"[\w◌≡≤↔∷+«»-]+")
CLAIM = re.compile(r"^- \*\*(.+?)\.\*\* ((?:.+\n)(?:  .+\n)*)", re.M)
KIT = re.compile(r"^ *use Rattle\.(toml|semver)\.specs\.[\w.]+\.\{([^}]*)\}", re.M)


# A block: its title, and of each module its crate, its name, and the definitions to show.
Block = tuple[str, list[tuple[str, str, list[str]]]]
# A claim: its name, its clauses, and its blocks.
Claim = tuple[str, list[list[str]], list[Block]]


def fail(words: str) -> NoReturn:
    sys.exit(f"scripts/reference: {words}")


def definitions(file: Path) -> Iterator[tuple[str, str, str]]:
    """Each definition of a file: its name, the comment above it, and its text. Those that stand in
    one block are taken as if each stood alone: the comment above the block is that of the first."""
    text = MUTUAL.sub(
        lambda it: it.group(2).replace("  pub ", f"  {it.group(1)} pub "), file.read_text()
    )
    found = list(DEFINITION.finditer(text))
    for this, after in zip(found, [*found[1:], None]):
        above = text[: this.start()].splitlines()
        said = []
        while above and re.match(r" *--(?! ----)", above[-1]):
            said.insert(0, above.pop().strip()[2:].strip())
        body = text[this.start() : after.start() if after else len(text)]
        yield this.group(1), " ".join(said), body


def believed(crate: str) -> list[Path]:
    """The files of a crate's definitions, in the order of its Lib.antt, but for those behind a
    comment by which nothing there has to be believed."""
    lib = CRATES / crate / "specs/Lib.antt"
    text = lib.read_text() if lib.exists() else ""
    return [
        lib.with_name(f"{name}.antt")
        for above, listed in re.findall(r"((?:^--.*\n)*)((?:^pub mod .*\n)+)", text, re.M)
        if "nothing here has to be believed" not in re.sub(r"[\s-]+", " ", above)
        for name in re.findall(r"pub mod (\w+)", listed)
    ]


def commented(lines: list[str], at: int) -> int:
    """The first line of the comment above a line, or the line itself."""
    indent = re.match(" *", lines[at]).group()
    while at and re.match(rf"{indent}--(?! ----)", lines[at - 1]):
        at -= 1
    return at


def module_around(lines: list[str], at: int) -> list[str]:
    """The heads of the modules around a line, outermost first: what stands below gets their
    parameters."""
    heads, indent = [], len(re.match(" *", lines[at]).group())
    for above in range(at, -1, -1):
        line = lines[above]
        if line.lstrip().startswith("module _") and len(line) - len(line.lstrip()) < indent:
            indent = len(line) - len(line.lstrip())
            last = next(i for i in range(above, at) if lines[i].endswith(" where"))
            heads.insert(0, lines[commented(lines, above) : last + 1])
    return [line for head in heads for line in head]


def whole(file: Path, name: str) -> tuple[list[str], list[str]]:
    """A definition with its comment, as it stands in its file, and the heads of the modules around
    it. Of those that are defined together all are shown."""
    lines = file.read_text().splitlines()
    at = next(
        (i for i, line in enumerate(lines)
         if (found := DEFINITION.match(line)) and found.group(1) == name),
        None,
    )
    if at is not None:
        last = next((i for i in range(at, len(lines)) if not lines[i].strip()), len(lines))
        return module_around(lines, at), lines[commented(lines, at) : last]
    for block in MUTUAL.finditer("\n".join(lines) + "\n"):
        if re.search(rf"^ *pub {re.escape(name)} :", block.group(2), re.M):
            at = block.string[: block.start()].count("\n")
            last = at + block.group().rstrip().count("\n") + 1
            following = next((i for i in range(at + 1, last) if lines[i][:1].strip()), last)
            shown = lines[commented(lines, at) : following]
            return [], "\n".join(shown).rstrip().splitlines()
    return fail(f"scripts/claims.txt: {file.relative_to(CRATES)} has no {name}")


def claims() -> list[Claim]:
    """What scripts/claims.txt says: of each claim its name, its clauses, and its blocks."""
    found = []
    for line in (ROOT / "scripts/claims.txt").read_text().splitlines():
        word, _, rest = line.partition(" ")
        if not line or word == "#":
            continue
        if not word:
            found[-1][2][-1][1][-1][2].extend(line.split())
            continue
        if word == "claim":
            found.append((rest, [], []))
        elif word == "clause":
            found[-1][1].append(rest.split())
        elif word == "block":
            found[-1][2].append((rest, []))
        else:
            module, _, names = rest.partition(": ")
            found[-1][2][-1][1].append((word, module, names.split()))
    return found


def clause_of(path: str, call: str, name: str = "") -> str:
    """The text of a clause."""
    text = (CRATES / path).read_text()
    found = re.search(rf"^ *(?:pub )?fn {call}\b.*?^ *\{{\}}?$", text, re.M | re.S)
    for clause in re.split(r"\n *(?=requires|ensures)", found.group() if found else "")[1:]:
        if re.match(rf"ensures\*? ?{name} ?\{{", clause):
            return " ".join(re.sub(r"\s*\{\}?\s*$", "", clause, flags=re.S).split())
    return fail(f"scripts/claims.txt: {path} has no clause {name} of {call}")


def used(words: set[str], source: str) -> set[tuple[Path, str]]:
    """Those of these words that a source imports from this repository: of each its file."""
    return {
        (file, name)
        for crate, module, name, called in imports(source, is_ghost="ghost use" in source)
        if called in words and (file := spec_file(crate, module))
    }


def link(file: Path, name: str = "") -> str:
    return f"[{name or file.stem}](../{file.relative_to(ROOT)})"


def folded(text: str) -> list[str]:
    """A clause in lines of at most 100 columns."""
    lines = [""]
    for word in text.split():
        if len(lines[-1]) + 1 + len(word) > 100:
            lines.append("   ")
        lines[-1] += " " * bool(lines[-1]) + word
    return lines


class Part:
    """The part on one claim: its lines, the definitions that it shows, and the words that these
    use, of this repository and of the kit."""

    def __init__(self, number: int, name: str, sentence: str) -> None:
        self.number = number
        self.lines = ["", f"## {number}. {name}", "", sentence, ""]
        self.shown, self.words, self.kit = set(), set(), {}

    def take(self, text: str, source: str, file: Path | None = None) -> None:
        """Notes what a text uses that stands in this source, and in this file of definitions."""
        words = set(WORD.findall(text))
        self.words |= used(words, source)
        if file:
            self.words |= {(file, it) for it, _, _ in definitions(file) if it in words}
        for of, names in KIT.findall(source):
            self.kit.setdefault(of, set()).update(words & set(re.split(r",\s*", names)))

    def add_clauses(self, clauses: list[list[str]]) -> None:
        """The texts of the clauses, call by call."""
        for path, call in dict.fromkeys((it[0], it[1]) for it in clauses):
            file = CRATES / path
            self.lines += [f"`{call}`, in {link(file, file.name)}:", "", "```text"]
            for which in (it[2:] for it in clauses if it[:2] == [path, call]):
                text = clause_of(path, call, *which)
                self.take(text, file.read_text())
                self.lines += folded(text)
            self.lines += ["```", ""]

    def add_module(self, crate: str, module: str, names: list[str]) -> None:
        """Definitions of one module, each whole."""
        file, around = spec_file(crate, module), None
        if not file:
            fail(f"scripts/claims.txt: {crate} has no definitions {module}")
        self.lines += [f"{link(file)} of `{crate}`:", "", "```text"]
        for name in names:
            head, lines = whole(file, name)
            self.lines += [""] * (around is not None) + head * (head != around) + lines
            around = head
            self.shown.add((file, name))
            self.take("\n".join(head + lines), file.read_text(), file)
        self.lines += ["```", ""]

    def further(self, shown_in: dict[tuple[Path, str], int]) -> list[str]:
        """What the definitions use that isn't shown here, by file."""
        files = {}
        for file, name in sorted(self.words - self.shown):
            number = shown_in.get((file, name))
            files.setdefault(file, []).append(f"`{name}`" + (f" ({number})" if number else ""))
        of_kit = {of: [f"`{it}`" for it in sorted(it)] for of, it in sorted(self.kit.items())}
        return [
            "Not shown here; a number is that of the claim that shows it:",
            "",
            *(f"- {link(file)}: {', '.join(names)}" for file, names in files.items()),
            *(f"- the kit's `{of}`: {', '.join(names)}" for of, names in of_kit.items() if names),
        ]


def parts() -> Iterator[tuple[str, Part]]:
    """The parts on the claims of README, in its order."""
    part = (ROOT / "README.md").read_text().split("## What is proved\n")[1].split("\n## ")[0]
    said, listed = CLAIM.findall(part), claims()
    if [name for name, _ in said] != [name for name, _, _ in listed]:
        fail("README and scripts/claims.txt have other claims")
    for number, ((name, sentence), (_, clauses, blocks)) in enumerate(zip(said, listed), 1):
        made = Part(number, name, " ".join(sentence.split()))
        made.add_clauses(clauses)
        for at, (title, modules) in enumerate(blocks, 1):
            made.lines += [f"**{at}. {title}**", ""]
            for module in modules:
                made.add_module(*module)
        yield name, made


def reading_order() -> list[str]:
    """The lines of DEFINITIONS.md."""
    made, shown_in = dict(parts()), {}
    for part in made.values():
        shown_in |= dict.fromkeys(part.shown - shown_in.keys(), part.number)
    head, mark, rest = (ROOT / "scripts/reading.md").read_text().partition("## ")
    links = ", ".join(f"[{it}](#{part.number}-{it.lower()})" for it, part in made.items())
    out = [*head.splitlines(), "- [How to read them](#how-to-read-them), [words](#words)"]
    out += [f"- {links}", "", *(mark + rest).splitlines()]
    for part in made.values():
        out += [*part.lines, *part.further(shown_in)]
    return out
