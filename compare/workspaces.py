"""Random workspaces on a disk, for complete.py and cargo_audit.py: members by patterns and by name,
what they inherit, and what is odd of them. Few names, so that they often meet."""

from __future__ import annotations

import os
import random

from judging import listed, put

FOLDERS = ["a", "b", "ab", "c-1", "c-2", "x.y", "é"]
ENTRIES = ["a*", "?", "*b", "c-?", "crates/*", "crates/?", "more/*/*", "c*/a", "./a/", "b/../a"]
ENTRIES += ["*", "absent", "crates/a"]
OUTSIDE = ["../side", "../side/*"]
KEYS = ["log", "serde", "rand", "x-y"]
REQUIREMENTS = ["1", "0.4", "^0.4", "=1.2.3", ">=1, <2", "*", "1.*"]
EDITIONS = ["2015", "2018", "2021", "2024"]
PUBLISH = ["true", "false", '["here"]', '["x", "y"]', "[]"]
LICENSES = ["MIT", "MIT OR Apache-2.0", "a|b"]
TABLES = ["dependencies", "dev-dependencies", "build-dependencies"]
TABLES += ["target.'cfg(unix)'.dependencies"]


class Workspaces:
    def __init__(self, seed: object) -> None:
        self.random = random.Random(seed)

    def happens(self, chance: float) -> bool:
        return self.random.random() < chance

    def some(self, of: list[str], most: int) -> list[str]:
        return [self.random.choice(of) for _ in range(self.random.randrange(most + 1))]

    def given(self) -> list[str]:
        """The table `workspace.package`, as lines."""
        lines = ["[workspace.package]", 'version = "1.2.3"']
        if self.happens(0.7):
            lines.append(f'edition = "{self.random.choice(EDITIONS)}"')
        if self.happens(0.7):
            lines.append(f'license = "{self.random.choice(LICENSES)}"')
        if self.happens(0.5):
            lines.append('rust-version = "1.70"')
        if self.happens(0.3):
            lines.append(f"publish = {self.random.choice(PUBLISH)}")
        return lines

    def shared(self) -> list[str]:
        """The table `workspace.dependencies`, as lines."""
        lines = ["[workspace.dependencies]"]
        for key in filter(lambda _: self.happens(0.8), KEYS):
            lines.append(f"{key} = {self.requirement()}")
        return lines

    def requirement(self) -> str:
        """A dependency with a requirement, at times under another key than its crate's name."""
        version = f'"{self.random.choice(REQUIREMENTS)}"'
        if self.happens(0.8):
            return version
        return f'{{ version = {version}, package = "{self.random.choice(KEYS)}" }}'

    def root(self) -> list[str]:
        entries = self.some(ENTRIES + FOLDERS, 4)
        if self.happens(0.2):
            entries.append(self.random.choice(OUTSIDE))
        lines = ["[workspace]", f"members = {listed(entries)}"]
        if self.happens(0.4):
            excluded = self.some(FOLDERS + ["crates", "crates/a", "more/b", "."], 2)
            lines.append(f"exclude = {listed(excluded)}")
        if self.happens(0.9):
            lines += self.given()
        if self.happens(0.9):
            lines += self.shared()
        return lines

    def inheritable(self, key: str, value: str) -> list[str]:
        return [f"{key}.workspace = true" if self.happens(0.4) else f"{key} = {value}"]

    def package(self, number: int) -> list[str]:
        lines = ["[package]", f'name = "member-{number}"']
        lines += self.inheritable("version", f'"0.{number}.0"')
        if self.happens(0.8):
            lines += self.inheritable("edition", f'"{self.random.choice(EDITIONS)}"')
        if self.happens(0.6):
            lines += self.inheritable("license", f'"{self.random.choice(LICENSES)}"')
        if self.happens(0.3):
            lines += self.inheritable("rust-version", '"1.60"')
        if self.happens(0.3):
            lines += self.inheritable("publish", self.random.choice(PUBLISH))
        return lines

    def dependencies(self) -> list[str]:
        lines = []
        for table in TABLES:
            if self.happens(0.6):
                continue
            lines.append(f"[{table}]")
            for key in sorted(set(self.some(KEYS * 3 + ["other"], 3))):
                own = '{ path = "../a" }' if self.happens(0.1) else self.requirement()
                lines.append(f"{key} = {own}" if self.happens(0.6) else f"{key}.workspace = true")
        return lines

    def member(self, number: int) -> list[str]:
        if self.happens(0.05):
            return ["[features]"]
        return self.package(number) + self.dependencies()

    def write(self, folder: str) -> str:
        """Writes a workspace into this folder, which isn't there yet."""
        root = f"{folder}/root"
        places = [f"{root}/{name}" for name in FOLDERS]
        places += [f"{root}/crates/{name}" for name in FOLDERS]
        places += [f"{root}/more/{name}/a" for name in FOLDERS[:3]] + [f"{folder}/side"]
        lines = self.root()
        put_manifest(root, lines + (self.package(0) if self.happens(0.3) else []))
        for number, place in enumerate(places):
            if self.happens(0.7):
                put_manifest(place, self.member(number + 1))
                put(f"{place}/src/lib.rs", "")
            elif self.happens(0.3):
                put(place, "a file, and no folder\n")
        return root


PLACES = ["a", "b", "ab", "c", "c/a", "c/b", "c/d", "c/d/x", "c/x", "m/a/inner", "m/b/inner"]
PLACES += ["m/a", "n", "n/s", "x"]
PATTERNS = ["?", "[ab]", "[a-c]", "a*", "c/[!s]*", "c/?", "c/[a-b]", "m/*/inner", "m/a/[!s]*"]
PATTERNS += ["**/x", "c/**/x", "**/inner", "m/**/inner", "[!b-z]b", "c/*/x", "*/a", "[!ms]*", "?/"]
ODD_ENTRIES = ["a/../b", "./a", "a/", ".", "", "absent", "c/../m/a/inner", "a**", "***", "[a"]
ODD_ENTRIES += ["a//b", "file", "link", "loop", "c/*/../a", "absent/../a", "m/*/absent", "z*"]
ODD_ENTRIES += ["[]", "[!]"]
ODDITIES = 0.06


class OddWorkspaces(Workspaces):
    """Workspaces as Cargo takes them, each with few things that it may refuse."""

    def odd(self, often: float=1.0) -> bool:
        return self.happens(ODDITIES * often)

    def entries(self, most: int) -> list[str]:
        chosen = self.some(PLACES * 2 + PATTERNS, most)
        if self.odd(3):
            chosen.append(self.random.choice(ODD_ENTRIES))
        if self.odd():
            chosen.append(self.random.choice(["../out", f"{self.top}/root/b", f"{self.top}/out"]))
        return chosen

    def features(self) -> list[str]:
        texts = self.some(["std", "log", "dep:log", "log/std"] if self.odd(0.3) else ["std"], 2)
        return ["[features]", "std = []", f"all = {listed(texts)}"]

    def paths(self, place: str) -> list[str]:
        """Dependencies by paths, some of them of the workspace."""
        lines = []
        for table in TABLES:
            keys = sorted(set(self.some(PLACES, 2))) if self.happens(0.25) else []
            if not keys:
                continue
            lines.append(f"[{table}]")
            for key in keys:
                path = os.path.relpath(key, place)
                name = key.replace("/", "-")
                if key in self.shared_paths and self.happens(0.5):
                    flag = "false" if self.odd(0.3) else "true"
                    lines.append(f"{name} = {{ workspace = {flag} }}")
                else:
                    path = "../" * 3 + "out" if self.odd(0.2) else path
                    lines.append(f'{name} = {{ path = "{path}" }}')
        return lines

    def crate(self, place: str) -> list[str]:
        name = "same" if self.odd(0.3) else place.replace("/", "-").replace(".", "root")
        lines = ["[package]", f'name = "{name}"']
        version = ['version = "1.0.0"']
        lines += self.inheritable("version", '"0.1.0"') if self.has_package else version
        if self.happens(0.6):
            lines.append(f'edition = "{self.random.choice(EDITIONS[:3])}"')
        elif self.has_package and self.has_edition:
            lines.append("edition.workspace = true")
        if self.happens(0.3):
            lines.append(f'license = "{self.random.choice(LICENSES)}"')
        if self.happens(0.2):
            lines.append(f"publish = {self.random.choice(PUBLISH)}")
        if self.odd(0.6) and place != ".":
            up = "/".join([".."] * (place.count("/") + 1))
            lines.append(f'workspace = "{up if self.happens(0.6) else self.random.choice(PLACES)}"')
        if self.odd(0.3):
            lines += ["[lints]", "workspace = true"]
        if self.happens(0.3):
            lines += self.features()
        if self.odd(0.2) and place != ".":
            lines += ["[workspace]"]
        return lines + self.paths(place)

    def root_lines(self) -> list[str]:
        lines = ["[workspace]", f"members = {listed(self.entries(4))}", 'resolver = "2"']
        if self.happens(0.3):
            excluded = self.some(PLACES + ["c", "m", "m/a", "./a", "a/../b", "[ab]"], 2)
            lines.append(f"exclude = {listed(excluded)}")
        if self.odd(1.5):
            lines.append(f"default-members = {listed(self.entries(2))}")
        if self.has_package:
            lines += ["[workspace.package]", 'version = "1.2.3"']
            if self.has_edition:
                lines.append(f'edition = "{self.random.choice(EDITIONS[:3])}"')
        if self.odd(2):
            lines += ["[workspace.lints.rust]", 'unsafe_code = "forbid"']
        lines.append("[workspace.dependencies]")
        for key in self.shared_paths:
            optional = ", optional = true" if self.odd(0.3) else ""
            lines.append(f'{key.replace("/", "-")} = {{ path = "{key}"{optional} }}')
        return lines

    def write(self, folder: str) -> str:
        """Writes a workspace into this folder, and answers the folder that is asked for."""
        self.top, root = folder, f"{folder}/root"
        self.has_package, self.has_edition = self.happens(0.7), self.happens(0.7)
        self.shared_paths = sorted(set(self.some(PLACES, 3)))
        lines = self.root_lines()
        if self.happens(0.5):
            lines = self.crate(".") + lines
            put(f"{root}/src/lib.rs", "")
        put_manifest(root, lines)
        for place in [*PLACES, "../out"]:
            if self.odd(0.3):
                continue
            if not self.odd(0.4):
                put_manifest(f"{root}/{place}", self.crate(place))
            target = self.random.choice(["src/lib.rs"] * 6 + ["src/main.rs", "src/bin/x.rs"])
            put(f"{root}/{place}/{target if not self.odd(0.2) else 'notes'}", "")
        if self.odd():
            put(f"{root}/{self.random.choice(['file', 'c/file', 'm/file'])}", "")
        if self.odd():
            os.symlink(self.random.choice(["loop", "a", "nowhere"]), f"{root}/loop")
        return f"{root}/{self.random.choice(PLACES)}" if self.odd(0.8) else root


def put_manifest(folder: str, lines: list[str]) -> None:
    put(f"{folder}/Cargo.toml", "".join(f"{line}\n" for line in lines))
