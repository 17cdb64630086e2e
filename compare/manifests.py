"""Random manifests for `cargo`: dependencies of every table and source, and features over them. Few
names, so that they often meet."""

from __future__ import annotations

import random

from judging import listed, quoted

CORP = "https://example.com/corp/index"
KEYS = ["log", "serde", "rand", "x-y"]
REQUIREMENTS = ["1", "0.4", "^0.4", "=1.2.3", ">=1, <2", "*", "1.*", "~1.2"]
VERSIONS = ["1.0.0", "0.1.2-rc.1", "2.0.0+meta", "0.0.0"]
# What a workspace gives, each under the key of the package that is left to it.
GIVEN = {"version": '"1.4.0"', "rust-version": '"1.91"', "publish": '["crates-io"]'}
EDITIONS = ["2015", "2018", "2021", "2021", "2024"]
NAMES = ["default", "a", "b", "c", "_h", "std", "log"]
ODD_NAMES = ["", "a b", "a/b", "a:b", "dep:a", "+a", "-a", ".a", "a?", "é", "it"]
ODD_TEXTS = ["nothing", "dep:nothing", "nothing/f", "a?", "dep:log/f", "log/f/g", "dep:log?/f", ""]
PUBLISH = ["true", "true", "false", "[]", '["crates-io"]', '["corp"]']
TABLES = ["dependencies", "dev-dependencies", "build-dependencies"]
TARGETS = ["", "", "", "target.'cfg(unix)'.", "target.x86_64-pc-windows-gnu."]


class Manifests:
    def __init__(self, seed: object) -> None:
        self.random = random.Random(str(seed))
        self.edition, self.version = "2021", "0.0.0"
        self.keys = {}

    def happens(self, chance: float) -> bool:
        return self.random.random() < chance

    def one(self, of: list[str]) -> str:
        return self.random.choice(of)

    def entry(self, key: str, table: str, path: str | None, is_member: bool) -> tuple[str, bool]:
        """The entry of a dependency, and whether it is optional."""
        parts = [f'version = "{self.one(REQUIREMENTS)}"']
        if is_member and self.happens(0.2):
            parts = ["workspace = true"]
        elif path and self.happens(0.15):
            parts = [f'path = "{path}"', 'package = "other"'] + parts[: self.random.randrange(2)]
        elif self.happens(0.1):
            parts = ['git = "https://example.com/git"'] + parts[: self.random.randrange(2)]
        elif self.happens(0.2):
            parts.append(self.one(['registry = "corp"', f'registry-index = "{CORP}"']))
        if parts[0].startswith("version") and self.happens(0.2):
            parts.append(f'package = "{self.one([key, "renamed"])}"')
        if self.happens(0.3):
            parts.append(f"features = {self.some(['std', 'derive', 'alloc'])}")
        if self.happens(0.3):
            is_old = self.edition != "2024" and self.happens(0.1)
            flag = "default_features" if is_old else "default-features"
            parts.append(f"{flag} = {self.one(['true', 'false'])}")
        is_optional = "dev" not in table and self.happens(0.4)
        if is_optional:
            parts.append("optional = true")
        return f"{key} = {{ {', '.join(parts)} }}", is_optional

    def some(self, of: list[str]) -> str:
        return listed(one for one in of if self.happens(0.5))

    def tables(self, path: str | None, is_member: bool) -> list[str]:
        """Tables of dependencies. One key has one source and is optional everywhere or nowhere."""
        lines, self.keys = [], {}
        for table in TABLES:
            for target in sorted(set(self.one(TARGETS) for _ in range(2))):
                name = table
                if self.edition != "2024" and "-" in name and self.happens(0.04):
                    name = name.replace("-", "_")
                entries = []
                for key in KEYS:
                    if key not in self.keys and self.happens(0.3):
                        text, is_optional = self.entry(key, table, path, is_member)
                        self.keys[key] = is_optional
                        entries.append(text)
                if entries:
                    lines += [f"[{target}{name}]", *entries]
        return lines

    def text(self, name: str, names: list[str], is_odd: bool) -> str | None:
        if is_odd and self.happens(0.1):
            return self.one(ODD_TEXTS + NAMES)
        kind = self.random.random()
        optional = [key for key, is_optional in self.keys.items() if is_optional]
        if kind < 0.25 and optional:
            return f"dep:{self.one(optional)}"
        if kind < 0.4 and optional:
            return f"{self.one(optional)}?/{self.one(['std', 'derive'])}"
        if kind < 0.6 and self.keys:
            return f"{self.one(sorted(self.keys))}/{self.one(['std', 'derive'])}"
        others = [other for other in names if other != name]
        return self.one(others) if others else None

    def features(self, is_odd: bool) -> list[str]:
        names = [name for name in NAMES if name not in self.keys and self.happens(0.6)]
        if is_odd and self.happens(0.15):
            names.append(self.one(ODD_NAMES + KEYS))
        lists = {}
        for name in names:
            texts = [self.text(name, names, is_odd) for _ in range(self.random.randrange(4))]
            lists[name] = [text for text in texts if text is not None]
        if not is_odd:
            taken = {text[4:] for texts in lists.values() for text in texts if text[:4] == "dep:"}
            # an action on an optional dependency names its feature, too, unless some text takes it
            implied = [key for key in self.keys if self.keys[key] and key not in taken]
            for name, texts in lists.items():
                if implied and self.happens(0.2):
                    texts.append(self.one(implied))
        return ["[features]"] + [f"{quoted(k)} = {listed(v)}" for k, v in lists.items()]

    def manifest(
        self, name: str, path: str | None = None, is_odd: bool = False, is_member: bool = False
    ) -> str:
        self.edition = self.one(EDITIONS)
        lines = ["[package]", f'name = "{name}"', f'edition = "{self.edition}"']
        lines += ['description = "x"', 'license = "MIT"']
        lines += self.values(is_member)
        if self.happens(0.1):
            lines.append('links = "z"')
        lines += self.tables(path, is_member)
        lines += self.features(is_odd)
        return "\n".join(lines) + "\n"

    def values(self, is_member: bool) -> list[str]:
        """What a package states itself, or leaves to its workspace."""
        stated = {"version": f'"{self.one(VERSIONS)}"'} if self.happens(0.97) else {}
        if self.happens(0.2):
            stated["rust-version"] = '"1.90"'
        if self.happens(0.2):
            stated["publish"] = self.one(PUBLISH)
        left = [key for key in stated if is_member and self.happens(0.15)]
        self.version = (GIVEN if "version" in left else stated).get("version", '"0.0.0"')[1:-1]
        stated |= dict.fromkeys(left, "{ workspace = true }")
        return [f"{key} = {value}" for key, value in stated.items()]

    def member(self, name: str, path: str) -> str:
        return self.manifest(name, path, is_odd=self.happens(0.15), is_member=True)

    def root(self, members: list[str]) -> str:
        lines = ["[workspace]", f"members = {listed(members)}", 'resolver = "2"']
        lines += ["[workspace.package]", *(f"{key} = {GIVEN[key]}" for key in GIVEN)]
        lines.append("[workspace.dependencies]")
        for key in KEYS:
            parts = [f'version = "{self.one(REQUIREMENTS)}"']
            if self.happens(0.5):
                parts.append(f"default-features = {self.one(['true', 'false'])}")
            if self.happens(0.3):
                parts.append(f"features = {self.some(['std', 'derive'])}")
            lines.append(f"{key} = {{ {', '.join(parts)} }}")
        return "\n".join(lines) + "\n"
