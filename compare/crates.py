"""Random crates of a registry, and programs that use them.

A crate depends on crates of earlier waves alone, so a wave is packaged once those are published.
Each has the features `default`, `one` and `two`, so that a request for one is right in each
version. When a program runs, each crate that it calls tells its name, its version and its features.
"""

import dataclasses
import random

from judging import listed, put, quoted

REGISTRY = "own"
# The names of a wave. A name has up to three versions.
WAVE = 5
FEATURES = ["one", "two"]
PLATFORMS = ["cfg(unix)", "cfg(windows)", 'cfg(target_os = "linux")', "x86_64-unknown-linux-gnu"]
TABLES = ["dependencies"] * 5 + ["dev-dependencies"] + ["build-dependencies"] * 2
STEMS = ["q", "it", "Item", "the-crate", "a_crate"]
MAJORS = ["0.3", "1.2", "2.0"]
# A version of the compiler that isn't there yet.
LATE = "1.999"


@dataclasses.dataclass
class Dependency:
    """A dependency: its key, the crate, the table that it stands in, and what is asked of it."""

    key: str
    package: str
    requirement: str
    table: str = "dependencies"
    platform: str = ""
    is_optional: bool = False
    # whether features name it by `dep:`, and whether the crate's default features are asked for
    is_named: bool = False
    has_default: bool = True
    features: list[str] = dataclasses.field(default_factory=list)

    def line(self) -> str:
        parts = [f"version = {quoted(self.requirement)}", f"registry = {quoted(REGISTRY)}"]
        if self.key != self.package:
            parts.append(f"package = {quoted(self.package)}")
        if self.is_optional:
            parts.append("optional = true")
        if not self.has_default:
            parts.append("default-features = false")
        if self.features:
            parts.append(f"features = {listed(self.features)}")
        return f"{self.key} = {{ {', '.join(parts)} }}"

    def header(self) -> str:
        platform = f"target.'{self.platform}'." if self.platform else ""
        return f"[{platform}{self.table}]"

    def is_of_program(self) -> bool:
        """Whether each program that the crate is built for may call it."""
        return self.table == "dependencies" and not self.platform


@dataclasses.dataclass
class Crate:
    """A version of a crate."""

    name: str
    version: str
    # the oldest compiler, a library of the system, and whether it is published
    rust: str = ""
    links: str = ""
    is_published: bool = True
    # whether no requirement asks for just this version
    is_spare: bool = False
    dependencies: list[Dependency] = dataclasses.field(default_factory=list)
    features: dict[str, list[str]] = dataclasses.field(default_factory=dict)

    def folder(self) -> str:
        return f"{self.name}-{self.version}"

    def manifest(self) -> str:
        lines = ["[package]", f"name = {quoted(self.name)}", f"version = {quoted(self.version)}"]
        lines += ['edition = "2021"', 'description = "x"', 'license = "MIT"']
        if self.rust:
            lines.append(f"rust-version = {quoted(self.rust)}")
        if self.links:
            lines.append(f"links = {quoted(self.links)}")
        if not self.is_published:
            lines.append("publish = false")
        lines += ["[features]", *(f"{key} = {listed(on)}" for key, on in self.features.items())]
        return "\n".join([*lines, tables_of(self.dependencies)])

    def library(self) -> str:
        """Tells what the crate is, and calls those that it depends on."""
        on = ", ".join(f'(cfg!(feature = "{name}"), "{name}")' for name in self.features)
        calls = []
        for one in self.dependencies:
            if one.is_of_program():
                feature = f"with-{one.key}" if one.is_named else one.key
                guard = f'#[cfg(feature = "{feature}")] ' if one.is_optional else ""
                calls.append(f"    {guard}{called(one.key)}")
        return (
            "pub fn tell(told: &mut Vec<String>) {\n"
            f"    let on = [{on}].iter().filter(|it| it.0).map(|it| it.1).collect::<Vec<_>>();\n"
            '    let (name, version) = (env!("CARGO_PKG_NAME"), env!("CARGO_PKG_VERSION"));\n'
            '    told.push(format!("{name} {version} {}", on.join(",")));\n'
            + "\n".join(calls)
            + "\n}\n"
        )

    def write(self, folder: str) -> None:
        put(f"{folder}/Cargo.toml", self.manifest())
        put(f"{folder}/src/lib.rs", self.library())
        at_build = [one for one in self.dependencies if one.table == "build-dependencies"]
        sure = [one for one in at_build if not one.platform and not one.is_optional]
        calls = " ".join(called(one.key) for one in sure)
        put(f"{folder}/build.rs", f"fn main() {{ let told = &mut Vec::<String>::new(); {calls} }}")


def called(key: str) -> str:
    name = key.replace("-", "_")
    return f"{name}::tell(told);"


def tables_of(dependencies: list[Dependency]) -> str:
    headers = dict.fromkeys(one.header() for one in dependencies)
    lines = []
    for header in headers:
        lines += [header, *(one.line() for one in dependencies if one.header() == header)]
    return "\n".join(lines) + "\n"


class Crates:
    """The crates of a seed, wave by wave."""

    def __init__(self, seed: object) -> None:
        self.random = random.Random(str(seed))
        self.waves, self.count = 0, 0
        # what later waves and programs may ask for
        self.known: list[Crate] = []

    def next_wave(self) -> list[Crate]:
        first = WAVE * self.waves
        wave = [one for i in range(first, first + WAVE) for one in self.versions(i)]
        self.waves, self.count = self.waves + 1, self.count + len(wave)
        self.known += [one for one in wave if one.is_published and one.rust != LATE]
        return wave

    def spare(self) -> list[Crate]:
        """Those that may be yanked, and are chosen before."""
        return [one for one in self.known if one.is_spare and "-" not in one.version]

    def happens(self, chance: float) -> bool:
        return self.random.random() < chance

    def some(self, of: list[str], chance: float = 0.4) -> list[str]:
        return [one for one in of if self.happens(chance)]

    def versions(self, index: int) -> list[Crate]:
        """The versions of a name. The highest ones of it are spare, and some are too new."""
        name = f"{self.random.choice(STEMS)}{index}"
        major = self.random.choice(MAJORS)
        meta = self.random.choice(["", "", f"+build.{index}"])
        all_of = [Crate(name, f"{major}.{index}{meta}")]
        if self.happens(0.1):
            return [Crate(name, f"{major}.0", is_published=False)]
        if self.happens(0.6):
            all_of.append(Crate(name, f"{major}.{index + 10}{meta}", is_spare=True))
        if self.happens(0.2):
            all_of.append(Crate(name, f"{major}.{index + 20}", rust=LATE, is_spare=True))
        if self.happens(0.2):
            all_of.append(Crate(name, f"{major}.{index + 30}-rc.1", is_spare=True))
        links = ""
        if self.happens(0.3):
            all_of.append(Crate(name, f"3.{index}.0+meta.{index}"))
        elif self.happens(0.4):
            # no two versions of these are in one program
            links = f"system-{name}"
        for one in all_of:
            one.links = links
            self.fill(one)
        return all_of

    def fill(self, crate: Crate) -> None:
        crate.rust = crate.rust or self.random.choice(["", "1.70", "1.85.1"])
        packages = sorted({one.name for one in self.known})
        for i, package in enumerate(self.random.sample(packages, min(len(packages), 4))):
            crate.dependencies.append(self.dependency(package, f"key-{i}"))
        for one in crate.dependencies:
            if one.is_named:
                crate.features[f"with-{one.key}"] = [f"dep:{one.key}"]
        crate.features["default"] = self.some(FEATURES)
        crate.features["one"] = self.some(["two"]) + self.actions(crate)
        crate.features["two"] = self.actions(crate)

    def requirement(self, package: str) -> str:
        """One that some version of the crate is right for, also once spare ones are yanked."""
        fixed = [one for one in self.known if one.name == package and not one.is_spare]
        version = self.random.choice(fixed).version.partition("+")[0]
        parts = version.split(".")
        parts = parts[: 1 if parts[0] != "0" else 2]
        forms = [version, f"^{version}", f"={version}", f"~{version}", f">={version}, <4"]
        return self.random.choice([*forms, ".".join(parts), f"{'.'.join(parts)}.*"])

    def dependency(self, package: str, key: str) -> Dependency:
        table = self.random.choice(TABLES)
        one = Dependency(key if self.happens(0.4) else package, package, "", table)
        one.requirement = self.requirement(package)
        one.platform = self.random.choice([""] * 5 + PLATFORMS)
        one.is_optional = table != "dev-dependencies" and self.happens(0.5)
        one.is_named = one.is_optional and self.happens(0.5)
        one.has_default = self.happens(0.7)
        one.features = self.some(FEATURES, 0.3)
        return one

    def actions(self, crate: Crate) -> list[str]:
        """What a feature does to dependencies."""
        texts = []
        for one in crate.dependencies:
            if one.table == "dev-dependencies":
                continue
            feature = self.random.choice(FEATURES)
            forms = [f"{one.key}/{feature}"]
            if one.is_optional:
                itself = f"dep:{one.key}" if one.is_named else one.key
                forms += [f"{one.key}?/{feature}", itself]
            texts += self.some(forms, 0.25)
        return texts

    def program(self, seed: object) -> list[Dependency]:
        """What a program depends on."""
        self.random.seed(f"program {seed}")
        packages = sorted({one.name for one in self.known})
        uses = []
        for package in self.random.sample(packages, min(len(packages), 5)):
            one = Dependency(package, package, self.requirement(package))
            one.has_default, one.features = self.happens(0.6), self.some(FEATURES)
            uses.append(one)
        return uses


def write_program(folder: str, uses: list[Dependency]) -> None:
    """A program that prints what the crates tell that it uses."""
    head = '[package]\nname = "program"\nversion = "0.0.0"\nedition = "2024"\n'
    put(f"{folder}/Cargo.toml", head + tables_of(uses))
    calls = "\n".join(f"    {called(one.key)}" for one in uses)
    put(
        f"{folder}/src/main.rs",
        "fn main() {\n    let told = &mut vec![];\n"
        f"{calls}\n    told.sort();\n    told.dedup();\n"
        '    println!("{}", told.join("\\n"));\n}\n',
    )
