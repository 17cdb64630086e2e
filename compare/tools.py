#!/usr/bin/env python3
"""Holds what `cargo-toml-tools` prints against the rules of docs/TOOLS.md, read once more.

    compare/tools.py index|lint|document|graph FILE..     # prints what is wanted of these manifests
    compare/tools.py --compare TOOL FILE..                # holds the program against that
    compare/tools.py --random TOOL COUNT [SEED]           # the same, on random ones

Nothing here follows the program's code. Features are found by definitions.py.
"""

import concurrent.futures
import importlib.machinery
import importlib.util
import json
import os
import re
import subprocess
import sys
import tempfile
import tomllib

from definitions import Graph, enabled_by, in_order, join, mention
from judging import CARGO_TOML_TOOLS, build

HERE = os.path.dirname(os.path.realpath(__file__))
LIMIT = 2048
TABLES = [("dependencies", "normal"), ("dev-dependencies", "dev"), ("build-dependencies", "build")]
CRATES_IO = "https://github.com/rust-lang/crates.io-index"


class Refused(Exception):
    """Why there is no answer."""


def load(path):
    with open(path, "rb") as file:
        return tomllib.load(file)


# requirements, as the crate `semver` writes them


def comparator(text):
    op, rest = re.fullmatch(r"\s*(>=|<=|[=<>~^]?)\s*(.*?)\s*", text).groups()
    rest = rest.partition("+")[0]
    numbers, dash, pre = rest.partition("-")
    parts = numbers.split(".")
    known = [part for part in parts if part not in ("*", "x", "X")]
    if len(known) < len(parts) and not op:
        return ".".join(known) + ".*" if known else ""
    return (op or "^") + ".".join(known) + dash + pre


def requirement(text):
    return ", ".join(filter(None, map(comparator, text.split(",")))) or "*"


# dependencies and inheritance


def is_inherited(value):
    return isinstance(value, dict) and value.get("workspace") is True


def detail(value):
    return {"version": value} if isinstance(value, str) else value


def tables(manifest):
    """The tables of dependencies, each with its name, its kind and its target."""
    targets = manifest.get("target", {})
    for target, place in [(None, manifest), *((name, targets[name]) for name in in_order(targets))]:
        for name, kind in TABLES:
            yield name, kind, target, place.get(name, {})


def tables_to_fill(manifest):
    """The same tables in the order in which they are filled: the first fault counts."""
    every = list(tables(manifest))
    for place in range(0, len(every), 3):
        normal, dev, build = every[place : place + 3]
        yield from (normal, build, dev)


def filled(key, value, workspace):
    """A dependency with what its workspace gives."""
    if not is_inherited(value):
        return detail(value)
    given = workspace.get("dependencies", {})
    if key not in given:
        raise Refused(f"workspace dependencies are missing `{key}`")
    given = dict(detail(given[key]))
    given["features"] = given.get("features", []) + value.get("features", [])
    given["optional"] = value.get("optional", False)
    return given


def root_of(path, manifest):
    """The workspace of a manifest."""
    if "workspace" in manifest:
        return manifest["workspace"]
    folder = os.path.dirname(os.path.abspath(path))
    while folder != os.path.dirname(folder):
        folder = os.path.dirname(folder)
        found = os.path.join(folder, "Cargo.toml")
        if os.path.exists(found) and "workspace" in load(found):
            return load(found)["workspace"]
    return {}


def package_value(key, package, workspace):
    value = package.get(key)
    return workspace.get("package", {}).get(key) if is_inherited(value) else value


# index


def index(path, options=None):
    """The line of the crate, by the options that a row has in files of these names."""
    options = options or {}
    own = options.get("registry", CRATES_IO)
    names = {"crates-io": CRATES_IO} | dict(options.get("names", []))
    manifest = load(path)
    if "package" not in manifest:
        raise Refused("there is no package")
    workspace = root_of(path, manifest)
    package = manifest["package"]
    if package["name"][:1] == "-" or not package["name"].replace("-", "_").isidentifier():
        raise Refused("Cargo doesn't take the package's name")
    version = package_value("version", package, workspace)
    if version is None:
        raise Refused("the package has no version")
    crate = f"{package['name']}-{version}"
    if options.get("folder", crate) != crate:
        names_of_both = f"{options['folder']}, {crate}"
        raise Refused(f"the folder and the crate's NAME-VERSION differ: {names_of_both}")
    deps = [entry for entry in entries(manifest, workspace, own, names) if entry]
    rust = package_value("rust-version", package, workspace)
    if rust is not None and not is_rust_version(rust):
        raise Refused(f"the rust-version {rust} isn't a version like 1.70")
    if "force" not in options:
        check_choices(manifest, package_value("publish", package, workspace), own, names)
    kept = {entry["name"] for entry in deps}
    features = manifest.get("features", {})
    lists = {name: kept_texts(enabled_by(value), kept) for name, value in features.items()}
    later = {name for name, texts in lists.items() if any(map(is_of_second_version, texts))}
    line = {
        "name": package["name"],
        "vers": version,
        "deps": deps,
        "features": {name: [] if name in later else texts for name, texts in lists.items()},
        "yanked": False,
        "links": package.get("links"),
        "rust_version": rust,
    }
    if later:
        line |= {"features2": {name: lists[name] for name in later}, "v": 2}
    if "checksum" in options:
        line["cksum"] = options["checksum"]
    return json.dumps(line, ensure_ascii=False, separators=(",", ":"), sort_keys=True) + "\n"


def is_rust_version(text):
    is_spelled = re.fullmatch(r"(0|[1-9][0-9]*)(\.(0|[1-9][0-9]*)){0,2}", text)
    return is_spelled and all(int(part) < 2**64 for part in text.split("."))


def bare(address):
    """An address of a registry without what doesn't count."""
    return address and address.removeprefix("sparse+").removesuffix("/")


def check_choices(manifest, publish, own, names):
    """Refuses what isn't published there, and features with an error."""
    if publish is False or (
        isinstance(publish, list) and bare(own) not in [bare(names.get(name)) for name in publish]
    ):
        raise Refused("the package isn't published in this registry")
    found = Lint(manifest).found()
    for code in sorted(found):
        if WORDS_OF[code][0] == "error" and found[code]:
            name = in_order(name for name, _ in found[code])[0]
            raise Refused(f"lint finds an error of {name}")


def kept_texts(texts, kept):
    """What stays of a list: no action on a dependency that the line hasn't."""
    mentions = [(text, mention(text)) for text in texts]
    return [text for text, (key, action) in mentions if not action or key in kept]


def is_of_second_version(text):
    return text.startswith("dep:") or "?/" in text


# names of targets: an expression of `cfg` is folded from its innermost parts to one name, `a`


def is_target(name):
    if not (name.startswith("cfg(") and name.endswith(")")):
        return re.fullmatch(r"[A-Za-z0-9_.-]*", name)
    words = re.findall(r'"[^"]*"|(?:r#)?[A-Za-z_][A-Za-z0-9_]*|[^ ]', name[4:-1])
    kinds = {"not": "n", "all": "m", "any": "m"}
    text = "".join(kinds.get(word) or kind_of(word) for word in words).replace("a=s", "a")
    for _ in range(63):
        text = re.sub(r"n\(a\)|m\((a,)*a?\)", "a", text)
    return text == "a"


def kind_of(word):
    """A letter for a value or a name, and a sign as it is."""
    if len(word) > 1 and word[0] == '"':
        return "s"
    return "a" if re.match(r"(r#)?[A-Za-z_]", word) else word if word in "()=," else "?"


def entries(manifest, workspace, own, names):
    targets = manifest.get("target", {})
    is_new = package_value("edition", manifest["package"], workspace) == "2024"
    # in the order of Cargo, which has build-dependencies of a target before its dev-dependencies
    every = [*list(tables(manifest))[:3], *list(tables_to_fill(manifest))[3:]]
    for name, kind, target, table in every:
        other = name.replace("-", "_")
        if target is not None and not is_target(target):
            raise Refused(f"Cargo doesn't take the target {target}")
        if other != name and other in (manifest if target is None else targets[target]):
            raise Refused(f"the table {other} has `_` in its name")
        for key in in_order(table):
            value = filled(key, table[key], workspace)
            if "default_features" in value or "default_features" in detail(table[key]):
                raise Refused(f"the dependency {key} has `default_features`")
            if value.keys() & {"artifact", "lib", "target"}:
                raise Refused(f"the dependency {key} has `artifact`, `lib` or `target`")
            asked = table[key].get("default-features") if is_inherited(table[key]) else None
            if asked is False and is_new and value.get("default-features", True):
                raise Refused(f"{key} can't turn off its workspace's default features")
            if asked is True:
                value["default-features"] = True
            yield entry(key, kind, target, value, own, names)


def entry(key, kind, target, value, own, names):
    text = value.get("version")
    if text is None:
        if kind == "dev" and ("path" in value or "git" in value):
            return None
        raise Refused(f"the dependency {key} has no version")
    registry = value.get("registry-index", names.get(value.get("registry", "crates-io")))
    if registry is None:
        raise Refused(f"the registry of {key} has no address")
    is_own = bare(registry) == bare(own)
    if bare(own) == CRATES_IO and not is_own:
        raise Refused(f"the dependency {key} isn't of crates.io")
    made = {
        "name": key,
        "req": requirement(text),
        "features": value.get("features", []),
        "optional": value.get("optional", False),
        "default_features": value.get("default-features", True),
        "target": target,
        "kind": kind,
        "registry": None if is_own else registry,
    }
    return made | ({"package": value["package"]} if "package" in value else {})


# escapes


CONTROLS = (
    "\0-\x1f\x7f-\x9f\xad\u034f\u061c\u115f\u1160\u17b4\u17b5\u180b-\u180f\u200b-\u200f"
    "\u2028-\u202e\u2060-\u206f\u3164\ufe00-\ufe0f\ufeff\uffa0\ufff0-\ufffb"
    "\U0001bca0-\U0001bca3\U0001d173-\U0001d17a\U000e0000-\U000e0fff"
)


def is_control(c):
    """No sign: a line's end, another control, or what Unicode lets be ignored."""
    return bool(re.match(f"[{CONTROLS}]", c))


def sign_for_line(c):
    return f"\\u{{{ord(c):x}}}" if is_control(c) else "\\" + c if c in "\\|" else c


def for_line(text):
    return "".join(map(sign_for_line, text))


def is_plain(c):
    return c in " -+.,:;/?()=%" or (c.isalnum() if c.isascii() else not is_control(c))


def for_markdown(text):
    return "".join(c if is_plain(c) else f"&#{ord(c)};" for c in text)


def code(name):
    if name and name[0] != " " and all(is_plain(c) or c == "_" for c in name):
        return f"`{name}`"
    return f"<code>{for_markdown(name)}</code>"


def for_dot(text):
    signs = {"\\": "\\\\", '"': '\\"', "&": "&amp;"}
    return "".join(f"&#{ord(c)};" if is_control(c) else signs.get(c, c) for c in text)


# features


class Features:
    """The features of a manifest, and what each turns on."""

    def __init__(self, manifest, limit=LIMIT):
        written = manifest.get("features", {})
        self.lists = {k: enabled_by(v) for k, v in written.items()}
        self.graph = Graph(manifest, limit)
        entries = [one for _, _, _, table in tables(manifest) for one in table.items()]
        self.dependencies = {key for key, _ in entries}
        self.optional = {key for key, one in entries if detail(one).get("optional", False)}

    def turned_on(self, name):
        """What a feature turns on in one step."""
        found = set()
        for text in self.lists.get(name, []):
            key, action = mention(text)
            if not action or key in self.optional and not (action[0] or action[1]):
                found.add(key)
        return found & self.graph.names.keys()

    def reached(self, name):
        """The feature and all that it turns on, where there is one of the name."""
        found = {name} & self.graph.names.keys()
        left = [*found]
        while left:
            for other in self.turned_on(left.pop()) - found:
                found.add(other)
                left.append(other)
        return found


# document


class Document(Features):
    """What is documented of the features of a manifest."""

    def __init__(self, path):
        self.manifest = load(path)
        features = self.manifest.get("features", {})
        self.tables = {k: v for k, v in features.items() if isinstance(v, dict)}
        lists = {k: enabled_by(v) for k, v in features.items()}
        super().__init__(self.manifest | {"features": lists})

    def is_private(self, name):
        return name.startswith("_") or self.tables.get(name, {}).get("public") is False

    def actions(self, names):
        joined = {}
        for name in names:
            for key, action in self.graph.actions[name].items():
                joined[key] = join(joined.get(key), action)
        return joined

    def text_of(self, name):
        return self.tables.get(name, {}).get("doc")

    def row(self, name, has_texts):
        reached = self.reached(name)
        names = in_order(other for other in reached - {name} if not self.is_private(other))
        words = []
        actions = self.actions(reached)
        for key in in_order(actions):
            is_conditional, _, features = actions[key]
            front = key + "?" * is_conditional
            words += [f"{front}/{feature}" for feature in in_order(features)] or [front]
        cells = [
            code(name),
            *([for_markdown(self.text_of(name) or "")] if has_texts else []),
            "yes" if name in self.reached("default") else "no",
            ", ".join(map(code, names)),
            ", ".join(map(code, words)),
        ]
        return "| " + " | ".join(cells) + " |\n"

    def shown(self):
        """The features, and `default` only where it is listed."""
        return [it for it in in_order(self.graph.names) if it in self.lists or it != "default"]

    def page(self):
        name = self.manifest.get("package", {}).get("name")
        text = "# Features" + (f" of {code(name)}" if name is not None else "") + "\n"
        shown = [name for name in self.shown() if not self.is_private(name)]
        for front, is_listed in ("", True), ("\n## Optional dependencies\n", False):
            rows = [name for name in shown if (name in self.graph.explicit) == is_listed]
            has_texts = any(self.text_of(name) is not None for name in rows)
            columns = ["Feature", *["Text"] * has_texts, "Default", "Features", "Dependencies"]
            if rows:
                text += front + f"\n| {' | '.join(columns)} |\n|{'---|' * len(columns)}\n"
            text += "".join(self.row(name, has_texts) for name in rows)
        return text

    def dot(self):
        text = "digraph {\n    rankdir=LR;\n"
        if "package" in self.manifest:
            text += f'    label="{for_dot(self.manifest["package"]["name"])}";\n'
        keys = set()
        for name in self.shown():
            style = "bold" if name == "default" else "solid"
            style = "dashed" if self.is_private(name) else style
            front = f'    "feature:{for_dot(name)}"'
            text += f'{front} [label="{for_dot(name)}", style={style}];\n'
            for other in in_order(self.turned_on(name) & {*self.shown()}):
                text += f'{front} -> "feature:{for_dot(other)}";\n'
            for key in in_order(self.graph.actions[name]):
                is_conditional, _, features = self.graph.actions[name][key]
                label = ", ".join(map(for_dot, in_order(features)))
                mark = ", style=dotted" if is_conditional else ""
                text += f'{front} -> "dependency:{for_dot(key)}" [label="{label}"{mark}];\n'
                keys.add(key)
        for key in in_order(keys):
            text += f'    "dependency:{for_dot(key)}" [label="{for_dot(key)}", shape=box];\n'
        return text + "}\n"


# lint


WORDS_OF = {
    "bad-name": ("error", "is no name that Cargo takes for a feature"),
    "bad-request": ("error", "a dependency is asked for what is no feature's name"),
    "bad-required": ("error", "a target can't require by `dep:` or `?`"),
    "bad-text": ("error", "is no text that Cargo takes in a feature's list"),
    "feature-table": ("error", "is written as a table, which Cargo doesn't read"),
    "names-itself": ("error", "names itself"),
    "not-optional": ("error", "takes a dependency for optional that isn't"),
    "optional-dev": ("error", "a dev-dependency can't be optional"),
    "reserved": ("error", "names an optional dependency that is no feature, by some `dep:`"),
    "same-name": (
        "error",
        "has the name of an optional dependency that no feature acts on",
    ),
    "unknown": ("error", "names or acts on what the manifest doesn't have"),
    "implied": (
        "hint",
        "an optional dependency that no feature names by `dep:` is a feature for users",
    ),
    "private-default": ("hint", "only `default` enables this hidden or private feature"),
    "cycle": ("warning", "enables itself through others"),
    "missing": ("warning", "a target requires what the manifest doesn't have"),
    "other-name": ("warning", "is a table that Cargo reads up to edition 2021 alone"),
    "over-limit": ("warning", "is beyond the limit, or some of its texts are"),
    "unreachable": ("warning", "no feature for users leads to this hidden one"),
}
PRODUCTS = ["bin", "example", "test", "bench"]


def is_name(text):
    """Whether Cargo takes a text for the name of a feature."""
    if not text or not (text[0].isidentifier() or text[0] in "0123456789"):
        return False
    return all(c in "-+." or f"a{c}".isidentifier() for c in text)


def is_bad(text):
    """Whether a text is of no form that Cargo knows."""
    _, slash, feature = text.partition("/")
    return text.startswith("dep:") or not is_name(feature) if slash else text.endswith("?")


class Lint(Features):
    """What is odd of a manifest's features, each as the name of a finding's code, with features and
    texts."""

    def __init__(self, manifest, limit=LIMIT):
        self.written = manifest.get("features", {})
        super().__init__(manifest, limit)
        texts = [text for texts in self.lists.values() for text in texts]
        self.acted = {key for key, action in map(mention, texts) if action}
        self.reserved = {text[4:] for text in texts if text[:4] == "dep:" and not is_bad(text)}
        self.manifest, self.limit = manifest, limit

    def of_text(self, name, text):
        """The code of what is wrong with a text in the list of a feature."""
        key, action = mention(text)
        if is_bad(text):
            return "bad-text"
        if action is None and key == name:
            return "names-itself"
        if action is None and key in self.lists:
            return None
        if action is None and key in self.optional:
            return "reserved" if key in self.reserved else None
        if key not in self.dependencies:
            return "unknown"
        is_marked = action is None or action[0] or action[1]
        return "not-optional" if is_marked and key not in self.optional else None

    def of_required(self, text):
        front, slash, _ = text.partition("/")
        if front.endswith("?") if slash else text.startswith("dep:"):
            return "bad-required"
        key, action = mention(text)
        names = self.lists.keys() | self.optional - self.reserved
        is_there = key in (self.dependencies if action else names)
        return None if is_there and not is_bad(text) else "missing"

    def of_lists(self):
        """Of features as they are written: codes, each with a feature and a text."""
        for name, texts in self.lists.items():
            if not is_name(name):
                yield "bad-name", name, ""
            if name in self.optional - self.acted:
                yield "same-name", name, ""
            if name not in self.graph.explicit or len(texts) > self.limit:
                yield "over-limit", name, ""
            for text in texts:
                yield self.of_text(name, text), name, text
            table = self.written[name]
            if isinstance(table, dict) and (table.get("public") is False or "doc" in table):
                yield "feature-table", name, ""

    def of_dependencies(self):
        for _, kind, _, table in tables(self.manifest):
            for place, key in enumerate(in_order(table)):
                one = detail(table[key])
                if kind == "dev" and one.get("optional", False):
                    yield "optional-dev", key, ""
                if place >= self.limit:
                    yield "over-limit", key, ""
                for text in one.get("features", []):
                    yield None if is_name(text) else "bad-request", key, text
        for place in self.manifest, *self.manifest.get("target", {}).values():
            for name in {"dev_dependencies", "build_dependencies"} & place.keys():
                yield "other-name", name, ""

    def of_targets(self):
        for kind in PRODUCTS:
            for product in self.manifest.get(kind, []):
                for text in product.get("required-features", []):
                    yield self.of_required(text), product.get("name", ""), text

    def of_graph(self):
        """The features of each code that is about what features turn on."""
        graph = self.graph
        hidden = {name for name in graph.names if name.startswith("_")}
        private = {name for name, (is_public, _) in graph.said.items() if not is_public}
        turned_on = {name: self.turned_on(name) for name in graph.names}
        reached = {name: self.reached(name) for name in graph.names}
        enablers = {
            name: {one for one in turned_on if name in turned_on[one] - {one}}
            for name in hidden | private
        }
        of_users = set().union(*(reached[name] for name in graph.names.keys() - hidden))
        return {
            "implied": graph.names.keys() - graph.explicit,
            "private-default": {name for name in enablers if enablers[name] == {"default"}},
            "cycle": {
                name
                for name in graph.names
                if any(name in reached[one] for one in reached[name] - {name})
            },
            "unreachable": hidden - of_users,
        }

    def found(self):
        found = {code: {(name, "") for name in names} for code, names in self.of_graph().items()}
        for of_kind in self.of_lists, self.of_dependencies, self.of_targets:
            for code, name, text in of_kind():
                found.setdefault(code, set()).add((name, text))
        found.pop(None, None)
        return found

    def lines(self):
        """The lines, and the status."""
        text, status = "", 0
        found = self.found()
        for code in sorted(found, key=lambda code: (WORDS_OF[code][0], code)):
            level, words = WORDS_OF[code]
            for one in sorted(found[code], key=lambda one: [part.encode() for part in one]):
                told = " | ".join([level, code, *map(for_line, one), words])
                text += f"{told}\n"
                status = status if level == "hint" else 3
        return text, status


def lint(path):
    text, status = Lint(load(path)).lines()
    return f"{text}status {status}\n"


TOOLS = {
    "index": index,
    "lint": lint,
    "document": lambda path: Document(path).page(),
    "graph": lambda path: Document(path).dot(),
}
WORDS = {
    "index": ["index"],
    "lint": ["lint"],
    "document": ["document"],
    "graph": ["document", "--dot"],
}


def options_beside(path):
    """What a row asks of `index`: texts in files beside its manifest."""
    options = {}
    for name in ("registry", "checksum", "folder", "force", "names"):
        beside = os.path.join(os.path.dirname(path), name)
        if os.path.exists(beside):
            with open(beside, encoding="utf-8") as file:
                options[name] = file.read().rstrip()
    if "names" in options:
        options["names"] = [line.split("=", 1) for line in options["names"].splitlines()]
    return options


def wanted(tool, path):
    try:
        return index(path, options_beside(path)) if tool == "index" else TOOLS[tool](path)
    except Refused as why:
        return f"error: {for_line(path)}: {for_line(str(why))}\n"


def told(tool, path):
    """What the program tells, with its status where that says what was found."""
    words = [CARGO_TOML_TOOLS, *WORDS[tool], path]
    done = subprocess.run(words, capture_output=True, text=True, check=False)
    if tool == "lint" and not done.stderr:
        # where a finding stands, the program alone says
        text = re.sub(r"(?m)^.*?:\d+:\d+: ", "", done.stdout)
        return f"{text}status {done.returncode}\n"
    return done.stdout or done.stderr


def compare(tool, paths):
    """Holds the program against what is wanted, and returns how many answers differ."""
    with concurrent.futures.ThreadPoolExecutor(os.cpu_count()) as pool:
        answers = pool.map(lambda path: (told(tool, path), wanted(tool, path)), paths)
        differ = [each for each in zip(paths, answers) if each[1][0] != each[1][1]]
    for path, (found, want) in differ[:3]:
        if os.path.isfile(path):
            with open(path, encoding="utf-8") as file:
                print(file.read())
        print(f"{path}\nprinted: {found}\nwanted:  {want}\n")
    print(f"{len(paths)} of {tool}, {len(differ)} differ")
    return len(differ)


def random_manifests(folder, count, seed):
    """Paths of random manifests, as compare/run makes them."""
    loader = importlib.machinery.SourceFileLoader("run", f"{HERE}/run")
    run = importlib.util.module_from_spec(importlib.util.spec_from_loader("run", loader))
    loader.exec_module(run)
    manifests = run.Manifests(seed, run.NAMES + run.HIDDEN, has_details=True)
    paths = [f"{folder}/{number}.toml" for number in range(count)]
    for path in paths:
        with open(path, "w", encoding="utf-8") as file:
            file.write(manifests.manifest())
    return paths


def compare_random(tool, count, seed=1):
    """The same, on random manifests."""
    with tempfile.TemporaryDirectory() as folder:
        return compare(tool, random_manifests(folder, int(count), int(seed)))


def main(words):
    way = words.pop(0) if words[:1] in [["--compare"], ["--random"]] else None
    tool, *asked = words or [None]
    are_numbers = len(asked) <= 2 and all(map(str.isdecimal, asked))
    if tool not in TOOLS or not asked or way == "--random" and not are_numbers:
        print(__doc__, file=sys.stderr)
        return 2
    if way is None:
        sys.stdout.writelines(wanted(tool, path) for path in asked)
        return 0
    build(CARGO_TOML_TOOLS)
    differ = compare(tool, asked) if way == "--compare" else compare_random(tool, *asked)
    return min(differ, 1)


if __name__ == "__main__":
    sys.exit(main(sys.argv[1:]))
