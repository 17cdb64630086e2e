"""What `cargo-toml features` has to print, by the definitions of docs/DEFINITIONS.md.

They are written once more and by other means. Nothing here follows the crate's code: enablers,
names and actions are found as paths in the whole graph of features, none of which is taken out.
"""

from __future__ import annotations

import itertools
import tomllib
from collections.abc import Iterable, Iterator
from typing import Optional

LIMIT = 2048
# An action: whether it is conditional, whether dep-only, and the features that it asks for.
Action = tuple[bool, bool, frozenset[str]]
# Where a dependency stands: a kind and a target; and an entry there, behind its key.
At = tuple[int, Optional[str]]
Entry = tuple[str, At, object]


def in_order(texts: Iterable[str]) -> list[str]:
    """Texts in the order of their bytes."""
    return sorted(texts, key=lambda text: text.encode())


def mention(text: str) -> tuple[str, Action | None]:
    """What one text of a feature's list says: a name; or a key, whether conditionally, whether
    dep-only, and a dependency feature."""
    front, slash, feature = text.partition("/")
    name = front.removeprefix("dep:")
    is_dep_only = name != front
    key = name.removesuffix("?")
    if not is_dep_only and not slash:
        return key, None
    return key, (key != name, is_dep_only, frozenset([feature] if slash else []))


def enabled_by(written: list | dict) -> list[str]:
    """The texts of a feature, which is written as a list or as a table."""
    return written.get("enables", []) if isinstance(written, dict) else written


def said_of(written: list | dict) -> tuple[bool, str | None]:
    """Whether a feature is public, and its text or nothing."""
    table = written if isinstance(written, dict) else {}
    return table.get("public", True), table.get("doc")


def join(one: Action | None, other: Action | None) -> Action | None:
    if one is None or other is None:
        return one or other
    return one[0] and other[0], one[1] or other[1], one[2] | other[2]


def dependency_tables(manifest: dict) -> Iterator[tuple[dict, At]]:
    """The tables of dependencies in the order in which they count, each with its kind and
    target."""
    targets = manifest.get("target", {})
    yield manifest.get("dependencies", {}), (0, None)
    yield manifest.get("build-dependencies", {}), (1, None)
    for target in in_order(targets):
        yield targets[target].get("dependencies", {}), (0, target)
        yield targets[target].get("build-dependencies", {}), (1, target)
    yield manifest.get("dev-dependencies", {}), (2, None)
    for target in in_order(targets):
        yield targets[target].get("dev-dependencies", {}), (2, target)


def entries_of(manifest: dict, limit: int) -> list[Entry]:
    tables = dependency_tables(manifest)
    return [(key, at, table[key]) for table, at in tables for key in in_order(table)[:limit]]


def is_optional(dependency: str | dict) -> bool:
    return isinstance(dependency, dict) and dependency.get("optional", False)


def is_redundant(dependency: str | dict, feature: str) -> bool:
    """Whether a dependency that is written as a table has the feature anyway."""
    if not isinstance(dependency, dict):
        return False
    if feature == "default" and dependency.get("default-features", True):
        return True
    return feature in dependency.get("features", [])


def first_targets(entries: list[Entry], mentioned: set[str]) -> dict[str, str | dict]:
    """For each recorded key the first dependency at its least target."""
    recorded = {}
    for key, (kind, target), dependency in entries:
        if is_optional(dependency) or key in mentioned or key in recorded:
            place = (kind, target is not None, (target or "").encode())
            recorded.setdefault(key, {}).setdefault(place, dependency)
    return {key: targets[min(targets)] for key, targets in recorded.items()}


class Graph:
    """The features of a manifest at a limit of items, and the edges between them."""

    def __init__(self, manifest: dict, limit: int) -> None:
        table = manifest.get("features", {})
        listed = in_order(table)[:limit]
        self.explicit = {*listed, "default"}
        # Nothing is said of a feature that isn't listed: of an implied one, and of `default` where
        # it is added.
        self.said = {feature: said_of(table[feature]) for feature in self.explicit & table.keys()}
        self.names = {feature: set() for feature in self.explicit}
        self.actions = {feature: {} for feature in self.explicit}
        for feature in self.explicit:
            for text in enabled_by(table.get(feature, []))[:limit]:
                key, action = mention(text)
                if action:
                    self.actions[feature][key] = join(self.actions[feature].get(key), action)
                else:
                    self.names[feature].add(key)
        self.add_dependencies(entries_of(manifest, limit))
        self.own_bins = {feature: [] for feature in self.names}
        for product in manifest.get("bin", []):
            for feature in product.get("required-features", []):
                if feature in self.own_bins:
                    self.own_bins[feature].append(product.get("name", manifest["package"]["name"]))
        self.edges = {feature: self.targets(feature) for feature in self.names}

    def add_dependencies(self, entries: list[Entry]) -> None:
        """Implied features; and what a dependency has anyway is left out of actions."""
        acted = {key for actions in self.actions.values() for key in actions}
        every = [entry for actions in self.actions.values() for entry in actions.items()]
        reserved = {key for key, action in every if action[1]}
        recorded = first_targets(entries, self.explicit | acted)
        for actions in self.actions.values():
            for key, (is_conditional, is_dep_only, features) in actions.items():
                first = recorded.get(key)
                left = {feature for feature in features if not is_redundant(first, feature)}
                actions[key] = is_conditional, is_dep_only, frozenset(left)
        for key, _, dependency in entries:
            if is_optional(dependency) and key not in reserved and key not in self.names:
                self.names[key] = set()
                self.actions[key] = {key: (False, False, frozenset())}

    def targets(self, feature: str) -> set[str]:
        actions = self.actions[feature].items()
        plain = {key for key, action in actions if not action[0] and not action[1]}
        return {key for key in self.names[feature] | plain if key in self.names and key != feature}

    def reached(self, feature: str, inner: set[str]) -> set[str]:
        """What a path of at least one edge leads to, whose inner features are all among these."""
        found, left = set(), [*self.edges[feature]]
        while left:
            target = left.pop()
            if target not in found:
                found.add(target)
                left += self.edges[target] if target in inner else []
        return found


def listed(items: Iterable[str]) -> str:
    return ", ".join(items) if items else "-"


def written_action(key: str, action: Action) -> str:
    marks = "?" * action[0] + "!" * action[1]
    return key + marks + "".join(f"/{feature}" for feature in in_order(action[2]))


class Expected:
    """The lines of a manifest."""

    def __init__(self, manifest: dict, limit: int = LIMIT) -> None:
        self.graph = graph = Graph(manifest, limit)
        self.removed = {feature for feature in graph.names if feature.startswith("_")}
        self.kept = in_order(graph.names.keys() - self.removed)
        self.reached = {feature: graph.reached(feature, self.removed) for feature in graph.names}
        self.bins = self.passed_on()

    def spoken_by(self, feature: str) -> set[str]:
        """The feature, and the removed ones that it reaches through removed ones."""
        return {feature} | self.reached[feature] & self.removed

    def line(self, feature: str) -> str:
        graph = self.graph
        names, actions = set(), {}
        for source in self.spoken_by(feature):
            names |= graph.names[source] - self.removed
            for key, action in graph.actions[source].items():
                actions[key] = join(actions.get(key), action)
        enablers = [source for source in self.kept if feature in self.reached[source]]
        origin = "explicit" if feature in graph.explicit else "implied"
        deps = [written_action(key, actions[key]) for key in in_order(actions)]
        line = f"feature {feature} | {origin} | names: {listed(in_order(names))}"
        line += f" | deps: {listed(deps)}"
        line = f"{line} | by: {listed(enablers)} | bins: {listed(self.bins[feature])}"
        is_public, text = graph.said.get(feature, (True, None))
        told = f" | doc: {text}" if text is not None else ""
        return line + " | private" * (not is_public) + told

    def passed_on(self) -> dict[str, list[str]]:
        """The binaries of each feature: in byte order each removed one passes the first ten of its
        list, as it then stands, on to what it then names."""
        lists = {feature: [*own] for feature, own in self.graph.own_bins.items()}
        for source in in_order(self.removed):
            first = lists[source][:10]
            for target in self.names_at_turn(source) & lists.keys():
                for name in first:
                    if name not in lists[target]:
                        lists[target].append(name)
        return lists

    def names_at_turn(self, feature: str) -> set[str]:
        """What a removed feature names once the smaller ones are taken out."""
        smaller = {source for source in self.removed if source.encode() < feature.encode()}
        sources = {feature} | self.graph.reached(feature, smaller) & smaller
        return {name for source in sources for name in self.graph.names[source]} - smaller

    def redirect(self, feature: str) -> str:
        return f"hidden {feature} | {listed(in_order(self.names_at_turn(feature)))}"

    def difference(self, text: str) -> tuple[str, str] | None:
        """The first line that isn't as it should be, and what should stand there, or nothing."""
        hidden = in_order(self.removed)
        wanted = [*map(self.line, self.kept), *map(self.redirect, hidden)]
        # a feature's text is printed as it is, so it may be of several lines
        lines, wanted = text.split("\n"), "".join(line + "\n" for line in wanted).split("\n")
        for line, other in itertools.zip_longest(lines, wanted, fillvalue="no line"):
            if line != other:
                return line, other
        return None


def difference(file: str, text: str, limit: int | None) -> tuple[str, str] | None:
    with open(file, "rb") as opened:
        return Expected(tomllib.load(opened), limit or LIMIT).difference(text)
