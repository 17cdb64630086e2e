"""What the answers of the library hold, for checkers of types."""

from __future__ import annotations

from typing import Any, Dict, List, Optional, TypedDict

#: A manifest as JSON has it: tables are dicts, dates are texts. Keys are as in `Cargo.toml`.
Manifest = Dict[str, Any]


class Fault(TypedDict):
    """Something at fault in a text."""

    #: The place of the key, or where the text stops being TOML. Both count from 1, in characters.
    line: int
    column: int
    #: The path of the key, as `dependencies.log.version`; empty where the whole text is at fault.
    key: str
    words: str


class DepAction(TypedDict):
    """What a feature does with a dependency."""

    #: Whether it waits until something else turns the dependency on, as `log?/std` does.
    conditional: bool
    #: Whether it stands for the dependency alone, and not for its feature, as `dep:log` does.
    dep_only: bool
    #: The dependency's features that are asked for, in byte order.
    features: List[str]


class Feature(TypedDict):
    """A feature, once hidden ones are removed."""

    #: The binaries that require it, in the manifest's order.
    binaries: List[str]
    #: By keys of dependencies.
    dependencies: Dict[str, DepAction]
    #: The features that turn it on directly, in byte order.
    enabled_by: List[str]
    #: Whether the table `[features]` lists it. Otherwise an optional dependency implies it.
    listed: bool
    #: The features that it turns on directly, in byte order.
    names: List[str]
    #: False where its table says `public = false`.
    public: bool
    #: What its table says of it under `doc`.
    text: Optional[str]


class Features(TypedDict):
    """The features of a manifest."""

    #: Whether the manifest has more than the limit, so that some doesn't count.
    cut: bool
    features: Dict[str, Feature]
    #: The removed features, each with those that stand for it, in byte order.
    hidden: Dict[str, List[str]]


class Finding(TypedDict):
    """Something amiss with a feature."""

    #: As `cycle`; the tools' documentation lists all.
    code: str
    #: `error`, `warning` or `hint`.
    level: str
    feature: str
    text: str
    line: int
    column: int
    words: str


class DocumentedFeature(TypedDict):
    """A feature that users may ask for, with all that it leads to."""

    name: str
    #: Whether the feature `default` turns it on.
    default: bool
    #: The features that it turns on, transitively.
    features: List[str]
    #: What it asks of dependencies, transitively, by their keys.
    dependencies: Dict[str, DepAction]
    #: Whether the table `[features]` lists it. Otherwise it is an optional dependency's.
    listed: bool
    text: Optional[str]


#: The line that a registry's index has of a crate.
IndexEntry = Dict[str, Any]
