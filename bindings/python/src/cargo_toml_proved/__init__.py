"""Reads a `Cargo.toml`, completes it and resolves its features, by a proved library.

Each call is a function of what it is given: it reads no file, and keeps nothing but the room of its
answer. Texts are `str`, or `bytes` in UTF-8. A manifest that is refused raises `ManifestError`,
whose `faults` are a list. Calls of several threads don't wait for each other.
"""

from __future__ import annotations

import json
from typing import Any, Iterable, List, Optional, Tuple

from ._library import ManifestError as ManifestError, Text as Text, answer
from .archive import Crate as Crate, from_crate as from_crate
from .types import (
    DepAction as DepAction,
    DocumentedFeature as DocumentedFeature,
    Fault as Fault,
    Feature as Feature,
    Features as Features,
    Finding as Finding,
    IndexEntry as IndexEntry,
    Manifest as Manifest,
)

#: How many features, texts of one, and keys of a table of dependencies count, unless another limit
#: is given.
MAX_ITEMS = 2048


def version() -> str:
    """The version of the library."""
    return answer("version")


def read(text: Text) -> Manifest:
    """The manifest that a text is. Nothing is inherited, and no target is added."""
    return _value("manifest", text)


def complete(
    text: Text, paths: Iterable[str], workspace: Optional[Tuple[str, Text]] = None
) -> Manifest:
    """The manifest with what it inherits and with the targets that Cargo finds.

    `paths` are the files of the package, as seen from its folder, which stand in for a listing.
    `workspace` is the path of the workspace's `Cargo.toml`, and its text. A manifest that inherits
    something needs it, unless it has a workspace of its own.
    """
    listed = "".join(f"{path}\0" for path in paths)
    path, root = workspace if workspace is not None else ("", "")
    return _value("complete", text, listed, root, path)


def features(text: Text, *, keep: Iterable[str] = (), max_items: int = MAX_ITEMS) -> Features:
    """The features of a manifest, by paths through the hidden ones, which are removed.

    Hidden are names that begin with `_`, except those in `keep`. `max_items` is the limit of
    features, texts of one, and keys of a table of dependencies; what is beyond it doesn't count.
    """
    return _value("features", text, "\n".join(keep), max_items)


def check(text: Text) -> List[Fault]:
    """What keeps a text from being read as a manifest, in the order of the places."""
    return _value("check", text)["faults"]


def lint(text: Text) -> List[Finding]:
    """What is amiss with the features of a manifest."""
    return _value("lint", text)["findings"]


def index(text: Text, checksum: Optional[str] = None) -> IndexEntry:
    """The line that the index of crates.io has of a crate, from the manifest in its archive.

    `checksum` is the archive's SHA-256, 64 hex digits in lower case. Without it the line has no
    `cksum`, and Cargo doesn't take it.
    """
    return _value("index", text, checksum or "")


def document(text: Text) -> List[DocumentedFeature]:
    """The features that users may ask for, with all that each leads to, in byte order."""
    return _value("document", text)["features"]


def _value(name: str, *arguments: Any) -> Any:
    return json.loads(answer(name, *arguments))
