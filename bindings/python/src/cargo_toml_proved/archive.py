"""Archives of crates, as `cargo package` makes them, read without being laid out in a folder."""

from __future__ import annotations

import hashlib
import io
import json
import os
import tarfile
import zlib
from dataclasses import dataclass
from typing import Any, List, Tuple, Union

import cargo_toml_proved as calls

from ._library import answer

#: The most bytes of a `Cargo.toml`, since an archive of a stranger may hold any number.
MAX_MANIFEST = 16 << 20
#: The most entries of an archive.
MAX_ENTRIES = 1 << 16
#: The most bytes of files that are unpacked at once.
AT_ONCE = 1 << 24


@dataclass(frozen=True)
class Crate:
    """What an archive holds that matters to its manifest."""

    #: The folder that all its files lie in: `NAME-VERSION`.
    folder: str
    #: The text of its `Cargo.toml`.
    text: bytes
    #: The paths of its files, as seen from its folder.
    paths: Tuple[str, ...]
    #: The SHA-256 of the archive.
    checksum: str

    def manifest(self) -> Any:
        """The completed manifest."""
        return calls.complete(self.text, self.paths)

    def features(self, **options: Any) -> Any:
        """The features, with the options of `features`."""
        return calls.features(self.text, **options)

    def line(self) -> str:
        """The line of an index, as text. Raises ValueError where the manifest is of another crate
        than the folder, so that no archive gets a line in the name of another."""
        line = answer("index", self.text, self.checksum)
        entry = json.loads(line)
        named = f"{entry['name']}-{entry['vers']}"
        if named != self.folder:
            raise ValueError(f"the archive is of {self.folder}, and its manifest of {named}")
        return line

    def index(self) -> Any:
        """The same as a dict."""
        return json.loads(self.line())


def from_crate(path: Union[str, "os.PathLike[str]"]) -> Crate:
    """What a `.crate` holds. Raises OSError where it can't be read, and ValueError where it is no
    archive, has no `NAME-VERSION/Cargo.toml`, files in other folders, or more than the limits of
    this module."""
    with open(path, "rb") as file:
        archive = file.read()
    try:
        names, manifests = _found_in(archive)
    except (EOFError, ValueError, tarfile.TarError, zlib.error) as fault:
        raise ValueError(f"{path}: {fault}") from fault
    if len(manifests) != 1:
        raise ValueError(f"{path}: {len(manifests)} files NAME-VERSION/Cargo.toml")
    folder = manifests[0][0].split("/")[0]
    if not all(name.startswith(f"{folder}/") for name in names):
        raise ValueError(f"{path}: a file lies outside the folder {folder}")
    paths = tuple(name[len(folder) + 1 :] for name in names)
    return Crate(folder, manifests[0][1], paths, hashlib.sha256(archive).hexdigest())


def _found_in(archive: bytes) -> Tuple[List[str], List[Tuple[str, bytes]]]:
    """The names of the files, and the manifests with their texts."""
    names, manifests = [], []
    with _opened(archive) as entries:
        for count, entry in enumerate(entries):
            if count >= MAX_ENTRIES:
                raise ValueError(f"over {MAX_ENTRIES} entries")
            if not entry.isfile():
                continue
            names.append(entry.name)
            if entry.name.count("/") == 1 and entry.name.endswith("/Cargo.toml"):
                file = entries.extractfile(entry)
                if entry.size > MAX_MANIFEST or file is None:
                    raise ValueError(f"{entry.name}: over {MAX_MANIFEST} bytes")
                manifests.append((entry.name, file.read()))
    return names, manifests


def _opened(archive: bytes) -> tarfile.TarFile:
    """A small archive is unpacked at once, which is faster."""
    unpacking = zlib.decompressobj(wbits=31)
    files = unpacking.decompress(archive, AT_ONCE)
    if unpacking.eof and not unpacking.unused_data:
        return tarfile.open(fileobj=io.BytesIO(files), mode="r:")
    return tarfile.open(fileobj=io.BytesIO(archive), mode="r:gz")
