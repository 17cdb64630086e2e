"""The proved library, called by `ctypes`."""

from __future__ import annotations

import ctypes
import json
import os
import secrets
import threading
from typing import Any, List, Union

from .types import Fault

#: A text, or its bytes in UTF-8.
Text = Union[str, bytes]

_DONE, _REFUSED, _MEMORY = 0, 1, 2


class ManifestError(ValueError):
    """A manifest is refused: `faults` lists what is at fault in it, if that is known."""

    def __init__(self, words: str, faults: List[Fault]) -> None:
        super().__init__(words)
        self.faults = faults

    def __reduce__(self) -> Any:
        return ManifestError, (str(self), self.faults)


_BESIDE = os.path.join(os.path.dirname(os.path.abspath(__file__)), "libcargo_toml.so")
_LIBRARY = ctypes.CDLL(os.environ.get("CARGO_TOML_SO", _BESIDE))
_KEYS = (secrets.randbits(64), secrets.randbits(64))


def _function(name: str, texts: int, numbers: int = 0, is_keyed: bool = False) -> Any:
    """A function of the library that takes so many texts and numbers, and maybe the keys; and the
    keys that it is given."""
    keys = _KEYS if is_keyed else ()
    found = getattr(_LIBRARY, f"cargo_toml_{name}")
    found.restype = ctypes.c_uint32
    found.argtypes = [ctypes.c_char_p, ctypes.c_size_t] * texts
    found.argtypes += [ctypes.c_uint64] * (numbers + len(keys))
    found.argtypes += [ctypes.c_void_p, ctypes.c_size_t, ctypes.POINTER(ctypes.c_size_t)]
    return found, keys


_FUNCTIONS = {
    "version": _function("version", 0),
    "manifest": _function("manifest", 1),
    "complete": _function("complete", 4),
    "features": _function("features", 2, 1, is_keyed=True),
    "check": _function("check", 1),
    "lint": _function("lint", 1, is_keyed=True),
    "index": _function("index", 2, is_keyed=True),
    "document": _function("document", 1, is_keyed=True),
}


class _Room(threading.local):
    """The place of a thread's answers, which grows with them."""

    def __init__(self) -> None:
        self.needed = ctypes.c_size_t()
        self.grow(1 << 14)

    def grow(self, size: int) -> None:
        self.size = size
        self.place = ctypes.create_string_buffer(size)
        self.bytes = memoryview(self.place)


_ROOM = _Room()


def answer(name: str, *arguments: Union[Text, int]) -> str:
    """What a function of the library answers, as JSON. Raises ManifestError where it refuses the
    manifest, MemoryError, or ValueError for an argument that isn't meant so."""
    function, keys = _FUNCTIONS[name]
    words: List[Any] = []
    for it in arguments:
        if isinstance(it, int):
            words.append(it)
        else:
            text = it.encode() if isinstance(it, str) else bytes(it)
            words += (text, len(text))
    status = function(*words, *keys, _ROOM.place, _ROOM.size, _ROOM.needed)
    while _ROOM.needed.value > _ROOM.size:
        _ROOM.grow(_ROOM.needed.value * 5 // 4)
        status = function(*words, *keys, _ROOM.place, _ROOM.size, _ROOM.needed)
    if status == _MEMORY:
        raise MemoryError("out of memory")
    said = str(_ROOM.bytes[: _ROOM.needed.value], "utf-8")
    if status == _DONE:
        return said
    refusal = json.loads(said)
    if status == _REFUSED:
        raise ManifestError(refusal["words"], refusal["faults"])
    raise ValueError(refusal["words"])
