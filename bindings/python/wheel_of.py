"""Makes the wheel, by the standard library alone; also as the build backend of pip.

    python3 wheel_of.py LIBRARY FOLDER    a wheel with this libcargo_toml.so, into FOLDER

The same files give the same bytes: dates, order and modes are fixed.
"""

from __future__ import annotations

import base64
import hashlib
import os
import sys
import zipfile
from typing import Any, Dict, Optional

HERE = os.path.dirname(os.path.abspath(__file__))
NAME, VERSION = "cargo_toml_proved", "1.0.1.post1"
TAG = "py3-none-manylinux_2_34_x86_64"
DATE = (1980, 1, 1, 0, 0, 0)


def _bytes_of(*parts: str) -> bytes:
    with open(os.path.join(HERE, *parts), "rb") as file:
        return file.read()


def _metadata() -> str:
    return (
        f"Metadata-Version: 2.1\nName: {NAME}\nVersion: {VERSION}\n"
        "Summary: Reads Cargo.toml, completes it and resolves its features, by a proved library\n"
        "License: Apache-2.0\nRequires-Python: >=3.9\n"
        "Classifier: Typing :: Typed\nClassifier: Operating System :: POSIX :: Linux\n"
        "Description-Content-Type: text/markdown\n\n" + _bytes_of("README.md").decode()
    )


def _files(library: str) -> Dict[str, bytes]:
    """Each file of the wheel by its path, but RECORD."""
    files = {f"{NAME}/libcargo_toml.so": _bytes_of(os.path.abspath(library))}
    for name in sorted(os.listdir(os.path.join(HERE, "src", NAME))):
        if name.endswith(".py") or name == "py.typed":
            files[f"{NAME}/{name}"] = _bytes_of("src", NAME, name)
    about = f"{NAME}-{VERSION}.dist-info"
    files[f"{about}/METADATA"] = _metadata().encode()
    about_wheel = f"Wheel-Version: 1.0\nGenerator: wheel_of\nRoot-Is-Purelib: false\nTag: {TAG}\n"
    files[f"{about}/WHEEL"] = about_wheel.encode()
    return files


def _record(files: Dict[str, bytes], own: str) -> bytes:
    lines = []
    for path, content in files.items():
        digest = base64.urlsafe_b64encode(hashlib.sha256(content).digest()).rstrip(b"=").decode()
        lines.append(f"{path},sha256={digest},{len(content)}\n")
    return "".join([*lines, f"{own},,\n"]).encode()


def wheel(library: str, folder: str) -> str:
    """Makes the wheel with a library in a folder, and answers its name."""
    files = _files(library)
    own = f"{NAME}-{VERSION}.dist-info/RECORD"
    files[own] = _record(files, own)
    name = f"{NAME}-{VERSION}-{TAG}.whl"
    with zipfile.ZipFile(os.path.join(folder, name), "w", zipfile.ZIP_DEFLATED) as archive:
        for path, content in files.items():
            entry = zipfile.ZipInfo(path, DATE)
            entry.compress_type = zipfile.ZIP_DEFLATED
            entry.external_attr = (0o755 if path.endswith(".so") else 0o644) << 16
            archive.writestr(entry, content)
    return name


def build_wheel(
    wheel_directory: str,
    config_settings: Optional[Dict[str, Any]] = None,
    metadata_directory: Optional[str] = None,
) -> str:
    """What pip calls. The library is that of CARGO_TOML_SO, or the one beside the package."""
    beside = os.path.join(HERE, "src", NAME, "libcargo_toml.so")
    return wheel(os.environ.get("CARGO_TOML_SO", beside), wheel_directory)


if __name__ == "__main__":
    if len(sys.argv) != 3:
        sys.exit("usage: wheel_of.py LIBRARY FOLDER")
    print(wheel(sys.argv[1], sys.argv[2]))
