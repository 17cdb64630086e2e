"""What the calls answer, by the library that CARGO_TOML_SO names or that is inside the package."""

from __future__ import annotations

import concurrent.futures
import hashlib
import io
import json
import os
import pickle
import subprocess
import sys
import tarfile
import tempfile
import unittest
from typing import Dict

import cargo_toml_proved as cargo_toml

DUNCE = """[package]
name = "dunce"
version = "0.1.0"

[features]
default = ["fast"]
fast = ["log/std"]

[dependencies]
log = { version = "0.4", optional = true }
"""


class Calls(unittest.TestCase):
    def test_features(self) -> None:
        found = cargo_toml.features(DUNCE)
        self.assertEqual(list(found["features"]), ["default", "fast", "log"])
        self.assertEqual(found["features"]["fast"]["enabled_by"], ["default"])
        self.assertEqual(found["features"]["fast"]["dependencies"]["log"]["features"], ["std"])
        self.assertFalse(found["features"]["log"]["listed"])
        self.assertFalse(found["cut"])

    def test_hidden_features(self) -> None:
        text = "[package]\nname = 'a'\n[features]\na = ['_b']\n_b = ['c']\nc = []\n"
        found = cargo_toml.features(text)
        self.assertEqual(found["features"]["a"]["names"], ["c"])
        self.assertEqual(found["hidden"], {"_b": ["c"]})
        kept = cargo_toml.features(text, keep=["_b"])
        self.assertEqual(kept["features"]["a"]["names"], ["_b"])

    def test_limit(self) -> None:
        self.assertTrue(cargo_toml.features(DUNCE, max_items=1)["cut"])
        with self.assertRaises(ValueError):
            cargo_toml.features(DUNCE, max_items=0)

    def test_completion(self) -> None:
        text = "[package]\nname = 'a'\nversion.workspace = true\n"
        root = ("/w/Cargo.toml", "[workspace.package]\nversion = '1.2.3'\n")
        manifest = cargo_toml.complete(text, ["src/main.rs", "src/bin/b.rs"], root)
        self.assertEqual(manifest["package"]["version"], "1.2.3")
        self.assertEqual([it["name"] for it in manifest["bin"]], ["a", "b"])
        with self.assertRaises(cargo_toml.ManifestError):
            cargo_toml.complete(text, [])

    def test_refusal(self) -> None:
        with self.assertRaises(cargo_toml.ManifestError) as caught:
            cargo_toml.read("[package]\nname = 'a'\nedition = 2021\n")
        fault = caught.exception.faults[0]
        self.assertEqual((fault["line"], fault["column"]), (3, 1))
        self.assertEqual(fault["key"], "package.edition")
        again = pickle.loads(pickle.dumps(caught.exception))
        self.assertEqual(again.faults, caught.exception.faults)

    def test_check_lint_and_document(self) -> None:
        self.assertEqual(cargo_toml.check(DUNCE), [])
        self.assertEqual([it["code"] for it in cargo_toml.lint(DUNCE)], ["implied"])
        self.assertIn("fast", [row["name"] for row in cargo_toml.document(DUNCE)])

    def test_texts_that_are_no_manifest(self) -> None:
        deep = b"x = " + b"{a.a.a=" * 2000 + b"1" + b"}" * 2000
        for call in (cargo_toml.read, cargo_toml.features, cargo_toml.lint, cargo_toml.index):
            for text in (deep, b"\xff"):
                with self.assertRaises(cargo_toml.ManifestError):
                    call(text)

    def test_long_answers(self) -> None:
        names = "".join(f"feature_{n} = ['feature_{n - 1}']\n" for n in range(1, 2000))
        found = cargo_toml.features(f"[package]\nname = 'a'\n[features]\nfeature_0 = []\n{names}")
        self.assertEqual(len(found["features"]), 2001)

    def test_threads(self) -> None:
        expected = cargo_toml.features(DUNCE)
        with concurrent.futures.ThreadPoolExecutor(8) as pool:
            answers = [*pool.map(cargo_toml.features, [DUNCE] * 1600)]
        self.assertEqual(answers, [expected] * 1600)


class Archives(unittest.TestCase):
    def setUp(self) -> None:
        room = tempfile.TemporaryDirectory()
        self.addCleanup(room.cleanup)
        self.room = room.name

    def made(self, folder: str, files: Dict[str, str]) -> str:
        """The path of a `.crate` with these files."""
        path = os.path.join(self.room, f"{folder}.crate")
        with tarfile.open(path, "w:gz") as entries:
            for name, text in files.items():
                entry = tarfile.TarInfo(f"{folder}/{name}")
                entry.size = len(text.encode())
                entries.addfile(entry, io.BytesIO(text.encode()))
        return path

    def test_crate(self) -> None:
        files = {"Cargo.toml": DUNCE, "src/lib.rs": "", "src/bin/tool.rs": ""}
        path = self.made("dunce-0.1.0", files)
        crate = cargo_toml.from_crate(path)
        with open(path, "rb") as file:
            self.assertEqual(crate.checksum, hashlib.sha256(file.read()).hexdigest())
        self.assertEqual(crate.manifest()["bin"][0]["name"], "tool")
        line = crate.index()
        self.assertEqual((line["name"], line["vers"]), ("dunce", "0.1.0"))
        self.assertEqual(line["cksum"], crate.checksum)
        self.assertEqual(json.loads(crate.line()), line)

    def test_crate_of_another_name(self) -> None:
        path = self.made("evil-1.0.0", {"Cargo.toml": DUNCE})
        with self.assertRaisesRegex(ValueError, "evil-1.0.0.*dunce-0.1.0"):
            cargo_toml.from_crate(path).index()

    def test_crate_without_a_manifest(self) -> None:
        with self.assertRaises(ValueError):
            cargo_toml.from_crate(self.made("a-1", {"src/lib.rs": ""}))

    def test_command_line(self) -> None:
        path = self.made("dunce-0.1.0", {"Cargo.toml": DUNCE})
        words = [sys.executable, "-m", "cargo_toml_proved"]
        done = subprocess.run([*words, "features", path], capture_output=True, check=True)
        self.assertIn(b'"fast"', done.stdout)
        done = subprocess.run([*words, "index", path, "/none"], capture_output=True, check=False)
        self.assertEqual(done.returncode, 1)
        self.assertIn(b"/none", done.stderr)
