"""The archive for KiCad's manager and its metadata."""
import json
import tempfile
import unittest
import zipfile
from pathlib import Path
from typing import Any, Dict

import make_archive

SPOILT: Dict[str, Any] = {
    "name": "n" * 201, "description": "d" * 501, "identifier": "1 name", "type": "library", "author": {"name": "n"},
    "versions": [{"version": "1.x", "status": "testing", "kicad_version": "6.0"}],
}


class Archive(unittest.TestCase):
    def setUp(self) -> None:
        self.metadata = json.loads(make_archive.METADATA.read_text(encoding="utf-8"))

    def test_metadata(self) -> None:
        self.assertEqual(list(make_archive.faults(self.metadata)), [])

    def test_spoilt_metadata(self) -> None:
        for name in make_archive.REQUIRED:
            with self.subTest(missing=name):
                self.assertTrue(list(make_archive.faults({k: v for k, v in self.metadata.items() if k != name})))
        for name, value in SPOILT.items():
            with self.subTest(name):
                self.assertEqual(len(list(make_archive.faults({**self.metadata, name: value}))), 1)

    def test_files(self) -> None:
        with tempfile.TemporaryDirectory() as folder:
            first, second = Path(folder) / "a.zip", Path(folder) / "b.zip"
            for out in (first, second):
                make_archive.write_archive(out, Path(__file__))
            self.assertEqual(first.read_bytes(), second.read_bytes())
            names = set(zipfile.ZipFile(first).namelist())
            self.assertLessEqual({"metadata.json", "resources/icon.png", "plugins/__init__.py", "plugins/icon.png",
                                  "plugins/dsnroute"}, names)
            self.assertFalse([name for name in names if "pycache" in name or "test" in name])


if __name__ == "__main__":
    unittest.main()
