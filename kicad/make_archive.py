#!/usr/bin/env python3
"""Makes the archive that KiCad's Plugin and Content Manager installs from a file.

    python3 kicad/make_archive.py OUT.zip [--program PROGRAM]

The program goes into the plugin's folder, where the button finds it. The same files make the
same bytes. The metadata are checked by KiCad's schema as far as an archive needs it.
"""
from __future__ import annotations

import argparse
import json
import re
import zipfile
from pathlib import Path
from typing import Any, Dict, Iterator, Optional, Tuple

HERE = Path(__file__).resolve().parent
PLUGIN = HERE / "dsnroute_kicad"
METADATA = HERE / "metadata.json"
LENGTHS = {"name": 200, "description": 500, "description_full": 5000}
REQUIRED = ("name", "description", "description_full", "identifier", "type", "author", "license", "resources",
            "versions")


def faults(metadata: Dict[str, Any]) -> Iterator[str]:
    """What the schema of KiCad's packages refuses in these metadata."""
    for name in REQUIRED:
        if name not in metadata:
            yield f"{name} is missing"
    for name, most in LENGTHS.items():
        if len(metadata.get(name, "")) > most:
            yield f"{name} is longer than {most} letters"
    if not re.fullmatch(r"[a-zA-Z][-a-zA-Z0-9.]{0,98}[a-zA-Z0-9]", metadata.get("identifier", "")):
        yield "the identifier is letters, digits, hyphens and points"
    if metadata.get("type") != "plugin":
        yield "the type is plugin"
    if not {"name", "contact"} <= set(metadata.get("author", {})):
        yield "the author has a name and a contact"
    if len(metadata.get("versions", [])) != 1:
        yield "an archive has one version"
    for version in metadata.get("versions", []):
        if not re.fullmatch(r"\d{1,4}(\.\d{1,4}(\.\d{1,6})?)?", version.get("version", "")):
            yield "a version is one to three numbers"
        if version.get("status") not in ("stable", "testing", "development", "deprecated"):
            yield "a version has a status"
        if not re.fullmatch(r"\d{1,2}(\.\d{1,2}(\.\d{1,2})?)?", version.get("kicad_version", "")):
            yield "a version says from which KiCad on"


def files(program: Optional[Path]) -> Iterator[Tuple[str, bytes, int]]:
    """Name, content and mode of each file of the archive."""
    yield "metadata.json", METADATA.read_bytes(), 0o644
    yield "resources/icon.png", (HERE / "icon-64.png").read_bytes(), 0o644
    for path in sorted(PLUGIN.iterdir()):
        if path.suffix in (".py", ".png"):
            yield f"plugins/{path.name}", path.read_bytes(), 0o644
    if program is not None:
        yield "plugins/dsnroute", program.read_bytes(), 0o755


def write_archive(out: Path, program: Optional[Path]) -> None:
    """Writes the archive."""
    with zipfile.ZipFile(out, "w", zipfile.ZIP_DEFLATED) as archive:
        for name, content, mode in files(program):
            entry = zipfile.ZipInfo(name)
            entry.compress_type = zipfile.ZIP_DEFLATED
            entry.external_attr = mode << 16
            archive.writestr(entry, content)


def main() -> None:
    parser = argparse.ArgumentParser(description=(__doc__ or "").splitlines()[0])
    parser.add_argument("out", type=Path)
    parser.add_argument("--program", type=Path)
    words = parser.parse_args()
    found = list(faults(json.loads(METADATA.read_text(encoding="utf-8"))))
    if found:
        parser.error("metadata.json: " + "; ".join(found))
    write_archive(words.out, words.program)
    print(words.out)


if __name__ == "__main__":
    main()
