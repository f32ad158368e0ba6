#!/usr/bin/env python3
"""Installs an archive by KiCad 6's Plugin and Content Manager, unattended under Xvfb.

    python3 kicad/trial/install.py ARCHIVE HOME [--shots FOLDER]

It presses the manager's buttons at the places where KiCad 6.0 has them on a screen of 1280 by 900
without a window manager. Afterwards `run.py --installed HOME` tries what was installed.
"""
from __future__ import annotations

import argparse
import json
import os
import subprocess
import sys
import time
from pathlib import Path
from typing import Callable

from run import SILENT

DISPLAY = ":93"
MANAGER, BOX, FROM_FILE, INSTALLED = (328, 543), (819, 434), (260, 540), (270, 51)
PATIENCE = 120.0


def press(place: "tuple[int, int]") -> None:
    """A click that is long enough for KiCad's start page."""
    x, y = place
    subprocess.run(["xdotool", "mousemove", str(x), str(y), "sleep", "0.5", "mousedown", "1", "sleep", "0.3",
                    "mouseup", "1"], check=True)


def has_window(name: str) -> bool:
    """Whether a window of this title is shown."""
    found = subprocess.run(["xdotool", "search", "--onlyvisible", "--name", name], stdout=subprocess.PIPE, check=False)
    return bool(found.stdout.strip())


def wait_for(what: str, comes: Callable[[], bool], then: float = 2.0) -> None:
    """Waits until something is there, and a little longer."""
    end = time.monotonic() + PATIENCE
    while not comes():
        if time.monotonic() > end:
            raise TimeoutError(what)
        time.sleep(0.5)
    time.sleep(then)


def play(archive: Path, home: Path, picture: Callable[[str], None]) -> Path:
    """Presses what a user presses; the folder of the installed plugin."""
    installed = home / ".local" / "share" / "kicad" / "6.0" / "3rdparty" / "plugins" / "dsnroute"
    wait_for("the start page", lambda: has_window("KiCad 6"), 5.0)
    press(MANAGER)
    wait_for("the manager", lambda: has_window("Plugin And Content Manager"), 8.0)
    if has_window("KiCad Error"):  # off line: the official repository can't be reached
        press(BOX)
        time.sleep(4.0)
    press(FROM_FILE)
    wait_for("the file dialog", lambda: has_window("Choose package file"), 3.0)
    subprocess.run(["xdotool", "key", "slash", "sleep", "1", "type", "--delay", "60", str(archive)[1:]], check=True)
    time.sleep(2.0)
    subprocess.run(["xdotool", "key", "Return"], check=True)
    wait_for("the installed plugin", lambda: (installed / "__init__.py").is_file(), 8.0)
    if has_window("KiCad Error"):
        press(BOX)
        time.sleep(3.0)
    press(INSTALLED)
    time.sleep(3.0)
    picture("installed")
    return installed


def main() -> int:
    parser = argparse.ArgumentParser(description=(__doc__ or "").splitlines()[0])
    parser.add_argument("archive", type=Path)
    parser.add_argument("home", type=Path)
    parser.add_argument("--shots", type=Path)
    words = parser.parse_args()
    home = words.home.resolve()
    config = home / "config" / "6.0"
    config.mkdir(parents=True)
    (config / "kicad_common.json").write_text(json.dumps(SILENT))
    for table in ("fp", "sym"):
        (config / f"{table}-lib-table").write_text(f"({table}_lib_table)\n")
    os.environ.update(HOME=str(home), KICAD_CONFIG_HOME=str(home / "config"), LC_ALL="C.UTF-8", DISPLAY=DISPLAY)

    def picture(name: str) -> None:
        if words.shots:
            words.shots.mkdir(parents=True, exist_ok=True)
            subprocess.run(["import", "-window", "root", str(words.shots / f"manager-{name}.png")], check=False)

    screen = subprocess.Popen(["Xvfb", DISPLAY, "-screen", "0", "1280x900x24", "-nolisten", "tcp"],
                              stdout=subprocess.DEVNULL, stderr=subprocess.DEVNULL)
    time.sleep(2.0)
    manager = subprocess.Popen(["kicad"], stdout=subprocess.DEVNULL, stderr=subprocess.DEVNULL)
    try:
        print(play(words.archive.resolve(), home, picture))
        return 0
    except TimeoutError as fault:
        picture("fault")
        print(f"didn't come: {fault}", file=sys.stderr)
        return 1
    finally:
        manager.terminate()
        manager.wait()
        screen.terminate()
        screen.wait()


if __name__ == "__main__":
    sys.exit(main())
