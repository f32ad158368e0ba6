"""Finds the program and runs it behind the editor."""
from __future__ import annotations

import ctypes
import os
import shutil
import signal
import stat
import subprocess
import sys
import threading
from pathlib import Path
from typing import Callable, List, Optional

NAME = "dsnroute.exe" if sys.platform == "win32" else "dsnroute"
PROGRESS = "DSNROUTE_PROGRESS"

Said = Callable[[str], None]
Ended = Callable[["Outcome"], None]


class ProgramFault(Exception):
    """The program can't be started; the text says why and what to do."""


def find_program(setting: str, beside: Path) -> Path:
    """The program: where the setting says, or else in the plugin's folder, or on the path.

    A program without its run bit, which KiCad's manager takes away, gets it back.
    """
    if setting:
        return _runnable(Path(setting))
    own = beside / NAME
    if own.is_file():
        return _runnable(own)
    found = shutil.which(NAME)
    if found is None:
        raise ProgramFault(f"The program {NAME} wasn't found, neither in the plugin's folder nor on the path. "
                           "Say where it is.")
    return Path(found)


def _runnable(path: Path) -> Path:
    if not path.is_file():
        raise ProgramFault(f"There is no program {path}. Say where it is.")
    if not os.access(path, os.X_OK):
        try:
            path.chmod(path.stat().st_mode | stat.S_IXUSR | stat.S_IXGRP | stat.S_IXOTH)
        except OSError as fault:
            raise ProgramFault(
                f"The program {path} hasn't its run bit, and it can't be set: {fault.strerror}.") from None
    return path


class Outcome:
    """How a run ended: its status, or None where it was cancelled; standard output; the lines of standard error."""

    def __init__(self, status: Optional[int], report: bytes, lines: List[str]) -> None:
        self.status = status
        self.report = report
        self.lines = lines

    @property
    def is_routed(self) -> bool:
        """A session was written."""
        return self.status in (0, 1)


def _dies_with_editor() -> Optional[Callable[[], object]]:
    """What the child calls first, so that Linux ends it when the thread that started it ends."""
    if not sys.platform.startswith("linux"):
        return None
    try:
        prctl = ctypes.CDLL(None, use_errno=True).prctl
    except (OSError, AttributeError):
        return None
    return lambda: prctl(1, signal.SIGKILL, 0, 0, 0)


class Run:
    """One run of the program. Start it from a thread that lives as long as the editor does.

    `said` gets each line of standard error and `ended` the outcome, both in a thread of the run's own.
    """

    def __init__(self, words: List[str], folder: Path, said: Said, ended: Ended) -> None:
        self._said = said
        self._ended = ended
        self._cancelled = False
        self._report = folder / "report.txt"
        try:
            with open(self._report, "wb") as report:
                self._child = subprocess.Popen(
                    words, cwd=str(folder), stdin=subprocess.DEVNULL, stdout=report, stderr=subprocess.PIPE,
                    env={**os.environ, PROGRESS: "1"}, preexec_fn=_dies_with_editor(),
                    creationflags=getattr(subprocess, "CREATE_NO_WINDOW", 0))
        except OSError as fault:
            raise ProgramFault(f"The program {words[0]} can't be started: {fault.strerror}.") from None
        self._thread = threading.Thread(target=self._follow, daemon=True)
        self._thread.start()

    @property
    def pid(self) -> int:
        """The number of the process."""
        return self._child.pid

    def _follow(self) -> None:
        lines: List[str] = []
        assert self._child.stderr is not None
        with self._child.stderr as stream:
            for raw in stream:
                lines.append(raw.decode("utf-8", "replace").rstrip("\r\n"))
                self._said(lines[-1])
        status: Optional[int] = self._child.wait()
        self._ended(Outcome(None if self._cancelled else status, self._report.read_bytes(), lines))

    def cancel(self) -> None:
        """Ends the program at once, without waiting for it; `ended` is called all the same."""
        self._cancelled = True
        self._child.kill()

    def join(self, seconds: float) -> None:
        """Waits until `ended` was called, at most so long."""
        self._thread.join(seconds)
