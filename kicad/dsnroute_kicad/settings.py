"""What the dialog asks for, kept for each board in one file of the user's configuration."""
from __future__ import annotations

import json
import os
from dataclasses import asdict, dataclass, field
from pathlib import Path
from typing import Any, Dict, List, Optional, Tuple

RANGES: Dict[str, Tuple[int, int]] = {
    "grid": (1, 100_000), "via_cost": (0, 1_000_000), "passes": (1, 99), "workers": (1, 16),
}
GRIDS = (50, 100, 200, 400, 800)


@dataclass(frozen=True)
class Options:
    """The words of a call; None is the program's own choice. Lengths in micrometres."""

    grid: Optional[int] = None
    via_cost: Optional[int] = None
    passes: Optional[int] = None
    workers: Optional[int] = None
    omit_fixed: bool = True
    anew: bool = False

    def words(self) -> List[str]:
        """The options as words of the command."""
        words: List[str] = []
        for name in RANGES:
            value = getattr(self, name)
            if value is not None:
                words += ["--" + name.replace("_", "-"), str(value)]
        return words + (["--omit-fixed"] if self.omit_fixed else [])


@dataclass
class Remembered:
    """What is kept of a board: the options of its last run, how many connections stayed open, and its grid."""

    options: Options = field(default_factory=Options)
    open: int = 0
    grid: int = 0


def number_of(name: str, text: str) -> Optional[int]:
    """The value of an option from a field's text, None where it is empty; a ValueError in plain words."""
    text = text.strip()
    least, most = RANGES[name]
    if not text:
        return None
    if not text.isascii() or not text.isdigit() or not least <= int(text) <= most:
        raise ValueError(f"{name.replace('_', ' ').capitalize()} is a whole number from {least:,} to {most:,}.")
    return int(text)


def grids_to_offer(last: Remembered) -> List[int]:
    """The grids of the list, in um: where connections stayed open, those coarser than the last come first."""
    if not last.open or not last.grid:
        return list(GRIDS)
    coarser = [factor * last.grid for factor in (2, 4) if factor * last.grid <= RANGES["grid"][1]]
    return coarser + [grid for grid in GRIDS if grid not in coarser]


class Store:
    """The file of what is remembered.

    A file that can't be read counts as empty; where it can't be written nothing is remembered.
    """

    def __init__(self, path: Path) -> None:
        self.path = path

    def _read(self) -> Dict[str, Any]:
        try:
            read = json.loads(self.path.read_text(encoding="utf-8"))
        except (OSError, ValueError):
            return {}
        return read if isinstance(read, dict) else {}

    def _write(self, kept: Dict[str, Any]) -> None:
        beside = self.path.with_suffix(".new")
        try:
            self.path.parent.mkdir(parents=True, exist_ok=True)
            beside.write_text(json.dumps(kept, indent=1, sort_keys=True), encoding="utf-8")
            os.replace(beside, self.path)
        except OSError:
            pass

    @property
    def program(self) -> str:
        """Where the user says that the program is; empty where nothing was said."""
        program = self._read().get("program")
        return program if isinstance(program, str) else ""

    @program.setter
    def program(self, path: str) -> None:
        self._write({**self._read(), "program": path})

    def of_board(self, board: str) -> Remembered:
        """What is remembered of the board of this file."""
        boards = self._read().get("boards")
        kept = boards.get(board) if isinstance(boards, dict) else None
        return _remembered(kept) if isinstance(kept, dict) else Remembered()

    def remember(self, board: str, what: Remembered) -> None:
        """Keeps this of the board of this file."""
        read = self._read()
        boards = read.get("boards")
        boards = dict(boards) if isinstance(boards, dict) else {}
        boards[board] = asdict(what)
        self._write({**read, "boards": boards})


def _remembered(kept: Dict[str, Any]) -> Remembered:
    """Takes what is well formed, and leaves out the rest."""
    options = kept.get("options")
    options = options if isinstance(options, dict) else {}
    numbers = {name: value for name, value in options.items() if name in RANGES and _is_count(value)
               and RANGES[name][0] <= value <= RANGES[name][1]}
    ticks = {name: options[name] for name in ("omit_fixed", "anew") if isinstance(options.get(name), bool)}
    counts = {name: kept[name] for name in ("open", "grid") if _is_count(kept.get(name)) and kept[name] >= 0}
    return Remembered(Options(**numbers, **ticks), **counts)


def _is_count(value: object) -> bool:
    return isinstance(value, int) and not isinstance(value, bool)
