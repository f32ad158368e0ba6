"""The board in the editor: its routed copper, its design file, and the copy beside it.

Places are in nanometres with y downwards, as KiCad has them.
"""
from __future__ import annotations

from collections import Counter
from pathlib import Path
from typing import Any, Dict, Iterator, List, NamedTuple, Optional, Set, Tuple

import pcbnew

from .brackets import TextFault
from .design import Design
from .matching import Key, Point, pairs, track_key, via_key

_VERSION = tuple(int(part) for part in pcbnew.GetMajorMinorVersion().split(".")[:2])


class BoardFault(Exception):
    """The board can't be routed as it is; the text says why."""


def point(x: int, y: int) -> Any:
    """A place as this KiCad's calls take it."""
    return pcbnew.VECTOR2I(x, y) if _VERSION >= (6, 99) else pcbnew.wxPoint(x, y)


def place(where: Any) -> Point:
    """A place of KiCad as two numbers."""
    return int(where.x), int(where.y)


def is_via(item: Any) -> bool:
    """Whether a track of the board's list is a via."""
    return bool(item.Type() == pcbnew.PCB_VIA_T)


def is_arc(item: Any) -> bool:
    """Whether a track of the board's list is a bent one."""
    return bool(item.Type() == pcbnew.PCB_ARC_T)


def is_exported(item: Any) -> bool:
    """Whether an item has a net. KiCad leaves tracks and vias without one out of the design."""
    return bool(item.GetNetCode() > 0)


def key_of(board: Any, item: Any) -> Key:
    """The key of a track (a bent one by its chord) or via."""
    net = item.GetNetname()
    if is_via(item):
        layers = [board.GetLayerName(item.TopLayer()), board.GetLayerName(item.BottomLayer())]
        return via_key(net, layers, place(item.GetPosition()))
    return track_key(net, board.GetLayerName(item.GetLayer()), place(item.GetStart()), place(item.GetEnd()))


class Routed(NamedTuple):
    """How much a board has of what a router lays, and what is missing."""

    tracks: int
    vias: int
    locked: int
    open: int


def count_routed(board: Any) -> Routed:
    """Counts tracks (bent ones too), vias, the locked of both, and connections that are missing."""
    items = list(board.GetTracks())
    vias = sum(is_via(item) for item in items)
    board.BuildConnectivity()
    return Routed(len(items) - vias, vias, sum(item.IsLocked() for item in items),
                  _unconnected(board.GetConnectivity()))


def _unconnected(connectivity: Any) -> int:
    try:
        return int(connectivity.GetUnconnectedCount())
    except TypeError:  # KiCad 8 asks whether to count those that are shown only
        return int(connectivity.GetUnconnectedCount(False))


class Export(NamedTuple):
    """A design, and the unlocked tracks that it has as fixed ones, by their identity."""

    text: bytes
    design: Design
    held: Set[str]


def identity(item: Any) -> str:
    """What tells an item from all others, as long as it lives."""
    return str(item.m_Uuid.AsString())


def export_design(board: Any, path: Path) -> Export:
    """Writes the board's design.

    KiCad joins tracks that go on from one another to one wire, which is fixed where its first
    track is locked. So that no locked track is lost, unlocked ones that share a wire with one
    count as locked: for KiCad while it writes, and for this plugin when the session is laid.
    """
    items = [item for item in board.GetTracks() if is_exported(item) and not is_via(item)]
    lent: List[Any] = []
    try:
        while True:
            text, design = _write_design(board, path)
            more = _unlocked_beside_locked(board, items, design)
            if not more:
                break
            for item in more:
                item.SetLocked(True)
            lent += more
    finally:
        for item in lent:
            item.SetLocked(False)
    fixed = {key for is_fixed, keys in _wires(design) if is_fixed for key in keys}
    return Export(text, design, {identity(item) for item in items
                                 if not item.IsLocked() and key_of(board, item) in fixed})


def _write_design(board: Any, path: Path) -> Tuple[bytes, Design]:
    if path.exists():
        path.unlink()
    if not pcbnew.ExportSpecctraDSN(board, str(path)) or not path.is_file():
        raise BoardFault("KiCad can't write the design of this board. " + _why_no_design(board))
    text = path.read_bytes()
    try:
        return text, Design(text)
    except TextFault as fault:
        raise BoardFault(f"KiCad's design of this board can't be read: {fault.at_line(text)}.") from None


def _wires(design: Design) -> Iterator[Tuple[bool, List[Key]]]:
    """Of each wire of the design whether it is fixed, and the keys of its straight pieces."""
    for wire in design.wires():
        points = [(x, -y) for x, y in wire.points]
        yield wire.is_fixed, [track_key(wire.net, wire.layer, a, b) for a, b in pairs(points)]


def _unlocked_beside_locked(board: Any, items: List[Any], design: Design) -> List[Any]:
    """The unlocked tracks of each free wire that has a locked one."""
    by_key: Dict[Key, List[Any]] = {}
    for item in items:
        by_key.setdefault(key_of(board, item), []).append(item)
    found: List[Any] = []
    for is_fixed, keys in _wires(design):
        if not is_fixed:
            parts = [item for key in keys for item in by_key.get(key, [])]
            if any(item.IsLocked() for item in parts):
                found += [item for item in parts if not item.IsLocked()]
    return found


def _why_no_design(board: Any) -> str:
    """The likely reason."""
    names = Counter(footprint.GetReference() for footprint in board.GetFootprints())
    twice = sorted(name for name, count in names.items() if count > 1)
    if twice:
        return "These references stand more than once: " + ", ".join(name or "(empty)" for name in twice[:8]) + "."
    if not has_outline(board):
        return "Its outline on the layer Edge.Cuts isn't closed, or there is none."
    return "Likely reasons: an outline that isn't closed, or a footprint without a reference."


def pad_places(board: Any) -> List[Point]:
    """The centres of all pads with a net, with y upwards as the design has it."""
    places = [place(pad.GetPosition()) for pad in board.GetPads() if is_exported(pad)]
    return [(x, -y) for x, y in places]


def has_outline(board: Any) -> bool:
    """Whether the board has a closed outline."""
    outline = pcbnew.SHAPE_POLY_SET()
    return bool(board.GetBoardPolygonOutlines(outline)) and outline.OutlineCount() > 0


def copy_path(board: Any) -> Optional[Path]:
    """Where the copy of the board goes: beside its file; None where it has none yet."""
    name = board.GetFileName()
    if not name or not Path(name).parent.is_dir():
        return None
    path = Path(name)
    return path.with_name(path.stem + "-before-dsnroute.kicad_pcb")


def save_copy(board: Any) -> Path:
    """Saves the board, as it stands in the editor, beside its file."""
    path = copy_path(board)
    if path is None:
        raise BoardFault("This board has no file yet. Save it first, so that a copy can be put beside it.")
    fresh = path.with_name(path.stem + "-new.kicad_pcb")
    saved = False
    try:
        saved = bool(pcbnew.SaveBoard(str(fresh), board, True))
        if saved:
            fresh.replace(path)
    except OSError:
        saved = False
    if not saved or not path.is_file():
        raise BoardFault(f"The copy {path} can't be written, so nothing was done.")
    return path
