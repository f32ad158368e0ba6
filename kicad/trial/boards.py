"""Makes the boards of the trial from KiCad's demonstrations, outside the editor."""
from __future__ import annotations

import re
import shutil
from collections import Counter
from pathlib import Path
from typing import Any, Callable, Dict

import pcbnew

DEMOS = Path("/usr/share/kicad/demos")
SOURCES = {
    "ecc83-pp": "ecc83/ecc83-pp.kicad_pcb",
    "flat_hierarchy": "flat_hierarchy/flat_hierarchy.kicad_pcb",
    "complex_hierarchy": "complex_hierarchy/complex_hierarchy.kicad_pcb",
    "pic_programmer": "pic_programmer/pic_programmer.kicad_pcb",
    "sonde": "sonde xilinx/sonde xilinx.kicad_pcb",
    "video": "video/video.kicad_pcb",
}


def made(source: str, folder: Path, change: Callable[[Any], None]) -> Path:
    """A copy of a demonstration board and its project in a folder of its own, changed."""
    path = DEMOS / SOURCES[source]
    folder.mkdir(parents=True, exist_ok=True)
    project = path.with_suffix(".kicad_pro")
    if project.is_file():
        shutil.copy(project, folder)
    target = folder / path.name
    board = pcbnew.LoadBoard(str(path))
    change(board)
    pcbnew.SaveBoard(str(target), board, True)
    return target


def as_it_is(board: Any) -> None:
    """Changes nothing."""


def bare(board: Any) -> None:
    """Takes all tracks and vias away, and fills the zones anew."""
    for item in list(board.GetTracks()):
        board.Delete(item)
    pcbnew.ZONE_FILLER(board).Fill(board.Zones())


def some_locked(board: Any) -> None:
    """Locks each third track and via, so that some runs are joined of locked and unlocked ones."""
    for number, item in enumerate(board.GetTracks()):
        item.SetLocked(number % 3 == 0)


def without_nets(board: Any) -> None:
    """Adds a track and a via without a net, clear of all pads."""
    box = board.GetBoardEdgesBoundingBox()
    track, via = pcbnew.PCB_TRACK(board), pcbnew.PCB_VIA(board)
    track.SetStart(pcbnew.wxPoint(box.GetX() + 12_000_000, box.GetY() + 3_000_000))
    track.SetEnd(pcbnew.wxPoint(box.GetX() + 15_000_000, box.GetY() + 3_000_000))
    track.SetWidth(800_000)
    via.SetPosition(pcbnew.wxPoint(box.GetX() + 18_000_000, box.GetY() + 3_000_000))
    for item in (track, via):
        board.Add(item)


def bent(board: Any) -> None:
    """Bends two tracks a little, and locks one of them."""
    for number, track in enumerate([item for item in board.GetTracks() if item.GetLength() > 5_000_000][:2]):
        arc = pcbnew.PCB_ARC(board)
        start, end = track.GetStart(), track.GetEnd()
        middle = (start.x + end.x + (end.y - start.y) // 10) // 2, (start.y + end.y - (end.x - start.x) // 10) // 2
        arc.SetStart(start)
        arc.SetMid(pcbnew.wxPoint(*middle))
        arc.SetEnd(end)
        arc.SetWidth(track.GetWidth())
        arc.SetLayer(track.GetLayer())
        arc.SetNet(track.GetNet())
        arc.SetLocked(number == 0)
        board.Delete(track)
        board.Add(arc)


def grouped(board: Any) -> None:
    """Puts all tracks of one net into a group."""
    group = pcbnew.PCB_GROUP(board)
    board.Add(group)
    for item in board.GetTracks():
        if item.GetNetname() == board.GetTracks()[0].GetNetname():
            group.AddItem(item)


def number_names(board: Any) -> None:
    """A bare board whose nets are called 1, 2, 3 .. and whose references are numbers, too."""
    bare(board)
    for number, net in enumerate(net for net in board.GetNetsByNetcode().values() if net.GetNetCode() > 0):
        net.SetNetname(str(number + 1))
    for number, footprint in enumerate(board.GetFootprints()):
        footprint.SetReference(str(number + 100))


def out_of_range(board: Any) -> None:
    """A bare board that lies more than 537 mm from the origin."""
    bare(board)
    board.Move(pcbnew.wxPoint(pcbnew.FromMM(700), 0))


def count_routed(board: Path) -> int:
    """Tracks and vias of a board's file."""
    return len(pcbnew.LoadBoard(str(board)).GetTracks())


def check(board: Path) -> Dict[str, int]:
    """KiCad's own check of a board by the rules of the project beside it: findings by kind, those at a text apart."""
    project = next((path for path in board.parent.glob("*.kicad_pro")), None)
    if project is not None and project.stem != board.stem:
        shutil.copy(project, board.with_suffix(".kicad_pro"))
    report = board.with_suffix(".txt")
    if not pcbnew.WriteDRCReport(pcbnew.LoadBoard(str(board)), str(report), pcbnew.EDA_UNITS_MILLIMETRES, True):
        raise OSError("KiCad wrote no report")
    findings = re.findall(r"^\[(\w+)\]:.*\n((?:    .*\n)*)", report.read_text(), re.MULTILINE)
    return dict(Counter(kind + (" at a text" if kind == "clearance" and "PCB Text" in items else "")
                        for kind, items in findings))


CHANGES: Dict[str, Callable[[Any], None]] = {
    function.__name__: function
    for function in (as_it_is, bare, some_locked, without_nets, bent, grouped, number_names, out_of_range)
}
