"""The button's work, from the click to the last word."""
from __future__ import annotations

import shutil
import tempfile
import time
import traceback
from pathlib import Path
from typing import Any, Callable, List, Optional

import pcbnew
import wx

from . import dialogs, telling
from .board import BoardFault, copy_path, count_routed, export_design, pad_places, save_copy
from .brackets import TextFault
from .design import Design
from .laying import Change, LayFault, apply_change, plan_change
from .notes import before_routing
from .program import Outcome, ProgramFault, find_program
from .report import Report, ReportFault, read_report
from .session import read_session
from .settings import Options, Remembered, Store
from .surroundings import Surroundings
from .telling import OpenPart, count
from .view import show_pin

PLAIN_FAULTS = (BoardFault, LayFault, ProgramFault)
AS_BEFORE = "The board is as it was."
AFTERWARDS = "The board is as it was, or one undo (Ctrl+Z) brings it back."


def store() -> Store:
    """What is remembered, in KiCad's folder of the user's configuration."""
    return Store(Path(pcbnew.SETTINGS_MANAGER.GetUserSettingsPath()) / "dsnroute.json")


def route() -> None:
    """Routes the board in the editor; whatever fails is told, and leaves the board as it was."""
    folder = Path(tempfile.mkdtemp(prefix="dsnroute-"))
    try:
        work = _Work(pcbnew.GetBoard(), folder)
        if work.prepare() and work.run():
            work.lay()
            work.tell()
    except PLAIN_FAULTS as fault:
        dialogs.complain(f"{fault}\n\n{AS_BEFORE}")
    except Exception:  # a fault of this plugin's own: told whole, so that it can be mended
        dialogs.complain(f"The plugin failed. {AFTERWARDS}\n\n{traceback.format_exc()}")
    finally:
        shutil.rmtree(folder, ignore_errors=True)


class _Work:
    """One click's work: each step says whether to go on, or raises; the board is changed in the last but one."""

    def __init__(self, board: Any, folder: Path) -> None:
        self.board = board
        self.name = str(board.GetFileName())
        self.folder = folder
        self.design_path = folder / "board.dsn"
        self.session_path = folder / "board.ses"
        self.kept = store()
        self.started = time.monotonic()

    def prepare(self) -> bool:
        """Exports the design, shows the notes, asks for the options, saves the copy; False where the user cancels."""
        dialogs.close_result()
        if copy_path(self.board) is None:
            raise BoardFault("This board has no file yet. Save it first, so that a copy can be put beside it.")
        with wx.BusyCursor():
            self.export = export_design(self.board, self.design_path)
            self.before = count_routed(self.board)
            notes = before_routing(self.board, self.export)
        options = self._ask(notes)
        if options is None:
            return False
        self.options = options
        self.copy = save_copy(self.board)
        if options.anew:
            self.design_path.write_bytes(self.export.design.without_free_wiring())
        return True

    def _ask(self, notes: List[str]) -> Optional[Options]:
        """The options, remembered for the board; None where the user cancels."""
        before = self.before
        heading = (f"{Path(self.name).name}: {count(self.export.design.nets, 'net')}, {count(before.tracks, 'track')} "
                   f"and {count(before.vias, 'via')} ({before.locked:,} locked), {before.open:,} unconnected")
        last = self.kept.of_board(self.name)
        dialog = dialogs.SetupDialog(heading, notes, last, self.kept.program, _find)
        accepted = dialog.ShowModal() == wx.ID_OK
        options, program = dialog.options, dialog.program_setting
        dialog.Destroy()
        if not accepted:
            return None
        if program != self.kept.program:
            self.kept.program = program
        self.kept.remember(self.name, Remembered(options, last.open, last.grid))
        return options

    def run(self) -> bool:
        """Runs the program; False where the user cancels."""
        words = [str(_find(self.kept.program)), "route", self.design_path.name, self.session_path.name,
                 *self.options.words()]
        self.started = time.monotonic()
        dialog = dialogs.RunDialog(words, self.folder)
        try:
            outcome = dialog.route()
        finally:
            dialog.Destroy()
        if outcome.status is None:
            return False
        if not outcome.is_routed:
            raise BoardFault(telling.failure(outcome, self.design_path.read_bytes()))
        self.report = _read_report(outcome)
        return True

    def lay(self) -> None:
        """Lays the session, once all of it was understood, and fills the zones."""
        with wx.BusyCursor():
            self.change = self._read_change()
            self.is_filled = apply_change(self.board, self.change)
            self.after = count_routed(self.board)

    def _read_change(self) -> Change:
        try:
            text = self.session_path.read_bytes()
        except OSError as fault:
            raise LayFault(f"The session can't be read: {fault.strerror}.") from None
        try:
            self.session = read_session(text)
        except TextFault as fault:
            raise LayFault(f"The session can't be read: {fault.at_line(text)}.") from None
        return plan_change(self.board, self.session, self.export.held)

    def tell(self) -> None:
        """Says how it ended, once the editor has drawn the board again."""
        report, details = self.report, self._details()
        if report is None:
            wx.CallAfter(_show_result, "The board is routed; the program's report can't be read.", details, [], str)
            return
        self.kept.remember(self.name, Remembered(self.options, report.open, report.grid // 1000))
        design = Design(self.design_path.read_bytes())
        items = design.items(set(report.dropped))
        near = Surroundings(self.session, design, pad_places(self.board), report).nets_near
        details += telling.dropped(report) + telling.counted_more(report, self.after.open)
        wx.CallAfter(_show_result, telling.headline(report), details,
                     telling.open_parts(report), lambda part: telling.reason(part, items, near))

    def _details(self) -> List[str]:
        change, before, after = self.change, self.before, self.after
        details = [
            f"{count(len(change.tracks), 'track')} and {count(len(change.vias), 'via')} laid, {len(change.leaving):,} "
            f"taken away, {change.staying:,} kept, in {time.monotonic() - self.started:.1f} s. "
            f"Unconnected items: {before.open:,} before, {after.open:,} now.",
            f"One undo (Ctrl+Z) brings the board back as it was; a copy of it is {self.copy.name}.",
        ]
        return details + ([] if self.is_filled else ["The zones couldn't be filled: press B to fill them."])


def _find(setting: str) -> Path:
    return find_program(setting, Path(__file__).parent)


def _read_report(outcome: Outcome) -> Optional[Report]:
    """The report; None where it can't be read, which does the board no harm."""
    try:
        return read_report(outcome.report)
    except ReportFault:
        return None


def _show_result(headline: str, details: List[str], parts: List[OpenPart], reason: Callable[[OpenPart], str]) -> None:
    dialogs.close_result()
    dialogs.ResultDialog(headline, details, parts, reason, lambda part: show_pin(part.pin)).Show()
