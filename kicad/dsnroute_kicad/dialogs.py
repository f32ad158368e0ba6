"""The plugin's windows: what to ask before, what to show during, and what to tell after a run."""
from __future__ import annotations

import time
from functools import partial
from pathlib import Path
from typing import Callable, List, Optional, Sequence

import wx

from .program import Outcome, ProgramFault, Run
from .settings import Options, Remembered, grids_to_offer, number_of
from .telling import OpenPart

TITLE = "dsnroute"
SPEAKER = "dsnroute: "
GAP = 8


def editor() -> Optional[wx.Window]:
    """The window of the board editor."""
    return wx.FindWindowByName("PcbFrame")


def complain(text: str) -> None:
    """A box with one message, whose text can be copied."""
    dialog = _Message(editor(), text)
    dialog.ShowModal()
    dialog.Destroy()


class _Message(wx.Dialog):
    def __init__(self, parent: Optional[wx.Window], text: str) -> None:
        super().__init__(parent, title=TITLE, style=wx.DEFAULT_DIALOG_STYLE | wx.RESIZE_BORDER)
        box = wx.BoxSizer(wx.VERTICAL)
        self.text = _read_only(self, text, (560, 160))
        box.Add(self.text, 1, wx.EXPAND | wx.ALL, GAP)
        buttons = wx.BoxSizer(wx.HORIZONTAL)
        copy = wx.Button(self, wx.ID_COPY)
        copy.Bind(wx.EVT_BUTTON, lambda _: _to_clipboard(text))
        buttons.Add(copy, 0, wx.RIGHT, GAP)
        close = wx.Button(self, wx.ID_OK)
        close.SetDefault()
        buttons.Add(close)
        box.Add(buttons, 0, wx.ALIGN_RIGHT | wx.LEFT | wx.RIGHT | wx.BOTTOM, GAP)
        self.SetSizerAndFit(box)
        self.CentreOnParent()


def _read_only(parent: wx.Window, text: str, size: Sequence[int]) -> wx.TextCtrl:
    return wx.TextCtrl(parent, value=text, size=wx.Size(*size),
                       style=wx.TE_MULTILINE | wx.TE_READONLY | wx.TE_BESTWRAP)


def _to_clipboard(text: str) -> None:
    if wx.TheClipboard.Open():
        wx.TheClipboard.SetData(wx.TextDataObject(text))
        wx.TheClipboard.Close()


class SetupDialog(wx.Dialog):
    """Shows what to know before, and asks for the options and the program.

    `find` gives the program for a setting's text, or raises a ProgramFault.
    """

    def __init__(self, heading: str, notes: Sequence[str], last: Remembered, program: str,
                 find: Callable[[str], Path]) -> None:
        super().__init__(editor(), title=TITLE, style=wx.DEFAULT_DIALOG_STYLE | wx.RESIZE_BORDER)
        self._find = find
        self._setting = program
        self.options = last.options
        box = wx.BoxSizer(wx.VERTICAL)
        title = wx.StaticText(self, label=heading)
        title.SetFont(title.GetFont().Bold())
        box.Add(title, 0, wx.ALL, GAP)
        if notes:
            text = "\n".join("\u2022 " + note for note in notes)
            box.Add(_read_only(self, text, (560, 40 + 38 * min(len(notes), 5))), 1,
                    wx.EXPAND | wx.LEFT | wx.RIGHT, GAP)
        box.Add(self._fields(last), 0, wx.ALL, GAP)
        self.omit = self._tick("Leave locked tracks out of the session (--omit-fixed)", last.options.omit_fixed, box)
        self.anew = self._tick("Route unlocked tracks anew", last.options.anew, box)
        box.Add(self._program_row(), 0, wx.EXPAND | wx.ALL, GAP)
        self.complaint = wx.StaticText(self, label="")
        self.complaint.SetForegroundColour(wx.Colour(190, 0, 0))
        box.Add(self.complaint, 0, wx.LEFT | wx.RIGHT, GAP)
        box.Add(self._buttons(), 0, wx.ALIGN_RIGHT | wx.ALL, GAP)
        self.SetSizer(box)
        self._look_for_program()
        self.Fit()
        self.CentreOnParent()

    @property
    def program_setting(self) -> str:
        """Where the user says that the program is; empty where it was found without."""
        return self._setting

    def _fields(self, last: Remembered) -> wx.Sizer:
        grid = wx.FlexGridSizer(cols=3, vgap=GAP // 2, hgap=GAP)
        options = last.options
        hint = "empty: the finest of 100, 200, 400 .. that fits"
        if last.open:
            hint = (f"{last.open} open at {last.grid} \u00b5m: try a coarser one first, "
                    "with unlocked tracks anew")
        self.grid = wx.ComboBox(self, value=_shown(options.grid), choices=[str(g) for g in grids_to_offer(last)])
        self._row(grid, "Grid (\u00b5m)", self.grid, hint)
        self.via_cost = wx.TextCtrl(self, value=_shown(options.via_cost))
        self._row(grid, "Via cost (\u00b5m of track)", self.via_cost, "empty: 2000")
        self.passes = wx.TextCtrl(self, value=_shown(options.passes))
        self._row(grid, "Passes", self.passes, "empty: 10")
        self.workers = wx.TextCtrl(self, value=_shown(options.workers))
        self._row(grid, "Workers", self.workers, "empty: 4; with 1 the same design gives the same tracks")
        return grid

    def _row(self, grid: wx.Sizer, label: str, field: wx.Window, hint: str) -> None:
        field.SetMinSize(wx.Size(120, -1))
        grid.Add(wx.StaticText(self, label=label), 0, wx.ALIGN_CENTRE_VERTICAL)
        grid.Add(field)
        grid.Add(wx.StaticText(self, label=hint), 0, wx.ALIGN_CENTRE_VERTICAL)

    def _tick(self, label: str, value: bool, box: wx.Sizer) -> wx.CheckBox:
        tick = wx.CheckBox(self, label=label)
        tick.SetValue(value)
        box.Add(tick, 0, wx.LEFT | wx.RIGHT | wx.TOP, GAP)
        return tick

    def _program_row(self) -> wx.Sizer:
        row = wx.BoxSizer(wx.HORIZONTAL)
        row.Add(wx.StaticText(self, label="Program"), 0, wx.ALIGN_CENTRE_VERTICAL | wx.RIGHT, GAP)
        self.program = wx.TextCtrl(self, style=wx.TE_READONLY)
        row.Add(self.program, 1, wx.RIGHT, GAP)
        choose = wx.Button(self, label="Choose \u2026")
        choose.Bind(wx.EVT_BUTTON, self._choose)
        row.Add(choose)
        return row

    def _buttons(self) -> wx.Sizer:
        row = wx.BoxSizer(wx.HORIZONTAL)
        row.Add(wx.Button(self, wx.ID_CANCEL), 0, wx.RIGHT, GAP)
        self.route = wx.Button(self, wx.ID_OK, "Route")
        self.route.SetDefault()
        self.route.Bind(wx.EVT_BUTTON, self._accept)
        row.Add(self.route)
        return row

    def _look_for_program(self) -> None:
        try:
            self.program.SetValue(str(self._find(self._setting)))
            self._complain("")
            self.route.Enable(True)
        except ProgramFault as fault:
            self.program.SetValue(self._setting)
            self._complain(str(fault))
            self.route.Enable(False)

    def _complain(self, text: str) -> None:
        self.complaint.SetLabel(text)
        self.complaint.Wrap(560)
        self.Layout()
        self.Fit()

    def _choose(self, _: wx.Event) -> None:
        dialog = wx.FileDialog(self, "Where is the program dsnroute?", style=wx.FD_OPEN | wx.FD_FILE_MUST_EXIST)
        if dialog.ShowModal() == wx.ID_OK:
            self.set_program(dialog.GetPath())
        dialog.Destroy()

    def set_program(self, path: str) -> None:
        """Takes this as the place of the program."""
        self._setting = path
        self._look_for_program()

    def _accept(self, _: wx.Event) -> None:
        try:
            self.options = Options(
                number_of("grid", self.grid.GetValue()), number_of("via_cost", self.via_cost.GetValue()),
                number_of("passes", self.passes.GetValue()), number_of("workers", self.workers.GetValue()),
                self.omit.GetValue(), self.anew.GetValue())
        except ValueError as fault:
            self._complain(str(fault))
            return
        self.EndModal(wx.ID_OK)


def _shown(value: Optional[int]) -> str:
    return "" if value is None else str(value)


class RunDialog(wx.Dialog):
    """Shows that the program runs, for how long, and its last line; Cancel ends it at once."""

    def __init__(self, words: List[str], folder: Path) -> None:
        super().__init__(editor(), title=TITLE)
        self.outcome: Optional[Outcome] = None
        self._is_cancelled = False
        self._since = time.monotonic()
        self.seconds = wx.StaticText(self, label="Routing")
        self.line = wx.StaticText(self, label="", size=wx.Size(420, -1), style=wx.ST_ELLIPSIZE_END)
        self.gauge = wx.Gauge(self, size=wx.Size(420, -1))
        self.cancel = wx.Button(self, wx.ID_CANCEL)
        box = wx.BoxSizer(wx.VERTICAL)
        for part in (self.seconds, self.gauge, self.line):
            box.Add(part, 0, wx.EXPAND | wx.ALL, GAP)
        box.Add(self.cancel, 0, wx.ALIGN_RIGHT | wx.ALL, GAP)
        self.SetSizerAndFit(box)
        self.CentreOnParent()
        self.cancel.Bind(wx.EVT_BUTTON, self._cancel)
        self.Bind(wx.EVT_CLOSE, self._cancel)
        self._timer = wx.Timer(self)
        self.Bind(wx.EVT_TIMER, self._tick, self._timer)
        self.run = Run(words, folder, partial(wx.CallAfter, self._said), partial(wx.CallAfter, self._ended))
        self._timer.Start(100)

    def _tick(self, _: wx.Event) -> None:
        self.gauge.Pulse()
        self.seconds.SetLabel(f"Routing, {self.elapsed:.0f} s")

    @property
    def elapsed(self) -> float:
        """Seconds since the start."""
        return time.monotonic() - self._since

    def _said(self, line: str) -> None:
        if self:
            self.line.SetLabel(line[len(SPEAKER):] if line.startswith(SPEAKER) else line)

    def _cancel(self, _: wx.Event) -> None:
        self.cancel.Enable(False)
        self._is_cancelled = True
        self.run.cancel()

    def _ended(self, outcome: Outcome) -> None:
        self.outcome = Outcome(None, outcome.report, outcome.lines) if self._is_cancelled else outcome
        self._timer.Stop()
        if self.IsModal():
            self.EndModal(wx.ID_OK)

    def route(self) -> Outcome:
        """Shows itself until the program has ended."""
        while self.outcome is None:
            self.ShowModal()
        return self.outcome


def close_result() -> None:
    """Closes what an earlier run told."""
    for window in wx.GetTopLevelWindows():
        if isinstance(window, ResultDialog):
            window.Destroy()


class ResultDialog(wx.Dialog):
    """Tells how it ended, beside the editor; a click on an open part calls `show` with it and tells its `reason`."""

    def __init__(self, headline: str, details: Sequence[str], parts: Sequence[OpenPart],
                 reason: Callable[[OpenPart], str], show: Callable[[OpenPart], object]) -> None:
        super().__init__(editor(), title=TITLE, style=wx.DEFAULT_DIALOG_STYLE | wx.RESIZE_BORDER)
        self.parts = list(parts)
        self._reason = reason
        self._show = show
        box = wx.BoxSizer(wx.VERTICAL)
        title = wx.StaticText(self, label=headline)
        title.SetFont(title.GetFont().Bold())
        box.Add(title, 0, wx.ALL, GAP)
        for detail in details:
            label = wx.StaticText(self, label=detail)
            label.Wrap(560)
            box.Add(label, 0, wx.LEFT | wx.RIGHT | wx.BOTTOM, GAP)
        self.list: Optional[wx.ListBox] = None
        if self.parts:
            self._add_parts(box)
        close = wx.Button(self, wx.ID_CLOSE)
        close.SetDefault()
        close.Bind(wx.EVT_BUTTON, lambda _: self.Destroy())
        self.Bind(wx.EVT_CLOSE, lambda _: self.Destroy())
        box.Add(close, 0, wx.ALIGN_RIGHT | wx.ALL, GAP)
        self.SetSizerAndFit(box)
        self._stand_aside()
        if self.list is not None:
            self.list.SetSelection(0)
            self._select(None)

    def _stand_aside(self) -> None:
        """Into the editor's lower right corner, so that the middle of the view is free."""
        parent = self.GetParent()
        if parent is not None:
            corner = parent.GetScreenRect().GetBottomRight()
            size = self.GetSize()
            self.Move(wx.Point(corner.x - size.x - GAP, corner.y - size.y - GAP))

    def _add_parts(self, box: wx.Sizer) -> None:
        self.list = wx.ListBox(self, size=wx.Size(560, 120),
                               choices=[f"{part.net}: the part with {part.pin}" for part in self.parts])
        self.list.Bind(wx.EVT_LISTBOX, self._select)
        box.Add(self.list, 1, wx.EXPAND | wx.LEFT | wx.RIGHT, GAP)
        self.text = _read_only(self, "", (560, 90))
        box.Add(self.text, 0, wx.EXPAND | wx.ALL, GAP)

    def _select(self, _: Optional[wx.Event]) -> None:
        assert self.list is not None
        at = self.list.GetSelection()
        if 0 <= at < len(self.parts):
            part = self.parts[at]
            self._show(part)
            self.text.SetValue(f"{part.pin}: {self._reason(part)}.")
