"""Moves the editor's view to a pad.

KiCad 7 and later do it on demand. KiCad 6 has no call for it, but its canvas follows its scroll
bars, whose range is the whole plane of 2^31 nm by 2^31 nm round the origin.
"""
from __future__ import annotations

from typing import Any, Optional, Tuple

import pcbnew
import wx

from .dialogs import editor

PLANE = 2 ** 31
DIRECTIONS = (wx.HORIZONTAL, wx.VERTICAL)


def find_pad(board: Any, pin: str) -> Optional[Any]:
    """The pad that a report calls component-pin; names may have hyphens of their own."""
    footprints = {footprint.GetReference(): footprint for footprint in board.GetFootprints()}
    at = pin.find("-")
    while at >= 0:
        footprint = footprints.get(pin[:at])
        if footprint is not None:
            for number in (pin[at + 1:], pin[at + 1:].split("@")[0]):
                pad = footprint.FindPadByNumber(number)
                if pad is not None:
                    return pad
        at = pin.find("-", at + 1)
    return None


def show_pin(pin: str) -> bool:
    """Moves the view so that the pad stands in its middle; whether that could be done."""
    pad = find_pad(pcbnew.GetBoard(), pin)
    if pad is None:
        return False
    if hasattr(pcbnew, "FocusOnItem"):
        pcbnew.FocusOnItem(pad)
        return True
    return _scroll_to(pad.GetPosition().x, pad.GetPosition().y)


def _canvas() -> Optional[wx.Window]:
    """The window of the editor whose scroll bars belong to the drawing."""
    frame = editor()
    for child in frame.GetChildren() if frame is not None else ():
        if any(type(inner).__name__ in ("GLCanvas", "Window") and "Canvas" in inner.GetName()
               for inner in child.GetChildren()) and child.GetScrollRange(wx.HORIZONTAL) > 0:
            return child
    return None


def _steps(canvas: wx.Window, direction: int) -> int:
    """Positions of a scroll bar from one end of the plane to the other."""
    return int(canvas.GetScrollRange(direction) - canvas.GetScrollThumb(direction))


def centre() -> Tuple[float, float]:
    """The middle of the view in nanometres."""
    canvas = _canvas()
    if canvas is None:
        return 0.0, 0.0
    x, y = ((canvas.GetScrollPos(direction) / max(_steps(canvas, direction), 1) - 0.5) * PLANE
            for direction in DIRECTIONS)
    return x, y


def _scroll_to(x: int, y: int) -> bool:
    canvas = _canvas()
    if canvas is None:
        return False
    for direction, place in zip(DIRECTIONS, (x, y)):
        position = round((place / PLANE + 0.5) * _steps(canvas, direction))
        canvas.GetEventHandler().ProcessEvent(
            wx.ScrollWinEvent(wx.wxEVT_SCROLLWIN_THUMBTRACK, position, direction))
    return True
