"""Plays a designer inside KiCad's board editor: one scenario, told by the environment, and then the end.

KiCad loads this module at its start from its folder of plugins. Without the variable
DSNROUTE_TRIAL it does nothing. The scenario's steps are a generator: it yields what it waits
for, and writes what it sees as lines of JSON.
"""
from __future__ import annotations

import importlib
import json
import os
import subprocess
import sys
import time
import traceback
from pathlib import Path
from typing import Any, Callable, Dict, Iterator, List, Optional

import pcbnew
import wx

Steps = Iterator[Callable[[], object]]
TICK = 100
PATIENCE = 300.0
LONG = 500.0


class Player:
    """Goes on with the steps whenever what they wait for has come."""

    def __init__(self, task: Dict[str, Any]) -> None:
        self.task = task
        self.log = open(task["log"], "a", buffering=1, encoding="utf-8")
        self.steps: Optional[Steps] = None
        self.wait: Callable[[], object] = lambda: True
        self.since = time.monotonic()
        self.patience = PATIENCE
        self.is_in_step = False

    def say(self, what: str, value: Any) -> None:
        """Writes a line of what was seen."""
        self.log.write(json.dumps([what, value]) + "\n")

    def start(self) -> None:
        """Begins."""
        self.steps = SCENARIOS[self.task["scenario"]](self)
        self.tick()

    def tick(self) -> None:
        """One look, in whatever loop of events the editor is."""
        wx.CallLater(TICK, self.tick)
        if self.is_in_step:
            return
        self.is_in_step = True
        try:
            if self.wait():
                self.wait = next(self.steps)  # type: ignore[arg-type]
                self.since = time.monotonic()
            elif time.monotonic() - self.since > self.patience:
                raise TimeoutError("nothing came")
        except StopIteration:
            self.say("end", True)
            os._exit(0)
        except Exception:
            self.say("exception", traceback.format_exc())
            self.shot("exception")
            os._exit(9)
        finally:
            self.is_in_step = False

    def shot(self, name: str) -> None:
        """Takes a picture of the screen."""
        folder = self.task.get("shots")
        if folder:
            path = str(Path(folder) / f"{self.task['name']}-{name}.png")
            subprocess.run(["import", "-window", "root", path], check=False, timeout=30)


# What the steps use.

def frame() -> Any:
    return wx.FindWindowByName("PcbFrame")


def entries(menu: Any) -> Iterator[Any]:
    for item in menu.GetMenuItems():
        yield item
        if item.GetSubMenu():
            yield from entries(item.GetSubMenu())


def choose(label: str) -> None:
    """Posts the menu's entry of this label."""
    for menu, _ in frame().GetMenuBar().GetMenus():
        for item in entries(menu):
            if item.GetItemLabelText() == label:
                wx.PostEvent(frame(), wx.CommandEvent(wx.wxEVT_MENU, item.GetId()))
                return
    raise LookupError(label)


def key(name: str) -> None:
    """Presses a key with the pointer over the canvas, as the editor's own actions want it."""
    subprocess.run(["xdotool", "mousemove", "200", "560", "key", name], check=True, timeout=30)


def window(kind: str) -> Any:
    """The window of a class of the plugin's, or None."""
    for top in wx.GetTopLevelWindows():
        if type(top).__name__ == kind and top.IsShown():
            return top
    return None


def comes(kind: str) -> Callable[[], object]:
    return lambda: window(kind) is not None


def clicked() -> Callable[[], object]:
    """The button's dialog stands. A click that was lost, as where KiCad makes its menus anew, is made again."""
    next_click = [0.0]

    def stands() -> bool:
        if window("SetupDialog") is None and time.monotonic() >= next_click[0]:
            next_click[0] = time.monotonic() + 30
            choose("Route with dsnroute")
        return window("SetupDialog") is not None

    return stands


def goes(kind: str) -> Callable[[], object]:
    return lambda: window(kind) is None


def lasts(seconds: float) -> Callable[[], object]:
    end = time.monotonic() + seconds
    return lambda: time.monotonic() >= end


def becomes_other(before: Dict[str, Any]) -> Callable[[], object]:
    """The board has changed, or half a minute has gone."""
    end = time.monotonic() + 30
    return lambda: time.monotonic() >= end or state(pcbnew.GetBoard())["hash"] != before["hash"]


def press(dialog: Any, button: int) -> None:
    wx.PostEvent(dialog.FindWindowById(button), wx.CommandEvent(wx.wxEVT_BUTTON, button))


def plugin(name: str = "") -> Any:
    """A module of the plugin, under whatever name KiCad has loaded it."""
    for package, module in list(sys.modules.items()):
        if module is not None and getattr(module, "RoutePlugin", None) is not None and "." not in package:
            return importlib.import_module(package + ("." + name if name else ""))
    raise LookupError("the plugin isn't loaded")


def state(board: Any) -> Dict[str, Any]:
    """What has to be the same again: counts, and every track, via and filling."""
    items = sorted((type(t).__name__, t.GetNetname(), t.GetLayer(), t.GetStart().x, t.GetStart().y, t.GetEnd().x,
                    t.GetEnd().y, t.GetWidth(), t.GetParentGroup() is not None, t.IsLocked())
                   for t in board.GetTracks())
    fills = []
    for zone in board.Zones():
        for layer in zone.GetLayerSet().Seq():
            if zone.HasFilledPolysForLayer(layer):
                fills.append((zone.GetNetname(), layer, round(zone.GetFilledPolysList(layer).Area())))
    vias = sum(item[0] == "PCB_VIA" for item in items)
    board.BuildConnectivity()
    return {"tracks": len(items) - vias, "vias": vias, "locked": sum(item[-1] for item in items),
            "open": board.GetConnectivity().GetUnconnectedCount(),
            "hash": json.dumps([items, sorted(fills)])}


def save(player: Player, name: str) -> None:
    """Puts the board as it stands beside its file, for KiCad's check from outside."""
    path = Path(player.task["board"])
    pcbnew.SaveBoard(str(path.with_name(f"{name}.kicad_pcb")), pcbnew.GetBoard(), True)


def board_is_there(player: Player) -> Callable[[], object]:
    """The board is loaded: the editor takes its name into the title only then, and takes clicks."""
    name = Path(player.task["board"]).stem
    return lambda: frame() and frame().IsShown() and frame().IsEnabled() and name in frame().GetTitle() \
        and len(pcbnew.GetBoard().GetFootprints()) > 0


def set_up(player: Player, dialog: Any) -> None:
    for field, value in player.task.get("options", {}).items():
        getattr(dialog, field).SetValue(value)


def notes_of(dialog: Any) -> List[str]:
    texts = [child for child in dialog.GetChildren() if isinstance(child, wx.TextCtrl) and child.IsMultiLine()]
    return texts[0].GetValue().splitlines() if texts else []


# The scenarios.

def opening(player: Player) -> Steps:
    """Until the dialog stands."""
    yield board_is_there(player)
    yield lasts(3.0)
    save(player, "before")
    yield clicked()
    yield lasts(0.5)
    dialog = window("SetupDialog")
    player.say("before", state(pcbnew.GetBoard()))
    set_up(player, dialog)
    player.say("notes", notes_of(dialog))
    player.say("grids", dialog.grid.GetStrings())
    player.say("program", [dialog.program.GetValue(), dialog.complaint.GetLabel(), dialog.route.IsEnabled()])
    yield lasts(0.3)
    player.shot("dialog")


def routing(player: Player) -> Steps:
    """From the dialog to the result, or to a complaint."""
    yield from opening(player)
    press(window("SetupDialog"), wx.ID_OK)
    yield goes("SetupDialog")
    running = {"shot": False, "lines": []}

    def ended() -> bool:
        dialog = window("RunDialog")
        if dialog is not None:
            line = dialog.line.GetLabel()
            if line and line not in running["lines"]:
                running["lines"].append(line)
            if not running["shot"] and dialog.elapsed > 0.7:
                running["shot"] = True
                player.shot("running")
        return window("ResultDialog") is not None or window("_Message") is not None

    player.patience = LONG
    yield ended
    player.patience = PATIENCE
    player.say("lines", running["lines"])
    yield lasts(1.0)


def result_of(player: Player) -> None:
    dialog = window("ResultDialog")
    labels = [child.GetLabel() for child in dialog.GetChildren() if isinstance(child, wx.StaticText)]
    player.say("result", labels)
    player.say("parts", [[part.net, part.pin, dialog._reason(part)] for part in dialog.parts])
    player.say("after", state(pcbnew.GetBoard()))
    save(player, "after")


def route_undo_redo(player: Player) -> Steps:
    """Routes, looks, takes it back, does it again, takes it back."""
    yield from routing(player)
    complaint = window("_Message")
    if complaint is not None:
        player.say("complaint", complaint.text.GetValue())
        raise AssertionError("a complaint in place of a result")
    result_of(player)
    player.shot("result")
    dialog = window("ResultDialog")
    if dialog.list is not None:
        player.say("centre", view_centre())
        last = len(dialog.parts) - 1
        dialog.list.SetSelection(last)
        dialog._select(None)
        yield lasts(0.7)
        player.say("centre of last", view_centre())
        player.shot("part")
    dialog.Close()
    yield goes("ResultDialog")
    player.shot("board")
    for name in ("undone", "redone", "undone again"):
        before = state(pcbnew.GetBoard())
        key("ctrl+y" if name == "redone" else "ctrl+z")
        yield becomes_other(before)
        yield lasts(1.0)
        player.say(name, state(pcbnew.GetBoard()))
    player.shot("undone")
    yield from click_again(player)
    yield from closing(player)


def click_again(player: Player) -> Steps:
    """What the dialog offers at the next click."""
    yield clicked()
    yield lasts(0.5)
    dialog = window("SetupDialog")
    player.say("next grids", dialog.grid.GetStrings())
    player.say("next values", [field.GetValue() for field in (dialog.grid, dialog.via_cost, dialog.passes,
                                                             dialog.workers, dialog.omit, dialog.anew)])
    player.shot("again")
    press(dialog, wx.ID_CANCEL)
    yield goes("SetupDialog")


def closing(player: Player) -> Steps:
    """Saves, and closes the editor; its status is seen from outside."""
    key("ctrl+s")
    yield lambda: not frame().GetTitle().startswith("*")
    yield lasts(1.0)
    player.say("title", frame().GetTitle())
    wx.CallAfter(frame().Close)
    yield lasts(5.0)
    player.shot("closing")
    yield lambda: False


def view_centre() -> List[float]:
    """The middle of the view in mm, from the positions of the canvas's scroll bars."""
    view = plugin("view")
    return [round(value / 1e6, 1) for value in view.centre()] if hasattr(view, "centre") else []


def cancel(player: Player) -> Steps:
    """Cancels in the middle: the program has to be gone, and the board to be as it was."""
    yield from opening(player)
    press(window("SetupDialog"), wx.ID_OK)
    yield comes("RunDialog")
    yield lasts(player.task.get("seconds", 2.0))
    dialog = window("RunDialog")
    pid = dialog.run.pid
    player.say("runs", [os.path.exists(f"/proc/{pid}"), dialog.seconds.GetLabel(), dialog.line.GetLabel()])
    player.shot("running")
    since = time.monotonic()
    press(dialog, wx.ID_CANCEL)
    yield lambda: not os.path.exists(f"/proc/{pid}")
    player.say("gone after", time.monotonic() - since)
    yield goes("RunDialog")
    player.say("closed after", time.monotonic() - since)
    yield lasts(1.0)
    player.say("boxes", [kind for kind in ("SetupDialog", "RunDialog", "ResultDialog", "_Message") if window(kind)])
    player.say("after", state(pcbnew.GetBoard()))
    yield from closing(player)


def complained(player: Player) -> Steps:
    """A run that ends in a complaint: its words, and the board as it was."""
    yield from routing(player)
    complaint = window("_Message")
    player.say("complaint", complaint.text.GetValue() if complaint else "")
    player.shot("complaint")
    if complaint:
        press(complaint, wx.ID_OK)
        yield goes("_Message")
    yield lasts(1.0)
    player.say("after", state(pcbnew.GetBoard()))
    yield from closing(player)


def broken_laying(player: Player) -> Steps:
    """The plugin fails when all tracks are away and half of the new ones are laid."""
    yield board_is_there(player)
    laying = plugin("laying")
    made, calls = laying._made_track, []

    def fails(board: Any, new: Any) -> Any:
        calls.append(new)
        return made(board, new)

    def fill_fails(board: Any) -> bool:
        player.say("half", len(board.GetTracks()))
        raise RuntimeError("a fault made for this trial")

    laying._made_track, laying.fill_zones = fails, fill_fails
    yield from complained(player)


def missing_program(player: Player) -> Steps:
    """The dialog without a program: it says so, and doesn't route until it is told of one."""
    yield from opening(player)
    dialog = window("SetupDialog")
    dialog.set_program("/bin/none")
    player.say("wrong program", [dialog.complaint.GetLabel(), dialog.route.IsEnabled()])
    dialog.set_program("/bin/true")
    player.say("right program", [dialog.complaint.GetLabel(), dialog.route.IsEnabled()])
    press(window("SetupDialog"), wx.ID_CANCEL)
    yield goes("SetupDialog")
    yield lasts(1.0)
    player.say("after", state(pcbnew.GetBoard()))
    yield from closing(player)


def killed(player: Player) -> Steps:
    """The editor is killed in the middle; from outside one sees whether the program lives on."""
    yield from opening(player)
    press(window("SetupDialog"), wx.ID_OK)
    yield comes("RunDialog")
    yield lasts(1.0)
    player.say("pid", window("RunDialog").run.pid)
    os.kill(os.getpid(), 9)


def install(player: Player) -> Steps:
    """Only whether the plugin is there."""
    yield board_is_there(player)
    player.say("plugin", [plugin().__name__, plugin().__file__])


SCENARIOS: Dict[str, Callable[[Player], Steps]] = {
    function.__name__: function
    for function in (route_undo_redo, cancel, complained, broken_laying, missing_program, killed, install)
}

if os.environ.get("DSNROUTE_TRIAL"):
    wx.CallLater(1000, Player(json.loads(Path(os.environ["DSNROUTE_TRIAL"]).read_text())).start)
