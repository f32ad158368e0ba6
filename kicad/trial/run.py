#!/usr/bin/env python3
"""Runs the plugin unattended in a real KiCad 6 under Xvfb, and checks what comes of it.

    python3 kicad/trial/run.py PROGRAM [--shots FOLDER] [--only NAME ..]

The Python has to be one that imports pcbnew (Debian: /usr/bin/python3, packages kicad, kicad-demos,
xvfb, xauth, xdotool, imagemagick). Each trial has a fresh home, configuration and board; pictures of the
screen go to the folder. It ends with the number of trials that failed.
"""
from __future__ import annotations

import argparse
import json
import os
import shutil
import signal
import stat
import subprocess
import sys
import tempfile
import time
from pathlib import Path
from typing import Any, Callable, Dict, List, NamedTuple, Optional

import boards

HERE = Path(__file__).resolve().parent
PLUGIN = HERE.parent / "dsnroute_kicad"
ONE = {"workers": "1"}
SILENT = {"do_not_show_again": {"env_var_overwrite_warning": True, "scaled_3d_models_warning": True,
                                "zone_fill_warning": True}}
LIMIT = 1200

Seen = Dict[str, Any]


class Trial(NamedTuple):
    """A board, what is done with it, and what has to be seen."""

    name: str
    source: str
    change: str
    scenario: str
    check: Callable[[Seen], None]
    options: Dict[str, Any] = ONE
    program: str = ""


def same(seen: Seen, *names: str) -> None:
    """The board was the same at each of these looks."""
    for name in names[1:]:
        for part in seen[names[0]]:
            assert seen[names[0]][part] == seen[name][part], f"{part} {name} isn't as {names[0]}"


def counts(seen: Seen, name: str) -> List[int]:
    """Tracks, vias, locked ones and unconnected items at a look."""
    return [seen[name][part] for part in ("tracks", "vias", "locked", "open")]


def ended_well(seen: Seen) -> None:
    """The editor closed by itself, with status 0 and without an exception."""
    assert "exception" not in seen, seen["exception"]
    assert seen["status"] == 0, f"the editor ended with status {seen['status']}"


def new_findings(seen: Seen) -> Dict[str, int]:
    """What KiCad's check finds after the run and didn't find before, unconnected items aside."""
    before, after = seen["drc before"], seen["drc after"]
    return {kind: number - before.get(kind, 0) for kind, number in after.items()
            if number > before.get(kind, 0) and kind != "unconnected_items"}


def there_and_back(seen: Seen) -> None:
    """One undo brings the board back, one redo the tracks, the zones' fillings with them."""
    ended_well(seen)
    same(seen, "before", "undone", "undone again")
    same(seen, "after", "redone")
    assert seen["before"]["hash"] != seen["after"]["hash"], "nothing was routed"
    assert seen["copied"] == sum(counts(seen, "before")[:2]), "the copy beside isn't the board before"


def complete(*laid: int, findings: Optional[Dict[str, int]] = None) -> Callable[[Seen], None]:
    """So many tracks and vias are there, nothing is open, and KiCad finds these things and no others anew."""
    def check(seen: Seen) -> None:
        there_and_back(seen)
        assert counts(seen, "after") == [*laid, 0, 0], f"{counts(seen, 'after')} are there"
        assert new_findings(seen) == (findings or {}), new_findings(seen)
        assert "complete" in seen["result"][0] and not seen["parts"], seen["result"]
    return check


def stays_open(seen: Seen) -> None:
    """What stayed open is told by name, KiCad counts the same, and the view went there."""
    there_and_back(seen)
    assert "stayed open" in seen["result"][0], seen["result"]
    told = int(seen["result"][0].split()[0])
    assert counts(seen, "after")[3] == told, f"KiCad counts {counts(seen, 'after')}, the plugin {told}"
    assert not new_findings(seen), new_findings(seen)
    assert seen["parts"] and all(part[2] for part in seen["parts"])
    assert seen["centre"] != seen["centre of last"], "the view didn't move"
    assert seen["next grids"][:2] == ["800", "1600"], f"coarser grids aren't offered first: {seen['next grids']}"
    assert seen["next values"] == ["400", "", "3", "1", True, False], seen["next values"]


def cancelled(seen: Seen) -> None:
    """The program ran, was gone at once, and nothing was changed or told."""
    ended_well(seen)
    assert seen["runs"][0] is True
    assert seen["gone after"] < 5 and seen["closed after"] < 6, (seen["gone after"], seen["closed after"])
    assert seen["boxes"] == []
    same(seen, "before", "after")


def complains(*words: str) -> Callable[[Seen], None]:
    """A complaint with these words, and the board as it was."""
    def check(seen: Seen) -> None:
        ended_well(seen)
        for word in words:
            assert word in seen["complaint"], f"{word!r} isn't in {seen['complaint']!r}"
        same(seen, "before", "after")
    return check


def without_program(seen: Seen) -> None:
    """The dialog says that the program is missing, and doesn't route."""
    ended_well(seen)
    assert "Say where it is" in " ".join(seen["program"][1].split()) and seen["program"][2] is False, seen["program"]
    assert "no program /bin/none" in seen["wrong program"][0] and seen["wrong program"][1] is False
    assert seen["right program"] == ["", True]
    same(seen, "before", "after")


def program_died(seen: Seen) -> None:
    """The program didn't outlive the editor."""
    assert seen["status"] == -signal.SIGKILL, seen["status"]
    assert seen["orphan"] is False, "the program lives on"


def locked_stay(seen: Seen) -> None:
    """Locked tracks stay and aren't doubled; nothing is left open."""
    there_and_back(seen)
    assert seen["before"]["locked"] == seen["after"]["locked"] > 0
    assert seen["after"]["open"] == seen["before"]["open"] == 0
    assert not new_findings(seen), new_findings(seen)
    assert any("Joined with locked ones" in note for note in seen["notes"]), seen["notes"]


def bent_comes_straight(seen: Seen) -> None:
    """The locked bent track stays, the unlocked one comes back straight or elsewhere, and undo brings it back."""
    there_and_back(seen)
    assert any("Bent: 2 tracks" in note for note in seen["notes"]), seen["notes"]
    arcs = [seen[name]["hash"].count('"PCB_ARC"') for name in ("before", "after", "undone")]
    assert arcs == [2, 1, 2] and seen["after"]["locked"] == 1, arcs
    assert seen["after"]["open"] == 0


def stubs_are_told(seen: Seen) -> None:
    """Locked tracks stay; what dropped wiring leaves of a run is told where KiCad counts it as unconnected."""
    there_and_back(seen)
    assert seen["before"]["locked"] == seen["after"]["locked"] > 0
    assert counts(seen, "after")[3] == 1 and any("KiCad counts 1 unconnected item more" in " ".join(line.split())
                                                 for line in seen["result"]), seen["result"]
    assert set(new_findings(seen)) == {"track_dangling"}, new_findings(seen)


def warned(word: str) -> Callable[[Seen], None]:
    """One of the notes has the word; the run went well."""
    def check(seen: Seen) -> None:
        there_and_back(seen)
        assert any(word in note for note in seen["notes"]), seen["notes"]
    return check


def shows_lines(seen: Seen) -> None:
    """Lines that the program says while it runs were shown, as many of them as the look from aside caught."""
    complete(41, 0)(seen)
    assert [line for line in seen["lines"] if line.startswith("pass 1, 7 offers answered, ")], seen["lines"]


SPOILT = """#!/bin/sh
wire='(wire (path top_cu 8000 0 0 1 1))'
echo "(session b (routes (resolution um 10) (library_out) (network_out (net nowhere $wire))))" >board.ses
echo report
"""
SPEAKS = """#!/bin/sh
echo "mode $DSNROUTE_PROGRESS" >&2
for second in 1 2 3; do echo "dsnroute: pass 1, 7 offers answered, $second s" >&2; sleep 1; done
exec "{program}" "$@"
"""
SLEEPS = """#!/bin/sh
exec sleep 300
"""

TRIALS = [
    Trial("ecc83-pp", "ecc83-pp", "bare", "route_undo_redo", complete(41, 0)),
    Trial("flat_hierarchy", "flat_hierarchy", "bare", "route_undo_redo",
          complete(296, 12, findings={"clearance at a text": 2})),
    Trial("open", "complex_hierarchy", "bare", "route_undo_redo", stays_open,
          {**ONE, "grid": "400", "passes": "3"}),
    Trial("kept", "ecc83-pp", "as_it_is", "route_undo_redo", there_and_back),
    Trial("locked", "ecc83-pp", "some_locked", "route_undo_redo", locked_stay),
    Trial("locked-with-fixed", "ecc83-pp", "some_locked", "route_undo_redo", locked_stay, {**ONE, "omit": False}),
    Trial("sonde", "sonde", "some_locked", "route_undo_redo", stubs_are_told, {**ONE, "grid": "200"}),
    Trial("anew", "ecc83-pp", "as_it_is", "route_undo_redo", there_and_back, {**ONE, "anew": True}),
    Trial("bent", "ecc83-pp", "bent", "route_undo_redo", bent_comes_straight),
    Trial("grouped", "ecc83-pp", "grouped", "route_undo_redo", there_and_back, {**ONE, "anew": True}),
    Trial("numbers", "ecc83-pp", "number_names", "route_undo_redo", complete(41, 0)),
    Trial("without-nets", "ecc83-pp", "without_nets", "route_undo_redo", warned("Without a net: 1 track")),
    Trial("progress", "ecc83-pp", "bare", "route_undo_redo", shows_lines, program=SPEAKS),
    Trial("cancel", "video", "as_it_is", "cancel", cancelled),
    Trial("cancel-sleeper", "ecc83-pp", "bare", "cancel", cancelled, program=SLEEPS),
    Trial("refused", "ecc83-pp", "out_of_range", "complained",
          complains("refuses the design", "refusal 10", "of the design:", "as it was")),
    Trial("foreign", "ecc83-pp", "bare", "complained", complains("nowhere", "as it was"), program=SPOILT),
    Trial("broken", "ecc83-pp", "as_it_is", "broken_laying", complains("a fault made for this trial", "as it was")),
    Trial("missing", "ecc83-pp", "bare", "missing_program", without_program, program="none"),
    Trial("killed", "ecc83-pp", "bare", "killed", program_died, program=SLEEPS),
]


def prepare(trial: Trial, room: Path, words: argparse.Namespace) -> Dict[str, Any]:
    """A home with the plugin, the program and the board; the task for the module inside."""
    plugins = room / "config" / "6.0" / "scripting" / "plugins"
    plugins.mkdir(parents=True)
    (room / "home").mkdir()
    (room / "config" / "6.0" / "kicad_common.json").write_text(json.dumps(SILENT))
    for table in ("fp", "sym"):
        (room / "config" / "6.0" / f"{table}-lib-table").write_text(f"({table}_lib_table)\n")
    shutil.copy(HERE / "inside.py", plugins / "zz_dsnroute_trial.py")
    if words.installed:
        shutil.copytree(words.installed / ".local" / "share" / "kicad", room / "home" / ".local" / "share" / "kicad")
    else:
        shutil.copytree(PLUGIN, plugins / PLUGIN.name, ignore=shutil.ignore_patterns("__pycache__"))
        put_program(trial.program, words.program.resolve(), plugins / PLUGIN.name / "dsnroute")
    board = boards.made(trial.source, room / "board", boards.CHANGES[trial.change])
    return {"name": trial.name, "scenario": trial.scenario, "board": str(board), "options": trial.options,
            "log": str(room / "seen"), "shots": str(words.shots.resolve()) if words.shots else ""}


def put_program(script: str, program: Path, target: Path) -> None:
    """The program, or a script in its place, without its run bit, as KiCad's manager leaves it."""
    if script == "none":
        return
    if script:
        target.write_text(script.replace("{program}", str(program)))
    else:
        shutil.copy(program, target)
    target.chmod(stat.S_IRUSR | stat.S_IWUSR)


def lives(pid: int) -> bool:
    """Whether the process of this number runs; one that has ended and waits to be noticed doesn't."""
    try:
        return Path(f"/proc/{pid}/stat").read_text().rpartition(")")[2].split()[0] != "Z"
    except OSError:
        return False


def play(trial: Trial, words: argparse.Namespace) -> Seen:
    """Runs one trial, and gives what was seen."""
    room = Path(tempfile.mkdtemp(prefix=f"dsnroute-trial-{trial.name}-"))
    try:
        task = prepare(trial, room, words)
        (room / "task").write_text(json.dumps(task))
        environment = {**os.environ, "HOME": str(room / "home"), "KICAD_CONFIG_HOME": str(room / "config"),
                       "LC_ALL": "C.UTF-8", "DSNROUTE_TRIAL": str(room / "task"), "TMPDIR": str(room),
                       "PATH": "/usr/bin:/bin"}
        (room / "editor.sh").write_text('pcbnew "$1" & echo $! >editor; wait $!; echo $? >status\n')
        with open(room / "out", "wb") as out:
            child = subprocess.Popen(
                ["xvfb-run", "-a", "-s", "-screen 0 1280x900x24", "bash", "editor.sh", task["board"]],
                cwd=str(room), env=environment, stdout=out, stderr=out, start_new_session=True)
            try:
                child.wait(LIMIT)
            except subprocess.TimeoutExpired:
                os.killpg(child.pid, signal.SIGTERM)
                child.wait()
        lines = (room / "seen").read_text().splitlines() if (room / "seen").is_file() else []
        seen: Seen = dict(json.loads(line) for line in lines)
        status = int((room / "status").read_text()) if (room / "status").is_file() else None
        seen["status"] = 128 - status if status is not None and status > 128 else status
        seen["left"] = sorted(path.name for path in room.glob("dsnroute-*"))
        seen["beside"] = sorted(path.name for path in (room / "board").iterdir())
        for path in (room / "board").glob("*-before-dsnroute.kicad_pcb"):
            seen["copied"] = boards.count_routed(path)
        for name in ("before", "after"):
            path = room / "board" / f"{name}.kicad_pcb"
            if path.is_file():
                seen[f"drc {name}"] = boards.check(path)
        if "pid" in seen:
            time.sleep(2)
            seen["orphan"] = lives(seen["pid"])
        return seen
    finally:
        shutil.rmtree(room, ignore_errors=True)


def shown(seen: Seen) -> str:
    """What was seen, without what is long."""
    lines = []
    for name, value in seen.items():
        if isinstance(value, dict) and "hash" in value:
            value = counts(seen, name)
        lines.append(f"    {name}: {json.dumps(value, ensure_ascii=False)[:600]}")
    return "\n".join(lines)


def main() -> int:
    parser = argparse.ArgumentParser(description=__doc__.splitlines()[0])
    parser.add_argument("program", type=Path)
    parser.add_argument("--shots", type=Path)
    parser.add_argument("--only", nargs="*", default=[])
    parser.add_argument("--installed", type=Path, metavar="HOME",
                        help="take the plugin and its program as KiCad's manager left them in this home")
    words = parser.parse_args()
    if words.shots:
        words.shots.mkdir(parents=True, exist_ok=True)
    failed = 0
    for trial in TRIALS:
        if words.only and trial.name not in words.only:
            continue
        seen = play(trial, words)
        try:
            trial.check(seen)
            if trial.scenario != "killed":
                assert not seen["left"], f"{seen['left']} were left"
            print(f"{trial.name}: passed\n{shown(seen)}", flush=True)
        except (AssertionError, KeyError) as fault:
            failed += 1
            print(f"{trial.name}: FAILED: {fault!r}\n{shown(seen)}", flush=True)
    return failed


if __name__ == "__main__":
    sys.exit(main())
