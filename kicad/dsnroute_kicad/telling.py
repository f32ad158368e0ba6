"""Says in plain words how a run ended: what is complete, what stayed open, and what shuts it in."""
from __future__ import annotations

import re
from collections import Counter
from dataclasses import dataclass
from typing import Callable, List, Optional, Sequence

from .design import Item
from .program import Outcome
from .report import Cut, Report

MOST_BLOCKERS = 6
Near = Callable[[str, Cut, str, int], Sequence[str]]
KINDS = {"wire": "track", "via": "via", "pin": "pad", "smd": "pad", "area": "rule area"}
PROGRESS = re.compile(r"dsnroute: pass \d")
STATUSES = {
    2: "The program doesn't know these words.",
    3: "The program refuses the design.",
    4: "The program can't read the design.",
    5: "The program can't write the session.",
    6: "The design passes a limit of the program. If it is the nodes: take a coarser grid.",
    7: "The program ran out of memory.",
}


@dataclass(frozen=True)
class OpenPart:
    """A part of an open net: where to look, and the cut that says what shuts it in."""

    net: str
    cut: Cut

    @property
    def pin(self) -> str:
        """The pad to look at, as component-pin."""
        return self.cut.pin


def count(number: int, one: str, many: str = "") -> str:
    """A number with its noun."""
    return f"{number:,} {one if number == 1 else many or one + 's'}"


def headline(report: Report) -> str:
    """The first sentence of the end."""
    if not report.open_nets:
        return "The net is complete." if len(report.nets) == 1 else f"All {len(report.nets):,} nets are complete."
    whole = len(report.nets) - len(report.open_nets)
    return (f"{count(report.open, 'connection')} of {count(len(report.open_nets), 'net')} stayed open; "
            f"{count(whole, 'net')} {'is' if whole == 1 else 'are'} complete.")


def open_parts(report: Report) -> List[OpenPart]:
    """Each part of each open net, that with the least room first, since it is the one that is shut in."""
    return [OpenPart(net.name, cut) for net in report.open_nets
            for cut in sorted(net.cuts, key=lambda cut: cut.reached)]


def dropped(report: Report) -> List[str]:
    """A sentence on the wiring that the program left out, where there is any."""
    number = len(report.dropped)
    if not number:
        return []
    return [f"{count(number, 'run of tracks or via', 'runs of tracks or vias')} broke a rule: left out, and "
            f"{'its net' if number == 1 else 'their nets'} joined anew."]


def counted_more(report: Report, unconnected: int) -> List[str]:
    """A sentence on the unconnected items that KiCad counts beyond the report's, where there are any."""
    more = unconnected - report.open
    if more <= 0:
        return []
    return [f"KiCad counts {count(more, 'unconnected item')} more than the program: for KiCad a track of before that "
            "ends in the middle of nothing is one."]


def reason(part: OpenPart, items: Sequence[Item], near: Near) -> str:
    """What shuts a part in: items of the design by name, routed ones by their number and the nets that are near."""
    cut = part.cut
    if cut.reached == 0:
        first = "no track of the net's width may begin at it"
    elif not cut.by:
        first = "no move leads on from it"
    else:
        first = "shut in"
    named: List[str] = []
    routed: Counter[str] = Counter()
    for blocker in cut.by:
        item = Item("edge") if blocker.number is None else _item_of(blocker.kind, blocker.number, items)
        if item is None:
            routed[blocker.kind] += 1
        elif _name(item) not in named:
            named.append(_name(item))
    parts = named[:MOST_BLOCKERS] + ([f"{len(named) - MOST_BLOCKERS} more"] if len(named) > MOST_BLOCKERS else [])
    for kind, number in routed.items():
        nets = near(part.net, cut, kind, number)
        parts.append(count(number, f"routed {KINDS[kind]}") + (f" (nearest: {', '.join(nets)})" if nets else ""))
    return f"{first}; in the way: {', '.join(parts)}" if parts else first


def _item_of(kind: str, number: int, items: Sequence[Item]) -> Optional[Item]:
    """The design's item of the number, where it is there and of the reported kind."""
    if number >= len(items):
        return None
    item = items[number]
    kinds = {"edge": ("area",), "keepout": ("area",), "pad": ("pin", "smd")}
    return item if kind in kinds.get(item.kind, (item.kind.split()[-1],)) else None


def _name(item: Item) -> str:
    if item.kind == "edge":
        return "the edge of the board"
    if item.kind == "keepout":
        return f"a rule area of {item.component}" if item.component else "a rule area or hole"
    if item.kind == "pad":
        return f"pad {item.pin} of {item.component}" + (f" ({item.net})" if item.net else " (no net)")
    kind = item.kind.replace("wire", "track")
    return f"{'an' if kind[0] in 'aeiou' else 'a'} {kind}" + (f" of {item.net}" if item.net else "")


def failure(outcome: Outcome, design_text: bytes) -> str:
    """Why there is no session: the program's own words, and the line of the design that it means."""
    status = outcome.status
    if status is None:
        return "The run was cancelled."
    if status < 0 or status > 7:
        first = f"The program ended by itself with status {status}."
    else:
        first = STATUSES.get(status, "The program ended without a session.")
    said = [line for line in outcome.lines if line.strip() and not PROGRESS.match(line)][-12:]
    said = said or outcome.report.decode("utf-8", "replace").splitlines()[:3]
    meant = _meant_line(said, design_text)
    return "\n\n".join(part for part in (first, "\n".join(said), meant) if part)


def _meant_line(said: Sequence[str], design_text: bytes) -> str:
    """The design's line that the first sentence of the form FILE:LINE:COLUMN: names."""
    for line in said:
        parts = line.split(":")
        for at in range(1, len(parts) - 2):
            if parts[at].isdigit() and parts[at + 1].isdigit():
                lines = design_text.split(b"\n")
                number = int(parts[at])
                if 1 <= number <= len(lines):
                    text = lines[number - 1].decode("utf-8", "replace").strip()
                    return f"Line {number} of the design: {text[:200]}"
    return ""
