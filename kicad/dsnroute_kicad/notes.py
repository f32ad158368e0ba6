"""What the designer should know before the board is routed, in plain sentences."""
from __future__ import annotations

from collections import Counter
from typing import Any, Iterable, List, Tuple

from .board import Export, is_arc, is_exported, is_via
from .telling import count


def before_routing(board: Any, export: Export) -> List[str]:
    """The notes on a board and its design."""
    return [note for note in (
        _copper_drawings(board), _without_net(board), _held(export), _arcs(board),
        _zones(board), _distances(board, export)) if note]


def _parts(*counts: Tuple[int, str]) -> List[str]:
    """The counts that aren't 0, each with its noun."""
    return [count(number, noun) for number, noun in counts if number]


def _is_text(item: Any) -> bool:
    return any(word in item.GetClass().upper() for word in ("TEXT", "FIELD"))


def _on_copper(board: Any) -> Iterable[Any]:
    """Texts and drawings on copper layers, of the board and of its footprints."""
    for item in board.GetDrawings():
        if item.IsOnCopperLayer():
            yield item
    for footprint in board.GetFootprints():
        fields = [footprint.Reference(), footprint.Value()]
        for item in list(footprint.GraphicalItems()) + [field for field in fields if field.IsVisible()]:
            if item.IsOnCopperLayer():
                yield item


def _copper_drawings(board: Any) -> str:
    kinds = Counter(_is_text(item) for item in _on_copper(board))
    parts = _parts((kinds[True], "text"), (kinds[False], "drawing"))
    if not parts:
        return ""
    return (f"On copper layers: {' and '.join(parts)}. KiCad leaves such things out of the design, so tracks may run "
            "across them. Draw a rule area over what must stay clear.")


def _without_net(board: Any) -> str:
    items = [item for item in board.GetTracks() if not is_exported(item)]
    vias = sum(is_via(item) for item in items)
    parts = _parts((len(items) - vias, "track"), (vias, "via"))
    if not parts:
        return ""
    return (f"Without a net: {' and '.join(parts)}. KiCad leaves such items out of the design, so tracks may run "
            "across them. They stay as they are.")


def _held(export: Export) -> str:
    if not export.held:
        return ""
    return (f"Joined with locked ones: {count(len(export.held), 'unlocked track')}. KiCad makes a single wire of them "
            "in the design, so they stay as if they were locked.")


def _arcs(board: Any) -> str:
    arcs = [item for item in board.GetTracks() if is_arc(item) and is_exported(item)]
    if not arcs:
        return ""
    return (f"Bent: {count(len(arcs), 'track')}. The design has the straight line between the ends: unlocked ones come "
            "back straight or elsewhere, and of locked ones new tracks keep clear by that line only.")


def _zones(board: Any) -> str:
    zones = [zone for zone in board.Zones() if not zone.GetIsRuleArea()]
    if not zones:
        return ""
    return (f"{count(len(zones), 'zone').capitalize()}: the router joins nothing by zones, and leads tracks to all "
            "pads. Zones are filled anew afterwards.")


def _distances(board: Any, export: Export) -> str:
    """Clearances of the board's own that the design lacks, where they are above the design's."""
    kept = export.design.clearance()
    settings = board.GetDesignSettings()
    wanted = ((int(settings.m_CopperEdgeClearance), "the edge"), (int(settings.m_HoleClearance), "holes"))
    wants = [f"{value / 1e6:g} mm to {what}" for value, what in wanted if value > kept]
    if not wants:
        return ""
    return (f"The board wants {' and '.join(wants)}, and the design doesn't say so: there tracks keep their ordinary "
            f"clearance ({kept / 1e6:g} mm, or that of their class).")
