"""When a piece of a design or session and an item of the board are the same copper.

KiCad writes places of a design with six digits of a micrometre, so both sides are compared
as these digits have them.
"""
from __future__ import annotations

from collections import defaultdict
from typing import Any, DefaultDict, Hashable, Iterable, Iterator, List, Sequence, Tuple

Point = Tuple[int, int]
Key = Tuple[Hashable, ...]
WIDTH_SLACK = 1000


def written(length: int) -> int:
    """A length in nanometres as it comes back from KiCad's design."""
    return round(float(f"{length / 1000:.6g}") * 1000)


def _point(point: Point) -> Point:
    return written(point[0]), written(point[1])


def track_key(net: str, layer: str, start: Point, end: Point) -> Key:
    """The same for two straight tracks of one net and layer with the same ends."""
    return ("track", net, layer, *sorted((_point(start), _point(end))))


def via_key(net: str, layers: Sequence[str], at: Point) -> Key:
    """The same for two vias of one net at one place from and to the same layers."""
    return ("via", net, layers[0], layers[-1], _point(at))


def pairs(points: Sequence[Point]) -> Iterator[Tuple[Point, Point]]:
    """The straight pieces of a chain."""
    return zip(points, points[1:])


class Shelf:
    """Items of a board by key, each given out once."""

    def __init__(self, items: Iterable[Tuple[Key, int, Any]]) -> None:
        self._items: DefaultDict[Key, List[Tuple[int, Any]]] = defaultdict(list)
        for key, width, item in items:
            self._items[key].append((width, item))

    def take(self, key: Key, width: int) -> Any:
        """An item of this key and width, which is then gone from the shelf; None where there is none."""
        found = self._items.get(key, [])
        for at, (its_width, item) in enumerate(found):
            if abs(its_width - width) <= WIDTH_SLACK:
                del found[at]
                return item
        return None

    def has(self, key: Key, width: int) -> bool:
        """An item of this key and width is on the shelf."""
        return any(abs(its_width - width) <= WIDTH_SLACK for its_width, _ in self._items.get(key, []))

    def rest(self) -> List[Any]:
        """What nobody took."""
        return [item for found in self._items.values() for _, item in found]
