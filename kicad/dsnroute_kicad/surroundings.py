"""Which nets' routed tracks stand nearest to the room of a part that is shut in.

The report names a routed item by a number that the session doesn't have. But it tells the
nodes that the part reaches, and so the nearest tracks of other nets can be found. That is no
proof that they are the ones which the report numbers, and is told as what it is.
"""
from __future__ import annotations

import math
from typing import Iterable, List, NamedTuple, Optional, Sequence, Tuple

from .design import Design
from .matching import pairs
from .report import Cut, Report, Stretch
from .session import Session

Point = Tuple[int, int]
MOST_STRETCHES = 300


class Lattice(NamedTuple):
    """The lattice's lines and its signal layers, as a report numbers them; y upwards."""

    xs: List[int]
    ys: List[int]
    layers: List[str]

    @property
    def nodes(self) -> int:
        """The crossings on all signal layers."""
        return len(self.xs) * len(self.ys) * len(self.layers)


class Chain(NamedTuple):
    """Copper of a net: a wire on one layer, or a via on several."""

    net: str
    kind: str
    layers: Tuple[str, ...]
    half_width: float
    points: Tuple[Point, ...]


def make_lattice(design: Design, pads: Iterable[Point], grid: int, unit: int) -> Optional[Lattice]:
    """The lattice of this grid over the design's first boundary and through the pads with a net."""
    box = design.first_box()
    if box is None or grid <= 0:
        return None
    (left, low), (right, high) = box
    centres = [(_nearest(x, unit), _nearest(y, unit)) for x, y in pads]
    return Lattice(_lines(left, right, grid, unit, [x for x, _ in centres]),
                   _lines(low, high, grid, unit, [y for _, y in centres]), design.signal_layers())


def _nearest(length: int, unit: int) -> int:
    return (length + unit // 2) // unit * unit


def _lines(low: int, high: int, grid: int, unit: int, anchors: List[int]) -> List[int]:
    """The multiples of the grid and the anchors strictly between two coordinates."""
    multiples = range(low // grid * grid, high + grid, grid)
    return sorted(line for line in {*(line // unit * unit for line in multiples), *anchors} if low < line < high)


def routed_chains(session: Session, design: Design) -> List[Chain]:
    """What the session has beyond the wires of the design."""
    known = {(wire.net, wire.layer, _one_way(wire.points)) for wire in design.wires()}
    wires = [Chain(wire.net, "wire", (wire.layer,), wire.width / 2, wire.points) for wire in session.wires
             if (wire.net, wire.layer, _one_way(wire.points)) not in known]
    return wires + [Chain(via.net, "via", via.padstack.layers, via.padstack.diameter / 2, (via.at, via.at))
                    for via in session.vias]


def _one_way(points: Sequence[Point]) -> Tuple[Point, ...]:
    return min(tuple(points), tuple(reversed(points)))


def nearest_nets(net: str, cut: Cut, kind: str, number: int, lattice: Lattice, chains: Iterable[Chain]) -> List[str]:
    """The nets of so many chains of a kind and of other nets that are nearest to what a cut's part reaches.

    Empty where the part reaches so much that nothing is near in particular.
    """
    if not number or not cut.stretches or len(cut.stretches) > MOST_STRETCHES:
        return []
    gaps = sorted((gap, chain.net) for chain in chains if chain.net != net and chain.kind == kind
                  for gap in [_gap(chain, cut.stretches, lattice)] if gap is not None)
    return sorted({name for _, name in gaps[:number]})


def _gap(chain: Chain, stretches: Iterable[Stretch], lattice: Lattice) -> Optional[float]:
    """From a chain's edge to the nearest reached node on its layers; None where it has none."""
    least: Optional[float] = None
    for stretch in stretches:
        if lattice.layers[stretch.layer] in chain.layers:
            y = lattice.ys[stretch.row]
            reached = (lattice.xs[stretch.first], y), (lattice.xs[stretch.last], y)
            for piece in pairs(chain.points):
                if least is None or _at_least(reached, piece) < least:
                    distance = _between(reached, piece)
                    least = distance if least is None else min(least, distance)
    return None if least is None else least - chain.half_width


def _at_least(one: Tuple[Point, Point], other: Tuple[Point, Point]) -> int:
    """What the distance of two straight pieces isn't below: that of their boxes along x or y."""
    along_x = max(min(one[0][0], one[1][0]) - max(other[0][0], other[1][0]),
                  min(other[0][0], other[1][0]) - max(one[0][0], one[1][0]))
    along_y = max(min(one[0][1], one[1][1]) - max(other[0][1], other[1][1]),
                  min(other[0][1], other[1][1]) - max(one[0][1], one[1][1]))
    return max(along_x, along_y, 0)


def _between(one: Tuple[Point, Point], other: Tuple[Point, Point]) -> float:
    """The distance of two straight pieces."""
    if _cross(one, other):
        return 0.0
    return min(_to_piece(one[0], other), _to_piece(one[1], other), _to_piece(other[0], one), _to_piece(other[1], one))


def _side(a: Point, b: Point, c: Point) -> int:
    area = (b[0] - a[0]) * (c[1] - a[1]) - (b[1] - a[1]) * (c[0] - a[0])
    return (area > 0) - (area < 0)


def _cross(one: Tuple[Point, Point], other: Tuple[Point, Point]) -> bool:
    return (_side(*one, other[0]) * _side(*one, other[1]) < 0 and _side(*other, one[0]) * _side(*other, one[1]) < 0)


def _to_piece(point: Point, piece: Tuple[Point, Point]) -> float:
    (ax, ay), (bx, by) = piece
    dx, dy = bx - ax, by - ay
    length = dx * dx + dy * dy
    along = 0.0 if length == 0 else max(0.0, min(1.0, ((point[0] - ax) * dx + (point[1] - ay) * dy) / length))
    return math.hypot(point[0] - ax - along * dx, point[1] - ay - along * dy)


class Surroundings:
    """All that is asked about the tracks near a cut; without answers where the lattice isn't the report's."""

    def __init__(self, session: Session, design: Design, pads: Iterable[Point], report: Report) -> None:
        lattice = None
        if session.unit.denominator == 1:
            lattice = make_lattice(design, pads, report.grid, int(session.unit))
        self._lattice = lattice if lattice is not None and lattice.nodes == report.nodes else None
        self._chains = routed_chains(session, design)

    def nets_near(self, net: str, cut: Cut, kind: str, number: int) -> List[str]:
        """The nets of the routed wires or vias, so many of them, that are nearest to what the cut's part reaches."""
        if self._lattice is None:
            return []
        return nearest_nets(net, cut, kind, number, self._lattice, self._chains)
