"""Reads a session: the wires and vias that a router laid, whole or not at all.

Lengths and places come in nanometres, with y upwards as the session has it. Names stay
words, whatever they look like: a net that is called 5 is no number.
"""
from __future__ import annotations

import re
from dataclasses import dataclass
from fractions import Fraction
from typing import Dict, List, Optional, Tuple

from .brackets import Group, TextFault, Word, read_list

UNITS = {"inch": 25_400_000, "mil": 25_400, "cm": 10_000_000, "mm": 1_000_000, "um": 1_000}
MOST = 2 ** 31 - 1
_DECIMAL = re.compile(r"[+-]?(\d+\.?\d*|\.\d+)([eE][+-]?\d{1,2})?", re.ASCII)
_DRILL = re.compile(r":(\d+\.?\d*)(?:_um)?$", re.ASCII)

Point = Tuple[int, int]


@dataclass(frozen=True)
class Wire:
    """A chain of straight tracks of one net on one layer."""

    net: str
    layer: str
    width: int
    points: Tuple[Point, ...]


@dataclass(frozen=True)
class Padstack:
    """What a via is made of: its layers with copper, in order, and its greatest circle."""

    name: str
    layers: Tuple[str, ...]
    diameter: int

    @property
    def drill(self) -> Optional[int]:
        """The drill that KiCad writes into the name, as the 600 of Via[0-1]_1200:600_um."""
        found = _DRILL.search(self.name)
        return round(Fraction(found.group(1)) * 1000) if found else None


@dataclass(frozen=True)
class Via:
    """A via of a net."""

    net: str
    padstack: Padstack
    at: Point


@dataclass(frozen=True)
class Session:
    """All that a session lays, in its order; `unit` is its resolution in nanometres."""

    unit: Fraction
    wires: Tuple[Wire, ...]
    vias: Tuple[Via, ...]


def _number(word: Word, scale: Fraction) -> int:
    if not _DECIMAL.fullmatch(word):
        raise TextFault(f"a number is wanted, not {word!r}", word.place)
    number = round(Fraction(word) * scale)
    if abs(number) > MOST:
        raise TextFault(f"the number {word} is too great", word.place)
    return number


def _scale(resolution: Group) -> Fraction:
    """Nanometres in a unit of the session."""
    words = resolution.words()
    if len(words) != 2 or words[0].lower() not in UNITS:
        raise TextFault("a resolution is a unit (inch, mil, cm, mm, um) and a count", resolution.place)
    if not re.fullmatch("[0-9]{1,9}", words[1]) or int(words[1]) == 0:
        raise TextFault("a resolution's count is a whole number above 0", words[1].place)
    return Fraction(UNITS[words[0].lower()], int(words[1]))


def _points(words: List[Word], scale: Fraction, group: Group) -> Tuple[Point, ...]:
    if len(words) % 2:
        raise TextFault("a coordinate has no partner", group.place)
    numbers = [_number(word, scale) for word in words]
    return tuple(zip(numbers[::2], numbers[1::2]))


def _padstack(group: Group, scale: Fraction) -> Padstack:
    words = group.words()
    if len(words) != 1:
        raise TextFault("a padstack has one name", group.place)
    layers: List[str] = []
    diameter = 0
    for shape in group.groups("shape"):
        for form in shape.groups():
            form_words = form.words()
            if not form_words:
                raise TextFault("a shape names its layer", form.place)
            if form_words[0] not in layers:
                layers.append(str(form_words[0]))
            if form.head == "circle":
                if len(form_words) not in (2, 4):
                    raise TextFault("a circle has a diameter, and perhaps a centre", form.place)
                diameter = max(diameter, _number(form_words[1], scale))
    return Padstack(str(words[0]), tuple(layers), diameter)


def _wire(net: str, group: Group, scale: Fraction) -> Wire:
    forms = [form for form in group.groups() if form.head not in ("type", "net")]
    if len(forms) != 1 or forms[0].head != "path" or group.words():
        raise TextFault("a wire is one path", group.place)
    words = forms[0].words()
    if len(words) < 2 or len(forms[0].groups()) > 0:
        raise TextFault("a path has a layer and a width", forms[0].place)
    width = _number(words[1], scale)
    if width <= 0:
        raise TextFault("a wire's width is above 0", words[1].place)
    points = _points(words[2:], scale, forms[0])
    if len(points) < 2:
        raise TextFault("a path has two points or more", forms[0].place)
    return Wire(net, str(words[0]), width, points)


def _via(net: str, group: Group, scale: Fraction, padstacks: Dict[str, Padstack]) -> Via:
    words = group.words()
    if len(words) != 3:
        raise TextFault("a via is a padstack and a place", group.place)
    if words[0] not in padstacks:
        raise TextFault(f"the padstack {words[0]} isn't in the session", words[0].place)
    padstack = padstacks[words[0]]
    if len(padstack.layers) < 2 or padstack.diameter <= 0:
        raise TextFault(f"the padstack {words[0]} isn't round copper on two layers or more", words[0].place)
    return Via(net, padstack, _points(words[1:], scale, group)[0])


def read_session(text: bytes) -> Session:
    """The wires and vias of a session; a TextFault where anything of them can't be read."""
    whole = read_list(text)
    if whole.head != "session":
        raise TextFault("the list isn't a session", whole.place)
    routes = whole.only("routes")
    scale = _scale(routes.only("resolution"))
    padstacks: Dict[str, Padstack] = {}
    for library in routes.groups("library_out"):
        for group in library.groups("padstack"):
            padstack = _padstack(group, scale)
            if padstack.name in padstacks:
                raise TextFault(f"there is a second padstack {padstack.name}", group.place)
            padstacks[padstack.name] = padstack
    wires: List[Wire] = []
    vias: List[Via] = []
    for net in routes.only("network_out").groups():
        words = net.words()
        if net.head != "net" or len(words) != 1:
            raise TextFault("a net has one name", net.place)
        for group in net.groups():
            if group.head == "wire":
                wires.append(_wire(str(words[0]), group, scale))
            elif group.head == "via":
                vias.append(_via(str(words[0]), group, scale, padstacks))
            else:
                raise TextFault(f"the list {group.head} isn't a wire or via", group.place)
    return Session(scale, tuple(wires), tuple(vias))
