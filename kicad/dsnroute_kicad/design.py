"""Reads of a design what the plugin needs: which item a number of the report means.

The report numbers items from 0: the boundaries, the keepouts, the placed components (of
each its keepouts, then its pins), the fixed wiring, the free wiring that was laid, and
then what was routed.
"""
from __future__ import annotations

from dataclasses import dataclass
from fractions import Fraction
from typing import Container, Dict, List, Optional, Tuple

from .brackets import Group, TextFault, Word, read_list
from .session import UNITS

KEEPOUTS = ("keepout", "via_keepout", "wire_keepout")
FIXED = ("fix", "protect")


@dataclass(frozen=True)
class Item:
    """An item of the design: its kind, and the component, pin, net or name that tells it from others."""

    kind: str
    component: str = ""
    pin: str = ""
    net: str = ""
    name: str = ""


@dataclass(frozen=True)
class DesignWire:
    """A wire of the design: places in nanometres, y upwards."""

    net: str
    layer: str
    is_fixed: bool
    points: Tuple[Tuple[int, int], ...]


class Design:
    """A design's items by number, before and without what is routed; a TextFault where it is no one list."""

    def __init__(self, text: bytes) -> None:
        self._text = text
        self._whole = read_list(text)

    @property
    def nets(self) -> int:
        """The number of nets."""
        return sum(group.head == "net" for group in self._sections("network"))

    def wires(self) -> List[DesignWire]:
        """The wires that are paths, in order."""
        unit = self._unit()
        found: List[DesignWire] = []
        for group in self._wiring():
            for path in group.groups("path"):
                words = path.words()
                if len(words) < 2:
                    raise TextFault("a path has a layer and a width", path.place)
                try:
                    numbers = [round(Fraction(word) * unit) for word in words[2:]]
                except ValueError:
                    raise TextFault("a wire's place is no number", path.place) from None
                points = tuple(zip(numbers[::2], numbers[1::2]))
                found.append(DesignWire(_net_of(group), str(words[0]), _is_fixed(group), points))
        return found

    def signal_layers(self) -> List[str]:
        """The names of the layers on which tracks may be laid."""
        return [_name_of(group) for group in self._sections("structure") if group.head == "layer"
                and not any(word.lower() == "power" for kind in group.groups("type") for word in kind.words())]

    def first_box(self) -> Optional[Tuple[Tuple[int, int], Tuple[int, int]]]:
        """The lower left and the upper right corner of the box round the first boundary, in nanometres."""
        boundary = next((group for group in self._sections("structure") if group.head == "boundary"), None)
        forms = boundary.groups("path", "polygon", "rect") if boundary is not None else []
        unit = self._unit()
        try:
            numbers = [[round(Fraction(word) * unit) for word in form.words()[1 if form.head == "rect" else 2:]]
                       for form in forms]
        except ValueError:
            return None
        xs = [number for some in numbers for number in some[::2]]
        ys = [number for some in numbers for number in some[1::2]]
        return ((min(xs), min(ys)), (max(xs), max(ys))) if xs and ys else None

    def clearance(self) -> int:
        """The clearance in nanometres that the structure's rules give to all; 0 where there is none."""
        found = [group.words()[0] for rule in self._sections("structure") if rule.head == "rule"
                 for group in rule.groups("clearance") if group.words() and not group.groups("type")]
        try:
            return round(Fraction(found[-1]) * self._unit()) if found else 0
        except ValueError:
            raise TextFault("a clearance is no number", found[-1].place) from None

    def _unit(self) -> int:
        """Nanometres in a unit of the design's numbers."""
        words = [word for head in ("resolution", "unit") for group in self._whole.groups(head)
                 for word in group.words()[:1]]
        if not words or words[-1].lower() not in UNITS:
            raise TextFault("the design has no unit", self._whole.place)
        return UNITS[words[-1].lower()]

    def _sections(self, head: str) -> List[Group]:
        """The lists inside all sections of one head, which count together."""
        return [group for section in self._whole.groups(head) for group in section.groups()]

    def _wiring(self) -> List[Group]:
        return [group for group in self._sections("wiring") if group.head in ("wire", "via")]

    def _images(self) -> Dict[str, Tuple[List[Group], List[Group]]]:
        """Keepouts and pins of each image."""
        images: Dict[str, Tuple[List[Group], List[Group]]] = {}
        for image in self._sections("library"):
            if image.head == "image" and image.words():
                images[str(image.words()[0])] = (image.groups(*KEEPOUTS), image.groups("pin"))
        return images

    def _component_items(self) -> List[Item]:
        images = self._images()
        nets = self._pin_nets()
        items: List[Item] = []
        for component in self._sections("placement"):
            if component.head != "component" or not component.words():
                continue
            keepouts, pins = images.get(str(component.words()[0]), ([], []))
            for place in component.groups("place"):
                words = place.words()
                if len(words) < 3:
                    continue
                items += [Item("keepout", component=str(words[0])) for _ in keepouts]
                for pin in pins:
                    name = str(pin.words()[1])
                    items.append(Item("pad", str(words[0]), name, nets.get(f"{words[0]}-{name}", "")))
        return items

    def _pin_nets(self) -> Dict[str, str]:
        """The net of each pin, as component-pin."""
        return {str(word): _name_of(net) for net in self._sections("network") if net.head == "net"
                for pins in net.groups("pins") for word in pins.words()}

    def items(self, dropped: Container[int]) -> List[Item]:
        """The items in the order of their numbers; `dropped` has the places of wiring that wasn't laid."""
        structure = self._sections("structure")
        items = [Item("edge") for group in structure if group.head == "boundary"]
        items += [Item("keepout", name=_name_of(group)) for group in structure if group.head in KEEPOUTS]
        items += self._component_items()
        wiring = self._wiring()
        items += [Item("locked " + group.head, net=_net_of(group)) for group in wiring if _is_fixed(group)]
        items += [Item("kept " + group.head, net=_net_of(group)) for group in wiring
                  if not _is_fixed(group) and group.place not in dropped]
        return items

    def without_free_wiring(self) -> bytes:
        """The design's text without the wiring that isn't fixed."""
        text, at = b"", 0
        for group in self._wiring():
            if not _is_fixed(group):
                text += self._text[at:group.place]
                at = group.end
        return text + self._text[at:]


def _name_of(group: Group) -> str:
    words = group.words()
    return str(words[0]) if words else ""


def _net_of(group: Group) -> str:
    nets = group.groups("net")
    return _name_of(nets[-1]) if nets else ""


def _is_fixed(group: Group) -> bool:
    types: List[Word] = [word for part in group.groups("type") for word in part.words()]
    return not _net_of(group) or any(word.lower() in FIXED for word in types)
