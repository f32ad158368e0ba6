"""Lays a session on the board in the editor: first all of it is understood, then the board is changed."""
from __future__ import annotations

from dataclasses import dataclass
from typing import Any, Container, List, Tuple

import pcbnew

from .board import identity, is_arc, is_exported, key_of, point
from .matching import Point, Shelf, pairs, track_key, via_key
from .session import Padstack, Session


class LayFault(Exception):
    """The session isn't one of this board; the text says why."""


@dataclass(frozen=True)
class NewTrack:
    """A track to be laid; y downwards."""

    net: Any
    layer: int
    width: int
    start: Point
    end: Point


@dataclass(frozen=True)
class NewVia:
    """A via to be laid; y downwards."""

    net: Any
    at: Point
    diameter: int
    drill: int
    top: int
    bottom: int


@dataclass(frozen=True)
class Change:
    """What a session changes: items that go, tracks and vias that come, and how many stay as they are."""

    leaving: List[Any]
    tracks: List[NewTrack]
    vias: List[NewVia]
    staying: int


class _Names:
    """Nets and layers of the board by the session's names."""

    def __init__(self, board: Any) -> None:
        self._board = board

    def net(self, name: str) -> Any:
        net = self._board.FindNet(name)
        if net is None or not name:
            raise LayFault(f"The session has a net {name!r} that this board lacks.")
        return net

    def layer(self, name: str) -> int:
        number = int(self._board.GetLayerID(name))
        if number < 0 or not pcbnew.IsCopperLayer(number) or not self._board.IsLayerEnabled(number):
            raise LayFault(f"The session has a layer {name!r} that is no copper layer of this board.")
        return number


def _drill(padstack: Padstack) -> int:
    """The drill that KiCad wrote into the padstack's name."""
    if padstack.drill is None:
        raise LayFault(f"The padstack {padstack.name!r} doesn't say its drill.")
    return padstack.drill


def plan_change(board: Any, session: Session, held: Container[str]) -> Change:
    """What the session changes; a LayFault where a name of it isn't the board's.

    Locked tracks and those of the identities `held` stay, and what the session has of them isn't
    laid again. Nor is what an unlocked track or via of the board is already. Items without a net
    aren't in the design: they stay.
    """
    names = _Names(board)
    routed = [item for item in board.GetTracks() if is_exported(item)]
    fixed = [item for item in routed if item.IsLocked() or identity(item) in held]
    own = {identity(item) for item in fixed}
    free = [item for item in routed if identity(item) not in own]
    fixed_shelf = Shelf((key_of(board, item), item.GetWidth(), item) for item in fixed)
    free_shelf = Shelf((key_of(board, item), item.GetWidth(), item) for item in free if not is_arc(item))
    tracks: List[NewTrack] = []
    vias: List[NewVia] = []
    staying = len(fixed)
    for wire in session.wires:
        net, layer = names.net(wire.net), names.layer(wire.layer)
        for start, end in pairs([(x, -y) for x, y in wire.points]):
            key = track_key(wire.net, wire.layer, start, end)
            if free_shelf.take(key, wire.width) is not None:
                staying += 1
            elif not fixed_shelf.has(key, wire.width) and start != end:
                tracks.append(NewTrack(net, layer, wire.width, start, end))
    for via in session.vias:
        net, padstack, at = names.net(via.net), via.padstack, (via.at[0], -via.at[1])
        key = via_key(via.net, padstack.layers, at)
        top, bottom = names.layer(padstack.layers[0]), names.layer(padstack.layers[-1])
        if free_shelf.take(key, padstack.diameter) is not None:
            staying += 1
        elif not fixed_shelf.has(key, padstack.diameter):
            vias.append(NewVia(net, at, padstack.diameter, _drill(padstack), top, bottom))
    leaving = free_shelf.rest() + [item for item in free if is_arc(item)]
    return Change(leaving, tracks, vias, staying)


def _made_track(board: Any, new: NewTrack) -> Any:
    track = pcbnew.PCB_TRACK(board)
    track.SetStart(point(*new.start))
    track.SetEnd(point(*new.end))
    track.SetWidth(new.width)
    track.SetLayer(new.layer)
    track.SetNet(new.net)
    return track


def _made_via(board: Any, new: NewVia) -> Any:
    via = pcbnew.PCB_VIA(board)
    via.SetPosition(point(*new.at))
    via.SetWidth(new.diameter)
    via.SetDrill(new.drill)
    if (new.top, new.bottom) == (pcbnew.F_Cu, pcbnew.B_Cu):
        via.SetViaType(pcbnew.VIATYPE_THROUGH)
    else:
        via.SetViaType(pcbnew.VIATYPE_BLIND_BURIED)
        via.SetLayerPair(new.top, new.bottom)
    via.SetNet(new.net)
    return via


def fill_zones(board: Any) -> bool:
    """Fills all zones anew; whether that went well. True where there are none."""
    zones = board.Zones()
    return len(zones) == 0 or bool(pcbnew.ZONE_FILLER(board).Fill(zones))


def apply_change(board: Any, change: Change) -> bool:
    """Changes the board and fills its zones; whether these could be filled.

    Where anything else fails the board's tracks are put back, and the exception goes on.
    """
    done: List[Tuple[bool, Any]] = []
    try:
        for item in change.leaving:
            board.Remove(item)
            done.append((False, item))
        for item in ([_made_track(board, new) for new in change.tracks]
                     + [_made_via(board, new) for new in change.vias]):
            board.Add(item)
            done.append((True, item))
        return fill_zones(board)
    except BaseException:
        for added, item in reversed(done):
            if added:
                board.Remove(item)
            else:
                board.Add(item)
        raise
