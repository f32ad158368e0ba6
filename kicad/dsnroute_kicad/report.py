"""Reads the report that the program puts on standard output.

Lines whose first word this reader doesn't know are passed over, so that a later program
may say more; the lines that it knows have to be whole and in their place, and the counts
of the last line have to be those of the lines before.
"""
from __future__ import annotations

import re
from dataclasses import dataclass, field
from typing import Dict, List, Optional, Tuple

KINDS = ("wire", "via", "pin", "smd", "area")
_LINE = re.compile(rb'((?:"[^"]*"|[^"\n])*)\n')
_WORD = re.compile(r'"[^"]*"|[^\s"]+')


class ReportFault(Exception):
    """A report that isn't whole, with its line from 1."""

    def __init__(self, what: str, line: int) -> None:
        super().__init__(f"line {line} of the report: {what}")
        self.what = what
        self.line = line


@dataclass(frozen=True)
class Blocker:
    """An item that blocks a move out of an island; number None is the outside of the boundary."""

    kind: str
    number: Optional[int]


@dataclass(frozen=True)
class Stretch:
    """Reached nodes side by side: a signal layer, a line in y, and the first and last line in x."""

    layer: int
    row: int
    first: int
    last: int


@dataclass
class Cut:
    """Why an island of an open net can't be joined to another one."""

    pin: str
    reached: int
    blocked: int
    by: List[Blocker] = field(default_factory=list)
    stretches: List[Stretch] = field(default_factory=list)


@dataclass
class NetLine:
    """A net, the number of its islands, and where that isn't one, a cut for each."""

    name: str
    islands: int
    cuts: List[Cut] = field(default_factory=list)


@dataclass
class Report:
    """What the program told of its run."""

    board: str = ""
    layers: int = 0
    pins: int = 0
    grid: int = 0
    nodes: int = 0
    dropped: List[int] = field(default_factory=list)
    notes: int = 0
    passes: List[Tuple[int, int]] = field(default_factory=list)
    kept: int = 0
    joins: int = 0
    nets: List[NetLine] = field(default_factory=list)

    @property
    def open_nets(self) -> List[NetLine]:
        """The nets that aren't complete."""
        return [net for net in self.nets if net.islands > 1]

    @property
    def open(self) -> int:
        """The connections that are missing, over all nets."""
        return sum(net.islands - 1 for net in self.open_nets)


class _Reader:
    """One reading: a method for each line's first word; `ended` is set by the last line."""

    def __init__(self) -> None:
        self.report = Report()
        self.line = 0
        self.ended = False
        self.net_count: Optional[int] = None
        self.drop_count: Optional[int] = None

    def fail(self, what: str) -> ReportFault:
        return ReportFault(what, self.line)

    def number(self, word: str) -> int:
        if not re.fullmatch("[0-9]{1,19}", word):
            raise self.fail(f"a number is wanted, not {word!r}")
        return int(word)

    def numbers(self, words: List[str], names: Dict[int, str], length: int) -> List[int]:
        """The numbers between the fixed words of a line of this length."""
        if len(words) != length or any(words[at] != name for at, name in names.items()):
            raise self.fail("the line isn't whole")
        return [self.number(word) for at, word in enumerate(words) if at not in names and at > 0]

    def cut(self) -> Cut:
        if not self.report.nets or not self.report.nets[-1].cuts:
            raise self.fail("there is no cut before it")
        return self.report.nets[-1].cuts[-1]

    def board(self, words: List[str]) -> None:
        if len(words) != 2 or self.line != 1:
            raise self.fail("a report begins with one board")
        self.report.board = words[1]

    def layers(self, words: List[str]) -> None:
        self.report.layers, self.net_count, self.report.pins = self.numbers(words, {2: "nets", 4: "pins"}, 6)

    def grid(self, words: List[str]) -> None:
        self.report.grid, self.report.nodes = self.numbers(words, {2: "nodes"}, 4)

    def dropped(self, words: List[str]) -> None:
        self.drop_count, = self.numbers(words, {}, 2)

    def drop(self, words: List[str]) -> None:
        self.report.dropped += self.numbers(words, {}, 2)

    def notes(self, words: List[str]) -> None:
        self.report.notes, = self.numbers(words, {}, 2)

    def pass_line(self, words: List[str]) -> None:
        number, commits, missing = self.numbers(words, {2: "commits", 4: "open"}, 6)
        if number != len(self.report.passes) + 1:
            raise self.fail("a pass is missing")
        self.report.passes.append((commits, missing))

    def kept(self, words: List[str]) -> None:
        self.report.kept, = self.numbers(words, {}, 2)

    def joins(self, words: List[str]) -> None:
        self.report.joins, = self.numbers(words, {}, 2)

    def net(self, words: List[str]) -> None:
        self.end_net()
        if len(words) == 3 and words[2] == "complete":
            self.report.nets.append(NetLine(words[1], 1))
        elif len(words) == 4 and words[2] == "open":
            islands = self.number(words[3])
            if islands < 2:
                raise self.fail("an open net has two islands or more")
            self.report.nets.append(NetLine(words[1], islands))
        else:
            raise self.fail("a net is complete, or open in so many parts")

    def end_net(self) -> None:
        """What a net's lines have to be by the line behind them."""
        if self.report.nets:
            last = self.report.nets[-1]
            if len(last.cuts) != (last.islands if last.islands > 1 else 0):
                raise self.fail(f"the net {last.name} hasn't a cut for each of its parts")

    def cut_line(self, words: List[str]) -> None:
        if len(words) != 6 or words[2] != "reached" or words[4] != "blocked" or not self.report.nets:
            raise self.fail("the line isn't whole")
        self.report.nets[-1].cuts.append(Cut(words[1], self.number(words[3]), self.number(words[5])))

    def by(self, words: List[str]) -> None:
        if words[1:] == ["outside"]:
            self.cut().by.append(Blocker("outside", None))
        elif len(words) == 3 and words[1] in KINDS:
            self.cut().by.append(Blocker(words[1], self.number(words[2])))
        else:
            raise self.fail("no such item")

    def run(self, words: List[str]) -> None:
        self.cut().stretches.append(Stretch(*self.numbers(words, {}, 5)))

    def complete(self, words: List[str]) -> None:
        self.end_net()
        whole, missing = self.numbers(words, {2: "open"}, 4)
        report = self.report
        if missing != len(report.open_nets) or whole + missing != len(report.nets):
            raise self.fail("the counts aren't those of the nets before")
        if self.net_count != len(report.nets) or self.drop_count != len(report.dropped):
            raise self.fail("the counts aren't those of the first lines")
        self.ended = True

    def take(self, words: List[str]) -> None:
        method = {
            "board": self.board, "layers": self.layers, "grid": self.grid, "dropped": self.dropped,
            "drop": self.drop, "notes": self.notes, "pass": self.pass_line, "kept": self.kept,
            "joins": self.joins, "net": self.net, "cut": self.cut_line, "by": self.by,
            "run": self.run, "complete": self.complete,
        }.get(words[0])
        if self.line == 1 and words[0] != "board":
            raise self.fail("a report begins with its board")
        if self.ended:
            raise self.fail("something stands behind the last line")
        if method is not None:
            method(words)


def read_report(text: bytes) -> Report:
    """What a report tells; a ReportFault where it isn't whole."""
    reader = _Reader()
    at = 0
    while at < len(text):
        match = _LINE.match(text, at)
        reader.line += 1
        if match is None:
            raise reader.fail("the line has no end")
        at = match.end()
        try:
            line = match.group(1).decode("utf-8")
        except UnicodeDecodeError:
            raise reader.fail("the line isn't UTF-8") from None
        words = [word[1:-1] if word.startswith('"') else word for word in _WORD.findall(line)]
        if not words:
            raise reader.fail("the line is empty")
        reader.take(words)
    if not reader.ended:
        raise reader.fail("the last line is missing")
    return reader.report
