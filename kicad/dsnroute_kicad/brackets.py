"""Bracketed lists of words, the form of designs and sessions.

A text is one list. A list holds words and lists. A word is a run of bare and quoted
pieces; its text is the pieces without their quotes. Places are byte offsets from 0.
"""
from __future__ import annotations

import re
from typing import Dict, Iterator, List, Optional, Pattern, Union

QUOTES = b"\"'$"


class TextFault(Exception):
    """A text that isn't what it should be, with the place in its bytes."""

    def __init__(self, what: str, place: int) -> None:
        super().__init__(what)
        self.what = what
        self.place = place

    def at_line(self, text: bytes) -> str:
        """The fault with its line and column, both from 1."""
        before = text[:self.place]
        line = before.count(b"\n") + 1
        column = self.place - (before.rfind(b"\n") + 1) + 1
        return f"line {line}, column {column}: {self.what}"


class Word(str):
    """A word's text, with the place of its first byte."""

    place: int

    @classmethod
    def at(cls, text: str, place: int) -> "Word":
        """The word with this text at this place."""
        word = cls(text)
        word.place = place
        return word


Part = Union[Word, "Group"]


class Group(List[Part]):
    """A list: its parts, the place of its opening bracket, and the one behind its closing bracket."""

    def __init__(self, place: int) -> None:
        super().__init__()
        self.place = place
        self.end = place

    @property
    def head(self) -> str:
        """The keyword that the list begins with, in small letters; empty where there is none."""
        return self[0].lower() if self and isinstance(self[0], Word) else ""

    def words(self) -> List[Word]:
        """The words behind the head."""
        return [part for part in self[1:] if isinstance(part, Word)]

    def groups(self, *heads: str) -> List["Group"]:
        """The lists directly inside, of these heads, or all of them."""
        return [part for part in self if isinstance(part, Group) and (not heads or part.head in heads)]

    def only(self, head: str) -> "Group":
        """The one list of this head; a fault where there is none, or a second one."""
        found = self.groups(head)
        if len(found) != 1:
            what = f"there is no {head}" if not found else f"there is a second {head}"
            raise TextFault(f"{what} in the list {self.head or 'without a name'}", (found or [self])[-1].place)
        return found[0]


def _pattern(quote: bytes) -> Pattern[bytes]:
    q = re.escape(quote)
    return re.compile(
        rb"(?P<passed>^[^\S\n]*#[^\n]*|[^\S\n]+|\n)"
        rb"|(?P<bracket>[()])"
        rb"|(?P<word>(?:" + q + rb"[^" + q + rb"]*" + q + rb"|[^\s()" + q + rb"])+)", re.MULTILINE)


_PATTERNS: Dict[bytes, Pattern[bytes]] = {bytes([q]): _pattern(bytes([q])) for q in QUOTES}
_QUOTE_WORD = re.compile(rb"\s*([" + re.escape(QUOTES) + rb"])")


def _decoded(piece: bytes, place: int) -> Word:
    try:
        return Word.at(piece.decode("utf-8"), place)
    except UnicodeDecodeError:
        raise TextFault("a word isn't UTF-8", place) from None


def _tokens(text: bytes) -> Iterator[Part]:
    """The words of a text; a bracket is a list without parts, a closing one ends where it begins."""
    quote, at, opened = b'"', 0, False
    while at < len(text):
        match = _PATTERNS[quote].match(text, at)
        if match is None:
            raise TextFault("a quoted piece has no end", at)
        at = match.end()
        piece = match.group("word")
        if piece is not None:
            yield _decoded(piece.replace(quote, b""), match.start())
            if opened and piece.lower() == b"string_quote":
                taken = _QUOTE_WORD.match(text, at)
                if taken is None:
                    raise TextFault("string_quote wants one of \", ' and $", at)
                quote, at = taken.group(1), taken.end()
                yield Word.at(quote.decode(), taken.start(1))
            opened = False
        elif match.group("bracket") is not None:
            opened = match.group("bracket") == b"("
            bracket = Group(match.start())
            bracket.end = at if opened else match.start()
            yield bracket


def read_list(text: bytes) -> Group:
    """The one list that the text is; a fault where it isn't one whole list."""
    whole: Optional[Group] = None
    open_ones: List[Group] = []
    for token in _tokens(text):
        if whole is not None and not open_ones:
            raise TextFault("something stands behind the list", token.place)
        if isinstance(token, Word):
            if not open_ones:
                raise TextFault("a word stands before the list", token.place)
            open_ones[-1].append(token)
        elif token.end > token.place:
            if open_ones:
                open_ones[-1].append(token)
            else:
                whole = token
            open_ones.append(token)
        elif not open_ones:
            raise TextFault("a bracket is closed that isn't open", token.place)
        else:
            open_ones.pop().end = token.place + 1
    if open_ones:
        raise TextFault("a bracket isn't closed", open_ones[-1].place)
    if whole is None:
        raise TextFault("there is no list", 0)
    return whole
