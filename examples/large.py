#!/usr/bin/env python3
"""Designs that grow, to measure how time and memory grow with them.

    large.py nets N FILE      a design of N nets, each with four pins that lie on one another, and so complete from the
                              start: it is read, islands are found, and a report of N lines is written. N is at most
                              131,072, with 524,288 pins. Every eighth net is in one class, every ninth in another,
                              and a rule stands between the two
    large.py groups N FILE    N bytes of short lists, `(q) (q) ..`, in a design that is refused: it has no resolution
    large.py words N FILE     N bytes of words of one letter, `q q ..`, in such a design
    large.py pairs N FILE     a design with N class lists of one name, and one rule between them: N (N + 1) / 2 class
                              pairs. From N = 5,793 on they are more than 2^24, and the answer is want of memory

Measure with `/usr/bin/time -v PROGRAM route FILE out.ses --grid 100000 --workers 1`.
"""
import sys

HEAD = """(pcb large
(resolution um 10)
(unit um)
(structure
(layer F.Cu (type signal))
(boundary (rect pcb 0 0 %d %d))
(rule (width 200) (clearance 200)))
"""


def nets(count):
    """N places in a square, 2 mm apart."""
    side = 1
    while side * side < count:
        side += 1
    pitch = min(2000, 500000 // (side + 1))
    yield HEAD % ((side + 1) * pitch, (side + 1) * pitch)
    yield "(placement (component P\n"
    for k in range(count):
        yield "(place C%d %d %d front 0)\n" % (k, pitch * (k % side + 1), pitch * (k // side + 1))
    yield "))\n(library\n(image P (pin PAD 1 0 0) (pin PAD 2 0 0) (pin PAD 3 0 0) (pin PAD 4 0 0))\n"
    yield "(padstack PAD (shape (circle F.Cu 400))))\n(network\n"
    for k in range(count):
        yield "(net N%d (pins C%d-1 C%d-2 C%d-3 C%d-4))\n" % (k, k, k, k, k)
    yield "(class eighth%s)\n" % "".join(" N%d" % k for k in range(0, count, 8))
    yield "(class ninth%s)\n" % "".join(" N%d" % k for k in range(0, count, 9))
    yield "(class_class (classes eighth ninth) (rule (clearance 300))))\n(wiring))\n"


def filled(piece, size):
    """The text of a list of this many bytes, filled with one piece over and over."""
    front, back = "(pcb large\n", ")\n"
    room = size - len(front) - len(back)
    yield front
    whole = room // len(piece)
    for _ in range(whole // 4096):
        yield piece * 4096
    yield piece * (whole % 4096)
    yield " " * (room % len(piece)) + back


def pairs(count):
    yield HEAD % (9000, 9000)
    yield "(network\n"
    for _ in range(count):
        yield "(class a)\n"
    yield "(class_class (classes a a) (rule (clearance 300)))))\n"


KINDS = {
    "nets": nets,
    "groups": lambda size: filled("(q) ", size),
    "words": lambda size: filled("q ", size),
    "pairs": pairs,
}


def main(words):
    if len(words) != 3 or words[0] not in KINDS:
        sys.exit(__doc__)
    with open(words[2], "w", encoding="ascii") as out:
        for piece in KINDS[words[0]](int(words[1])):
            out.write(piece)


main(sys.argv[1:])
