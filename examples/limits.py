#!/usr/bin/env python3
"""Designs at each limit and one past it, with what a program answers.

    limits.py PROGRAM        writes each design, runs PROGRAM on it, and compares

PROGRAM is `dsnroute`, built. A design at a limit is wrong in a later section, so that it is read as far as the limit
matters and then refused; one more of what is counted is answered by the limit. The last line is 'N passed, M failed',
and the status is 0 where none failed. It takes about a minute and up to 2 GB of memory.
"""
import os
import subprocess
import sys
import tempfile

HEAD = "(pcb b (resolution um 10) (structure (layer A) (boundary (rect A 0 0 9 9)))"


def library(image):
    return " (library (image I %s) (padstack P))" % image


def placed(count):
    return " (placement (component I %s))" % " ".join("(place %d 0 0 front 0)" % k for k in range(count))


# what is wrong in the network or the wiring of a design that is at a limit
NO_CLASS = " (network (class_class (classes a a))))"
NO_PATH = " (wiring (wire)))"
GOOD_WIRE = " (wiring (wire (path A 1 0 0 1 1))))"


def no_class(text):
    return text, 3, "refused 25 at %d\n" % (text.rindex("a a)"))


def no_path(text):
    return text, 3, "refused 22 at %d\n" % text.rindex("(wire)")


def limit(text, what, number):
    return text, 6, "limit %s %d\n" % (what, number)


def layers(count):
    text = "".join("(layer L%d) " % k for k in range(count))
    return "(pcb b (resolution um 10) (structure %s(boundary (rect pcb 0 0 9 9)))" % text


def nets(count):
    return HEAD + " (network %s)" % " ".join("(net %d)" % k for k in range(count))


def pins(each, places):
    return HEAD + library(" ".join("(pin P %d 0 0)" % k for k in range(each))) + placed(places)


def keepouts(each, places):
    return HEAD + library("(keepout (circle A 1))" * each) + placed(places)


def vertices(count):
    loop = "1 2 " * (count - 1) + "5 6"
    return HEAD + " (library (padstack P (shape (polygon A 0 %s))))" % loop


def classes(count):
    return HEAD + " (network %s(class_class (classes a a)))" % ("(class a) " * count)


def padded(text, size):
    """The design with blanks behind it, of just so many bytes."""
    return text + " " * (size - len(text))


# n class lists of one name make n (n + 1) / 2 class pairs: 5,792 make 16,776,528, and one more makes too many
ROWS = [
    ("67,108,864 bytes", lambda: no_class(padded(HEAD + NO_CLASS, 67108864))),
    ("67,108,865 bytes", lambda: limit(padded(HEAD + NO_CLASS, 67108865), "bytes", 67108864)),
    ("32 layers", lambda: no_class(layers(32) + NO_CLASS)),
    ("33 layers", lambda: limit(layers(33) + ")", "layers", 32)),
    ("131,072 nets", lambda: no_path(nets(131072) + NO_PATH)),
    ("131,073 nets", lambda: limit(nets(131073) + ")", "nets", 131072)),
    ("524,288 pins", lambda: no_class(pins(1024, 512) + NO_CLASS)),
    ("a place past 524,288 pins", lambda: limit(pins(1024, 513) + ")", "pins", 524288)),
    ("2,097,152 items", lambda: no_class(keepouts(889, 2359) + NO_CLASS)),
    ("a wire more than 2,097,152 items", lambda: limit(keepouts(889, 2359) + GOOD_WIRE, "items", 2097152)),
    ("a place past 2,097,152 items", lambda: limit(keepouts(1024, 2048) + ")", "items", 2097152)),
    ("16,384 vertices", lambda: no_class(vertices(16384) + NO_CLASS)),
    ("16,385 vertices", lambda: limit(vertices(16385) + ")", "vertices", 16384)),
    ("16,782,321 class pairs", lambda: (classes(5793) + ")", 7, "")),
]


def run(program, folder, text):
    """The status of the program, and what it puts."""
    with open(os.path.join(folder, "in.dsn"), "w", encoding="ascii") as out:
        out.write(text)
    done = subprocess.run([program, "route", "in.dsn", "out.ses"], cwd=folder, capture_output=True, check=False)
    return done.returncode, done.stdout.decode("ascii", "replace")


def main(words):
    if len(words) != 1:
        sys.exit(__doc__)
    program = os.path.abspath(words[0])
    failed = 0
    for name, row in ROWS:
        text, status, line = row()
        with tempfile.TemporaryDirectory() as folder:
            found = run(program, folder, text)
        if found != (status, line):
            failed += 1
            print("%s: status %d and %r, and not %d and %r" % (name, found[0], found[1], status, line))
    print("%d passed, %d failed" % (len(ROWS) - failed, failed))
    return 1 if failed else 0


sys.exit(main(sys.argv[1:]))
