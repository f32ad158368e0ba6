#!/usr/bin/env python3
"""Runs of which one request for memory is refused, the first, the second and so on until none is.

    no_memory.py PROGRAM        compares what each run leaves with what the contract of the top call says

PROGRAM is `dsnroute`, built. It takes memory by `malloc` and `realloc` alone, which a small library in front of the C
library counts and refuses; `gcc` makes it. A run must end with status 7, nothing or a front of the report put, and a
session that is whole or absent; or with the status, session and report of the run that is refused nothing. The design,
and what is judged, must stay as they were, and no other file may be left but the session. The last line is 'N passed,
M failed', and the status is 0 where none failed. It takes some minutes.
"""
import collections
import os
import subprocess
import sys
import tempfile

LIBRARY = r"""
#define _GNU_SOURCE
#include <dlfcn.h>
#include <errno.h>
#include <fcntl.h>
#include <stdatomic.h>
#include <stdlib.h>
#include <unistd.h>

static atomic_ulong asked;
static unsigned long refused;
static const char *mark;
static void *(*next_malloc)(size_t);
static void *(*next_realloc)(void *, size_t);

__attribute__((constructor)) static void start(void) {
    const char *number = getenv("REFUSED_REQUEST");
    next_malloc = dlsym(RTLD_NEXT, "malloc");
    next_realloc = dlsym(RTLD_NEXT, "realloc");
    mark = getenv("REFUSED_MARK");
    atomic_store(&asked, 0);
    refused = number ? strtoul(number, 0, 10) : 0;
}

static int refuses(void) {
    if (!refused || atomic_fetch_add(&asked, 1) + 1 != refused) return 0;
    if (mark) close(open(mark, O_CREAT | O_WRONLY, 0600));
    errno = ENOMEM;
    return 1;
}

void *malloc(size_t size) {
    if (!next_malloc) next_malloc = dlsym(RTLD_NEXT, "malloc");
    return refuses() ? 0 : next_malloc(size);
}

void *realloc(void *old, size_t size) {
    if (!next_realloc) next_realloc = dlsym(RTLD_NEXT, "realloc");
    return refuses() ? 0 : next_realloc(old, size);
}
"""

FACING = """(pcb T
  (parser (string_quote ") (host_cad KiCad) (host_version 8))
  (resolution um 10)
  (unit um)
  (structure
    (layer F.Cu (type signal))
    (layer B.Cu (type signal))
    (boundary (rect pcb 0 0 10000 10000))
    (via V)
    (rule (width 200) (clearance 200)))
  (placement (component P
    (place C1 2000 5000 front 0)
    (place C2 8000 5000 front 0)))
  (library
    (image P (pin PAD 1 0 0))
    (padstack PAD (shape (circle F.Cu 1000)))
    (padstack V (shape (circle F.Cu 600)) (shape (circle B.Cu 600))))
  (network (net A (pins C1-1 C2-1)))
  (wiring))
"""

# two nets that cross on one layer
with open(os.path.join(os.path.dirname(os.path.abspath(__file__)), "u.dsn"), encoding="ascii") as read:
    CROSSING = read.read()

REFUSED = CROSSING.replace("(net B (pins", "(net A (pins")

NONE_TRIED = "--grid 1000 --workers 1 --passes 1 --tries 0"

# a design, the words, the status of the run that is refused nothing, and the options by which the session and the
# report are made that are there before
ROWS = [
    ("two pins that face each other", FACING, "route in.dsn out.ses --grid 1000 --workers 1 --passes 1", 0, None),
    ("two nets that cross, one pass", CROSSING, "route in.dsn out.ses " + NONE_TRIED, 1, None),
    ("the same with settled moves", CROSSING, "route in.dsn out.ses --grid 1000 --workers 1 --passes 1", 0, None),
    ("two nets that cross, three passes", CROSSING, "route in.dsn out.ses --grid 1000 --workers 1 --passes 3", 0, None),
    ("a design that is refused", REFUSED, "route in.dsn out.ses --grid 1000", 3, None),
    ("a session over its own design", FACING, "route in.dsn in.dsn --grid 1000", 2, None),
    ("a check of two nets, one of them open", CROSSING, "check in.dsn out.ses out.txt", 0, NONE_TRIED),
]

WANTING = 7


def held(name):
    """The bytes of a file, where there is one."""
    if not os.path.exists(name):
        return None
    with open(name, "rb") as read:
        return read.read()


def put(name, content):
    with open(name, "wb") as out:
        out.write(content)


def made(program, text, options):
    """The files of a run: the design, its session and its report; the design alone where there are no options."""
    design = {"in.dsn": text.encode("ascii")}
    if options is None:
        return design
    with tempfile.TemporaryDirectory() as folder:
        put(os.path.join(folder, "in.dsn"), design["in.dsn"])
        words = [program, "route", "in.dsn", "out.ses"] + options.split()
        report = subprocess.run(words, cwd=folder, capture_output=True, timeout=120, check=False).stdout
        return dict(design, **{"out.ses": held(os.path.join(folder, "out.ses")), "out.txt": report})


def run(program, library, words, files, number):
    """What a run leaves of which this request is refused: status, report, session; whether it was; what it harmed."""
    with tempfile.TemporaryDirectory() as folder, tempfile.TemporaryDirectory() as beside:
        for name, content in files.items():
            put(os.path.join(folder, name), content)
        mark = os.path.join(beside, "mark")
        given = dict(os.environ, LD_PRELOAD=library, REFUSED_REQUEST=str(number), REFUSED_MARK=mark)
        done = subprocess.run([program] + words.split(), cwd=folder, env=given, capture_output=True, timeout=120,
                              check=False)
        harmed = sorted(set(os.listdir(folder)) - set(files) - {"out.ses"})
        harmed += [name for name in files if held(os.path.join(folder, name)) != files[name]]
        return (done.returncode, done.stdout, held(os.path.join(folder, "out.ses"))), os.path.exists(mark), harmed


def fault(left, own):
    """What is wrong with what a run left, or nothing."""
    if left == own:
        return None
    status, report, session = left
    if status != WANTING:
        return "status %d, and neither the run's own result nor want of memory" % status
    if session is None:
        return "a report and no session" if report else None
    if session != own[2]:
        return "a session that isn't whole"
    return None if own[1].startswith(report) else "a report that is no front of its own"


def tried(program, library, row):
    """How many runs there were, of each status how many, and what was wrong."""
    name, text, words, status, before = row
    files = made(program, text, before)
    own, _, _ = run(program, library, words, files, 0)
    wrong = [] if own[0] == status else ["%s: status %d and not %d" % (name, own[0], status)]
    counted = collections.Counter()
    number = 1
    while True:
        left, was_refused, harmed = run(program, library, words, files, number)
        if not was_refused:
            break
        counted[left[0]] += 1
        why = "harmed: %s" % ", ".join(harmed) if harmed else fault(left, own)
        if why:
            wrong.append("%s, request %d: %s" % (name, number, why))
        number += 1
    return number - 1, counted, wrong


def made_library(folder):
    source = os.path.join(folder, "refuse.c")
    library = os.path.join(folder, "refuse.so")
    with open(source, "w", encoding="ascii") as out:
        out.write(LIBRARY)
    subprocess.run(["gcc", "-shared", "-fPIC", "-O1", "-o", library, source, "-ldl"], check=True)
    return library


def main(words):
    if len(words) != 1:
        sys.exit(__doc__)
    passed = failed = 0
    with tempfile.TemporaryDirectory() as folder:
        library = made_library(folder)
        for row in ROWS:
            count, counted, wrong = tried(os.path.abspath(words[0]), library, row)
            told = ", ".join("%d with status %d" % (counted[k], k) for k in sorted(counted))
            print("%s: %d requests refused one by one: %s" % (row[0], count, told))
            for line in wrong:
                print("  " + line)
            failed += len(wrong)
            passed += count - len(wrong)
    print("%d passed, %d failed" % (passed, failed))
    return 1 if failed else 0


sys.exit(main(sys.argv[1:]))
