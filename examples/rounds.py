#!/usr/bin/env python3
"""Routes a design again and again, each time from the session of the round before.

    rounds.py PROGRAM DESIGN [ROUNDS [WORD ..]]

For each round it prints how many items of the earlier session were dropped, the commits of the passes, the joins of the
closing pass, the connections that stay open, and whether the session is that of the round before, byte for byte. It
ends with status 1 where something was dropped, or where a round left more connections open than the one before.
"""
import os
import subprocess
import sys
import tempfile


def number_of(report, head):
    """The number of the report's line that begins with that word."""
    return next(int(line.split()[1]) for line in report.splitlines() if line.split()[0] == head)


def commits_of(report):
    """The commits of all passes."""
    return sum(int(line.split()[3]) for line in report.splitlines() if line.split()[0] == "pass")


def open_connections(report):
    """The cuts, one an island, less one for each net that is open."""
    cuts = sum(line.split()[0] == "cut" for line in report.splitlines())
    return cuts - int(report.split()[-1])


def main():
    program, design = os.path.abspath(sys.argv[1]), os.path.abspath(sys.argv[2])
    rounds = int(sys.argv[3]) if len(sys.argv) > 3 else 10
    words, status, last = sys.argv[4:], 0, None
    with tempfile.TemporaryDirectory() as room:
        for number in range(1, rounds + 1):
            old, new = (os.path.join(room, f"{n}.ses") for n in (number - 1, number))
            start = [] if number == 1 else ["--from", old]
            run = subprocess.run([program, "route", design, new, *words, *start], capture_output=True, text=True)
            if run.returncode not in (0, 1):
                sys.exit(f"round {number}: status {run.returncode}: {run.stdout}{run.stderr}")
            dropped, joins = number_of(run.stdout, "dropped"), number_of(run.stdout, "joins")
            left = open_connections(run.stdout)
            same = number > 1 and open(old, "rb").read() == open(new, "rb").read()
            print(f"round {number}: dropped {dropped} commits {commits_of(run.stdout)} joins {joins} open {left}"
                  f" same {same}")
            if number > 1 and (dropped > 0 or left > last):
                status = 1
            last = left
    return status


sys.exit(main())
