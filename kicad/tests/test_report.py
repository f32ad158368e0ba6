"""The reader of reports, over small ones and spoilt ones, and over those of real boards where they are given.

DSNROUTE_SESSIONS names a folder with reports (.rep), as the program left them.
"""
import os
import re
import unittest
from pathlib import Path

from dsnroute_kicad.report import Blocker, ReportFault, Stretch, read_report

WHOLE = b"""board "K board.dsn"
layers 2 nets 2 pins 8
grid 100000 nodes 298402
dropped 1
drop 2310
notes 1
pass 1 commits 4 open 1
pass 2 commits 2 open 0
kept 2
joins 0
net GND complete
net "Net-(C1-Pad1)" complete
complete 2 open 0
"""
OPEN = b"""board T
layers 2 nets 1 pins 2
grid 1000000 nodes 162
dropped 0
notes 0
pass 1 commits 0 open 1
kept 1
joins 0
net A open 2
cut "C1-1" reached 2 blocked 3
by area 1
by smd 7
by outside
run 0 0 0 3
run 1 8 0 3
cut "C2-1" reached 0 blocked 0
complete 0 open 1
"""
SPOILT = [
    (WHOLE, b'board "K board.dsn"\n', b"", "begins with its board"),
    (WHOLE, b'board "K board.dsn"', b"board", "one board"),
    (WHOLE, b"layers 2 nets 2 pins 8", b"layers 2 nets 2", "isn't whole"),
    (WHOLE, b"layers 2 nets 2 pins 8", b"layers 2 nets 3 pins 8", "first lines"),
    (WHOLE, b"layers 2 nets 2 pins 8", b"layers 2 nets -2 pins 8", "a number is wanted"),
    (WHOLE, b"drop 2310\n", b"", "first lines"),
    (WHOLE, b"pass 2 commits", b"pass 3 commits", "a pass is missing"),
    (WHOLE, b"net GND complete\n", b"", "the nets before"),
    (WHOLE, b"net GND complete", b"net GND", "complete, or open"),
    (WHOLE, b"net GND complete", b"net GND open 2", "a cut for each"),
    (WHOLE, b"complete 2 open 0", b"complete 1 open 1", "the nets before"),
    (WHOLE, b"complete 2 open 0\n", b"", "last line"),
    (WHOLE, b"complete 2 open 0\n", b"complete 2 open 0\nnet C complete\n", "behind the last line"),
    (WHOLE, b"open 0\nkept", b"open 0\n\nkept", "is empty"),
    (OPEN, b"net A open 2\n", b"", "isn't whole"),
    (OPEN, b"net A open 2", b"net A open 1", "two islands"),
    (OPEN, b'cut "C2-1" reached 0 blocked 0\n', b"", "a cut for each"),
    (OPEN, b"blocked 3", b"3", "isn't whole"),
    (OPEN, b"by area 1", b"by zone 1", "no such item"),
    (OPEN, b"run 0 0 0 3", b"run 0 0 0", "isn't whole"),
    (OPEN, b'cut "C1-1" reached 2 blocked 3\nby', b"by", "no cut before"),
]


class Small(unittest.TestCase):
    def test_whole(self) -> None:
        report = read_report(WHOLE)
        self.assertEqual((report.board, report.layers, report.pins, report.grid), ("K board.dsn", 2, 8, 100_000))
        self.assertEqual((report.dropped, report.notes, report.passes), ([2310], 1, [(4, 1), (2, 0)]))
        self.assertEqual([net.name for net in report.nets], ["GND", "Net-(C1-Pad1)"])
        self.assertEqual((report.open_nets, report.open), ([], 0))

    def test_open(self) -> None:
        report = read_report(OPEN)
        first, second = report.nets[0].cuts
        self.assertEqual((report.open, first.pin, first.reached, first.blocked), (1, "C1-1", 2, 3))
        self.assertEqual(first.by, [Blocker("area", 1), Blocker("smd", 7), Blocker("outside", None)])
        self.assertEqual(first.stretches, [Stretch(0, 0, 0, 3), Stretch(1, 8, 0, 3)])
        self.assertEqual((second.pin, second.by), ("C2-1", []))

    def test_more_lines(self) -> None:
        """A later program may say more."""
        more = OPEN.replace(b"complete 0", b"wide 9\ncomplete 0").replace(b"joins 0", b"joins 0\nstarts 6")
        self.assertEqual(read_report(more), read_report(OPEN))

    def test_spoilt(self) -> None:
        for text, old, new, what in SPOILT:
            with self.subTest(new):
                self.assertEqual(text.count(old), 1)
                with self.assertRaisesRegex(ReportFault, what):
                    read_report(text.replace(old, new))

    def test_cut_short(self) -> None:
        for text in (WHOLE, OPEN):
            for length in range(len(text)):
                with self.assertRaises(ReportFault):
                    read_report(text[:length])

    def test_a_byte_lost(self) -> None:
        """A report that lacks a byte is refused, or one word of it is another; no other exception comes."""
        for text in (WHOLE, OPEN):
            for at in range(len(text)):
                try:
                    read_report(text[:at] + text[at + 1:])
                except ReportFault:
                    pass

    def test_status_lines(self) -> None:
        for line in (b"refused 10 at 443\n", b"usage 3\n", b"read fault\n", b"limit nodes 99\n", b""):
            with self.subTest(line):
                with self.assertRaises(ReportFault):
                    read_report(line)


REPORTS = [path for path in sorted(Path(os.environ.get("DSNROUTE_SESSIONS", "/nowhere")).glob("*.rep"))
           if path.stat().st_size]


@unittest.skipUnless(REPORTS, "DSNROUTE_SESSIONS names no folder with reports")
class OfBoards(unittest.TestCase):
    def test_counts(self) -> None:
        for path in REPORTS:
            with self.subTest(path.name):
                text = path.read_bytes()
                report = read_report(text)
                last = re.search(rb"\ncomplete (\d+) open (\d+)\n$", text)
                self.assertEqual(len(report.open_nets), int(last.group(2)))
                self.assertEqual(len(report.nets), int(last.group(1)) + int(last.group(2)))
                cuts = [cut for net in report.nets for cut in net.cuts]
                self.assertEqual(len(cuts), len(re.findall(rb"\ncut ", text)))
                self.assertEqual(sum(len(cut.by) for cut in cuts), len(re.findall(rb"\nby ", text)))
                for cut in cuts:
                    reached = sum(run.last - run.first + 1 for run in cut.stretches)
                    self.assertEqual(reached, cut.reached)


if __name__ == "__main__":
    unittest.main()
