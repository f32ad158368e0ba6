"""The end in plain words."""
import unittest

from dsnroute_kicad.design import Design, Item
from dsnroute_kicad.program import Outcome
from dsnroute_kicad.report import Blocker, Cut, NetLine, Report
from dsnroute_kicad.telling import OpenPart, counted_more, failure, headline, open_parts, reason

ITEMS = [Item("edge"), Item("keepout"), Item("keepout", "U1"), Item("pad", "R1", "2", "GND"), Item("pad", "R1", "1"),
         Item("locked wire", net="A"), Item("kept via", net="B")]


def far(net: str, cut: Cut, kind: str, number: int) -> list:
    return []


def told(*blockers: Blocker, reached: int = 9) -> str:
    return reason(OpenPart("A", Cut("C1-1", reached, 5, list(blockers))), ITEMS, far)


class Telling(unittest.TestCase):
    def test_headline(self) -> None:
        whole, two, three = NetLine("A", 1), NetLine("B", 2), NetLine("C", 3)
        self.assertEqual(headline(Report(nets=[whole])), "The net is complete.")
        self.assertEqual(headline(Report(nets=[whole, whole])), "All 2 nets are complete.")
        self.assertEqual(headline(Report(nets=[two])), "1 connection of 1 net stayed open; 0 nets are complete.")
        self.assertEqual(headline(Report(nets=[whole, two, three])),
                         "3 connections of 2 nets stayed open; 1 net is complete.")

    def test_counted_more(self) -> None:
        report = Report(nets=[NetLine("A", 1), NetLine("B", 2)])
        self.assertEqual([counted_more(report, 0), counted_more(report, 1)], [[], []])
        self.assertIn("counts 2 unconnected items more", counted_more(report, 3)[0])

    def test_blockers(self) -> None:
        for blockers, text in (
            ([Blocker("area", 0), Blocker("outside", None)], "the edge of the board"),
            ([Blocker("area", 1), Blocker("area", 2)], "a rule area or hole, a rule area of U1"),
            ([Blocker("smd", 3), Blocker("pin", 4)], "pad 2 of R1 (GND), pad 1 of R1 (no net)"),
            ([Blocker("wire", 5), Blocker("via", 6)], "a locked track of A, a kept via of B"),
            ([Blocker("wire", 7), Blocker("wire", 8), Blocker("via", 9)], "2 routed tracks, 1 routed via"),
        ):
            with self.subTest(text):
                self.assertTrue(told(*blockers).endswith("in the way: " + text), told(*blockers))

    def test_another_kind(self) -> None:
        """A number whose item is of another kind than the report says isn't named."""
        self.assertIn("1 routed track", told(Blocker("wire", 3)))

    def test_near(self) -> None:
        part = OpenPart("A", Cut("C1-1", 9, 5, [Blocker("wire", 7), Blocker("via", 9), Blocker("wire", 8)]))
        asked = []

        def near(*words: object) -> list:
            asked.append(words)
            return ["X", "Y"] if words[2] == "wire" else []

        self.assertTrue(reason(part, ITEMS, near).endswith("2 routed tracks (nearest: X, Y), 1 routed via"))
        self.assertEqual(asked, [("A", part.cut, "wire", 2), ("A", part.cut, "via", 1)])

    def test_no_place(self) -> None:
        self.assertTrue(told(Blocker("smd", 3), reached=0).startswith("no track of the net's width"))

    def test_least_part_first(self) -> None:
        cuts = [Cut("C1-1", 99, 1), Cut("C2-1", 3, 1)]
        parts = open_parts(Report(nets=[NetLine("A", 2, cuts)]))
        self.assertEqual([part.pin for part in parts], ["C2-1", "C1-1"])

    def test_failure(self) -> None:
        outcome = Outcome(3, b"refused 10 at 9\n", ["/tmp/a:b/board.dsn:2:4: refused: too large (refusal 10)"])
        text = failure(outcome, b"(pcb\n  (place R1 900000 0)\n)")
        self.assertIn("refuses the design", text)
        self.assertIn("too large (refusal 10)", text)
        self.assertIn("Line 2 of the design: (place R1 900000 0)", text)
        self.assertIn("limit nodes 99", failure(Outcome(6, b"limit nodes 99\n", []), b""))
        self.assertIn("status -11", failure(Outcome(-11, b"", []), b""))
        told = failure(Outcome(7, b"", ["dsnroute: pass 1, 9 offers answered, 3 s", "dsnroute: no memory"]), b"")
        self.assertIn("no memory", told)
        self.assertNotIn("pass 1", told)
        self.assertNotIn("Line", failure(Outcome(3, b"", ["board.dsn:9:1: refused"]), b"(pcb"))

    def test_of_a_design(self) -> None:
        """The numbers of a report and the items of its design go together."""
        text = (b"(pcb b (resolution um 10)"
                b" (structure (layer F.Cu) (boundary (rect pcb 0 0 9 9)) (keepout (rect F.Cu 0 0 1 1)))"
                b" (placement (component P (place C1 1 1 front 0))) (library (image P (pin PAD 1 0 0)))"
                b" (network (net A (pins C1-1))))")
        part = OpenPart("A", Cut("C1-1", 1, 1, [Blocker("area", 1), Blocker("smd", 2)]))
        text = reason(part, Design(text).items(()), far)
        self.assertTrue(text.endswith("a rule area or hole, pad 1 of C1 (A)"), text)


if __name__ == "__main__":
    unittest.main()
