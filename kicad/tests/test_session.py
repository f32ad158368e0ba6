"""The reader of sessions, over a small one and spoilt ones, and over those of real boards where they are given.

DSNROUTE_SESSIONS names a folder with sessions (.ses), each beside its report (.rep), as the program left them.
"""
import os
import re
import unittest
from pathlib import Path

from dsnroute_kicad.brackets import TextFault
from dsnroute_kicad.session import Padstack, Via, Wire, read_session

SMALL = b"""(session T
  (base_design T)
  (placement
    (resolution um 10)
    (component P
      (place C1 20000 50000 front 0)
    )
  )
  (was_is
  )
  (routes
    (resolution um 10)
    (parser
      (host_cad KiCad)
      (host_version 8)
    )
    (library_out
      (padstack "Via[0-1]_800:400_um"
        (shape (circle F.Cu 8000 0 0))
        (shape (circle B.Cu 8000 0 0))
        (attach off)
      )
    )
    (network_out
      (net 5
        (wire (path F.Cu 2000 20000 50000 80000 50000 80000 -7))
        (via "Via[0-1]_800:400_um" 80000 -7)
      )
      (net "Net-(C1-Pad1)"
        (wire (path B.Cu 2500 0 0 1 0))
      )
    )
  )
)
"""
SPOILT = [
    (b"(session T", b"(sessions T", "isn't a session"),
    (b"(routes", b"(router", "no routes"),
    (b"(was_is", b"(routes (resolution um 10) (network_out)) (was_is", "second routes"),
    (b"    (resolution um 10)\n    (parser", b"    (parser", "no resolution"),
    (b"(resolution um 10)\n    (parser", b"(resolution ft 10)\n    (parser", "a unit"),
    (b"(resolution um 10)\n    (parser", b"(resolution um 0)\n    (parser", "above 0"),
    (b"(resolution um 10)\n    (parser", b"(resolution um)\n    (parser", "a unit"),
    (b"(network_out", b"(network_in", "no network_out"),
    (b"(net 5", b"(net", "one name"),
    (b"(net 5", b"(nets 5", "one name"),
    (b"(path F.Cu 2000", b"(path F.Cu wide", "a number is wanted"),
    (b"(path F.Cu 2000", b"(path F.Cu 0", "above 0"),
    (b"(path F.Cu 2000", "(path F.Cu \u0662000".encode(), "a number is wanted"),
    (b"(path F.Cu 2000 20000 50000 80000 50000 80000 -7)", b"(path F.Cu 2000 20000 50000 80000)", "no partner"),
    (b"(path F.Cu 2000 20000 50000 80000 50000 80000 -7)", b"(path F.Cu 2000 20000 50000)", "two points"),
    (b"(path F.Cu 2000 20000 50000 80000 50000 80000 -7)", b"(path F.Cu)", "a layer and a width"),
    (b"(path F.Cu 2000", b"(polygon F.Cu 2000", "one path"),
    (b"(path F.Cu 2000", b"(path F.Cu 99999999999999", "too great"),
    (b"(wire (path B.Cu", b"(wires (path B.Cu", "isn't a wire or via"),
    (b'(via "Via[0-1]_800:400_um" 80000 -7)', b'(via "Via[0-1]_800:400_um" 80000)', "a padstack and a place"),
    (b'(via "Via[0-1]_800:400_um" 80000 -7)', b"(via V 80000 -7)", "isn't in the session"),
    (b"(shape (circle B.Cu 8000 0 0))", b"", "two layers"),
    (b"(circle B.Cu 8000 0 0)", b"(circle B.Cu)", "a diameter"),
    (b"(library_out", b'(library_out (padstack "Via[0-1]_800:400_um")', "second padstack"),
]


class Small(unittest.TestCase):
    def test_read(self) -> None:
        session = read_session(SMALL)
        padstack = Padstack("Via[0-1]_800:400_um", ("F.Cu", "B.Cu"), 800_000)
        self.assertEqual(session.wires, (
            Wire("5", "F.Cu", 200_000, ((2_000_000, 5_000_000), (8_000_000, 5_000_000), (8_000_000, -700))),
            Wire("Net-(C1-Pad1)", "B.Cu", 250_000, ((0, 0), (100, 0)))))
        self.assertEqual(session.vias, (Via("5", padstack, (8_000_000, -700)),))
        self.assertEqual(padstack.drill, 400_000)

    def test_scales(self) -> None:
        for scale, nanometres in ((b"um 1000", 2_000), (b"mm 1000", 2_000_000), (b"mil 100", 508_000),
                                  (b"inch 1000", 50_800_000)):
            with self.subTest(scale):
                text = SMALL.replace(b"(resolution um 10)\n    (parser", b"(resolution " + scale + b")\n    (parser")
                self.assertEqual(read_session(text).wires[0].width, nanometres)

    def test_drills(self) -> None:
        for name, drill in (("Via[0-1]_1200:600_um", 600_000), ("Via[0-3]_685.8:330.2_um", 330_200), ("V", None),
                            ("Via[0-1]_600_um", None)):
            with self.subTest(name):
                self.assertEqual(Padstack(name, (), 0).drill, drill)

    def test_spoilt(self) -> None:
        for old, new, what in SPOILT:
            with self.subTest(new):
                self.assertEqual(SMALL.count(old), 1)
                with self.assertRaisesRegex(TextFault, what):
                    read_session(SMALL.replace(old, new))

    def test_cut_short(self) -> None:
        whole = SMALL.rstrip()
        for length in range(len(whole)):
            with self.assertRaises(TextFault):
                read_session(whole[:length])

    def test_a_byte_lost(self) -> None:
        """A session that lacks a byte is refused, or one word of it is another; no other exception comes."""
        for at in range(len(SMALL)):
            try:
                read_session(SMALL[:at] + SMALL[at + 1:])
            except TextFault:
                pass


SESSIONS = sorted(Path(os.environ.get("DSNROUTE_SESSIONS", "/nowhere")).glob("*.ses"))


@unittest.skipUnless(SESSIONS, "DSNROUTE_SESSIONS names no folder with sessions")
class OfBoards(unittest.TestCase):
    def test_counts(self) -> None:
        for path in SESSIONS:
            with self.subTest(path.name):
                text = path.read_bytes()
                session = read_session(text)
                self.assertEqual(len(session.wires), len(re.findall(rb"\(wire \(path ", text)))
                self.assertEqual(len(session.vias), len(re.findall(rb"\n *\(via ", text)))
                self.assertTrue(session.wires)

    def test_numbers(self) -> None:
        """Written again, the wires and vias are those of the text, byte for byte."""
        for path in SESSIONS:
            with self.subTest(path.name):
                text = path.read_bytes()
                count = int(re.search(rb"\(routes\s+\(resolution um (\d+)\)", text).group(1))
                unit = 1000 // count
                session = read_session(text)
                wires = ["%s %d %s" % (_printed(wire.layer), wire.width // unit,
                                       " ".join(f"{x // unit} {y // unit}" for x, y in wire.points))
                         for wire in session.wires]
                vias = ["%s %d %d" % (_printed(via.padstack.name), via.at[0] // unit, via.at[1] // unit)
                        for via in session.vias]
                self.assertEqual(wires, re.findall(r"\(wire \(path ([^)]*)\)\)", text.decode()))
                self.assertEqual(vias, re.findall(r"\n *\(via ([^)]*)\)\n", text.decode()))

    def test_cut_short(self) -> None:
        for path in SESSIONS:
            with self.subTest(path.name):
                text = path.read_bytes().rstrip()
                for part in range(1, 8):
                    with self.assertRaises(TextFault):
                        read_session(text[:len(text) * part // 8])


def _printed(name: str) -> str:
    return name if re.fullmatch(r"[A-Za-z0-9_.+/:\[\]~*]+", name) else f'"{name}"'


if __name__ == "__main__":
    unittest.main()
