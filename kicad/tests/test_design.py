"""Which item a number of the report means, and the design without its free wiring."""
import unittest

from dsnroute_kicad.brackets import TextFault
from dsnroute_kicad.design import Design, Item

SMALL = b"""(pcb board
  (parser (string_quote "))
  (resolution um 10)
  (unit um)
  (structure
    (layer F.Cu (type signal))
    (boundary (rect pcb 0 0 10000 10000))
    (keepout "" (circle F.Cu 300 5 5))
    (keepout (rect F.Cu 0 0 1 1))
    (rule (width 250) (clearance 200.1) (clearance 50 (type smd_smd))))
  (placement
    (component P (place C1 1 2 front 0) (place C2))
    (component Q (place "R 1" 1 2 front 0)))
  (library
    (image P (pin PAD 1 0 0) (pin PAD (rotate 90) 2 0 0))
    (image Q (keepout k (rect F.Cu 0 0 1 1)) (pin PAD A 0 0)))
  (network (net N (pins C1-1 "R 1-A")) (net 5 (pins C1-2)))
  (wiring
    (wire (path F.Cu 250 0 0 10.5 0) (net N) (type route))
    (wire (path F.Cu 250 0 0 20 0 20 -20) (net N) (type fix))
    (via V 0 0 (net 5) (type route))
    (wire (path F.Cu 250 0 0 30 0))
    (wire (path F.Cu 250 0 0 40 0) (net 5) (type protect))))
"""
FIRST = [Item("edge"), Item("keepout"), Item("keepout"), Item("pad", "C1", "1", "N"), Item("pad", "C1", "2", "5"),
         Item("keepout", "R 1"), Item("pad", "R 1", "A", "N"), Item("locked wire", net="N"), Item("locked wire"),
         Item("locked wire", net="5")]


class Designs(unittest.TestCase):
    def test_items(self) -> None:
        design = Design(SMALL)
        self.assertEqual(design.items(()), FIRST + [Item("kept wire", net="N"), Item("kept via", net="5")])
        self.assertEqual(design.items({SMALL.index(b"(wire")}), FIRST + [Item("kept via", net="5")])

    def test_numbers(self) -> None:
        design = Design(SMALL)
        self.assertEqual((design.nets, design.clearance()), (2, 200_100))
        wires = design.wires()
        self.assertEqual([wire.is_fixed for wire in wires], [False, True, True, True])
        self.assertEqual(wires[0].points, ((0, 0), (10_500, 0)))
        self.assertEqual(wires[1].points, ((0, 0), (20_000, 0), (20_000, -20_000)))

    def test_anew(self) -> None:
        text = Design(SMALL).without_free_wiring()
        self.assertEqual(Design(text).items(()), FIRST)
        self.assertEqual(Design(text).without_free_wiring(), text)

    def test_spoilt(self) -> None:
        for old, new in ((b"(unit um)", b"(unit ell)"), (b"10.5", b"ten"), (b"F.Cu 250 0 0 40 0", b"F.Cu")):
            with self.subTest(new):
                with self.assertRaises(TextFault):
                    Design(SMALL.replace(old, new)).wires()


if __name__ == "__main__":
    unittest.main()
