"""The lattice of a report, and the routed tracks near a part that is shut in."""
import unittest

from dsnroute_kicad.design import Design
from dsnroute_kicad.report import Cut, Report, Stretch
from dsnroute_kicad.session import read_session
from dsnroute_kicad.surroundings import Lattice, Surroundings, make_lattice, nearest_nets, routed_chains

DESIGN = Design(b"""(pcb T (resolution um 10) (unit um)
  (structure (layer F.Cu (type signal)) (layer In1.Cu (type power)) (layer B.Cu (type signal))
    (boundary (rect pcb 0 0 10000 10000)))
  (wiring (wire (path F.Cu 200 1000 1000 9000 1000) (net K) (type route))))""")
SESSION = read_session(b"""(session T (routes (resolution um 10)
  (library_out (padstack V (shape (circle F.Cu 6000)) (shape (circle B.Cu 6000))))
  (network_out
    (net K (wire (path F.Cu 2000 90000 10000 10000 10000)))
    (net NEAR (wire (path F.Cu 2000 10000 40000 90000 40000)) (via V 50000 40000))
    (net FAR (wire (path F.Cu 2000 10000 80000 90000 80000)))
    (net UNDER (wire (path B.Cu 2000 10000 20000 90000 20000)))
    (net OWN (wire (path F.Cu 2000 10000 30000 20000 30000))))))""")
PADS = [(2_000_000, 5_000_000), (8_000_049, 5_000_050)]
CUT = Cut("C1-1", 3, 5, [], [Stretch(0, 1, 2, 4)])


class Nearby(unittest.TestCase):
    def lattice(self) -> Lattice:
        lattice = make_lattice(DESIGN, PADS, 1_000_000, 100)
        assert lattice is not None
        return lattice

    def test_lattice(self) -> None:
        """The lines of the small board of the format page, and one through a pad off the grid in y."""
        lattice = self.lattice()
        self.assertEqual(lattice.xs, [step * 1_000_000 for step in range(1, 10)])
        self.assertEqual(lattice.ys, sorted(lattice.xs + [5_000_100]))
        self.assertEqual((lattice.layers, lattice.nodes), (["F.Cu", "B.Cu"], 9 * 10 * 2))
        whole = make_lattice(DESIGN, PADS[:1], 1_000_000, 100)
        self.assertEqual(whole and whole.nodes, 162)

    def test_routed(self) -> None:
        """A wire of the design isn't routed, whichever way the session prints it."""
        self.assertEqual([(chain.net, chain.kind) for chain in routed_chains(SESSION, DESIGN)],
                         [("NEAR", "wire"), ("FAR", "wire"), ("UNDER", "wire"), ("OWN", "wire"), ("NEAR", "via")])

    def test_nearest(self) -> None:
        chains = routed_chains(SESSION, DESIGN)
        self.assertEqual(nearest_nets("OWN", CUT, "wire", 1, self.lattice(), chains), ["NEAR"])
        self.assertEqual(nearest_nets("OWN", CUT, "wire", 2, self.lattice(), chains), ["FAR", "NEAR"])
        self.assertEqual(nearest_nets("OWN", CUT, "wire", 9, self.lattice(), chains), ["FAR", "NEAR"])
        self.assertEqual(nearest_nets("OWN", CUT, "via", 1, self.lattice(), chains), ["NEAR"])
        self.assertEqual(nearest_nets("OWN", CUT, "wire", 0, self.lattice(), chains), [])
        self.assertEqual(nearest_nets("OWN", Cut("C1-1", 0, 0), "wire", 1, self.lattice(), chains), [])

    def test_another_lattice(self) -> None:
        """Nothing is said where the nodes aren't the report's."""
        for nodes, nets in ((162, ["NEAR"]), (163, [])):
            near = Surroundings(SESSION, DESIGN, PADS[:1], Report(grid=1_000_000, nodes=nodes))
            self.assertEqual(near.nets_near("OWN", CUT, "wire", 1), nets)


if __name__ == "__main__":
    unittest.main()
