"""When a piece of a session and an item of the board are the same copper."""
import unittest

from dsnroute_kicad.matching import Shelf, track_key, via_key, written


class Matching(unittest.TestCase):
    def test_written(self) -> None:
        for length, back in ((112_033_330, 112_033_000), (12_033_340, 12_033_300), (-112_033_330, -112_033_000),
                             (250_000, 250_000), (0, 0), (1_234_567, 1_234_570)):
            with self.subTest(length):
                self.assertEqual(written(length), back)
                self.assertEqual(written(back), back)

    def test_keys(self) -> None:
        a, b = (112_033_330, 0), (5, 7)
        self.assertEqual(track_key("N", "F.Cu", a, b), track_key("N", "F.Cu", b, (112_033_000, 0)))
        self.assertNotEqual(track_key("N", "F.Cu", a, b), track_key("N", "B.Cu", a, b))
        self.assertNotEqual(track_key("N", "F.Cu", a, b), track_key("M", "F.Cu", a, b))
        self.assertEqual(via_key("N", ["F.Cu", "In1.Cu", "B.Cu"], a), via_key("N", ["F.Cu", "B.Cu"], a))
        self.assertNotEqual(via_key("N", ["F.Cu", "B.Cu"], a), via_key("N", ["F.Cu", "In1.Cu"], a))

    def test_shelf(self) -> None:
        key = track_key("N", "F.Cu", (0, 0), (1, 1))
        shelf = Shelf([(key, 250_000, "first"), (key, 250_000, "second"), (key, 400_000, "wide")])
        self.assertTrue(shelf.has(key, 250_400))
        self.assertEqual([shelf.take(key, 250_000) for _ in range(3)], ["first", "second", None])
        self.assertFalse(shelf.has(key, 250_000))
        self.assertEqual(shelf.rest(), ["wide"])


if __name__ == "__main__":
    unittest.main()
