"""Options as words, the fields' texts, and what is remembered of a board."""
import tempfile
import unittest
from pathlib import Path

from dsnroute_kicad.settings import Options, Remembered, Store, grids_to_offer, number_of


class Settings(unittest.TestCase):
    def test_words(self) -> None:
        self.assertEqual(Options().words(), ["--omit-fixed"])
        self.assertEqual(Options(200, 0, 3, 1, False).words(),
                         ["--grid", "200", "--via-cost", "0", "--passes", "3", "--workers", "1"])

    def test_fields(self) -> None:
        self.assertIsNone(number_of("grid", "  "))
        self.assertEqual(number_of("grid", " 100000 "), 100_000)
        for name, text in (("grid", "0"), ("grid", "100001"), ("via_cost", "-1"), ("passes", "100"), ("workers", "17"),
                           ("workers", "1.5"), ("grid", "\u0661")):
            with self.subTest(name=name, text=text):
                with self.assertRaisesRegex(ValueError, "a whole number from"):
                    number_of(name, text)

    def test_coarser_first(self) -> None:
        self.assertEqual(grids_to_offer(Remembered()), [50, 100, 200, 400, 800])
        self.assertEqual(grids_to_offer(Remembered(open=0, grid=100)), [50, 100, 200, 400, 800])
        self.assertEqual(grids_to_offer(Remembered(open=2, grid=100)), [200, 400, 50, 100, 800])
        self.assertEqual(grids_to_offer(Remembered(open=2, grid=60_000)), [50, 100, 200, 400, 800])

    def test_store(self) -> None:
        with tempfile.TemporaryDirectory() as folder:
            store = Store(Path(folder) / "deep" / "file.json")
            self.assertEqual((store.of_board("a"), store.program), (Remembered(), ""))
            kept = Remembered(Options(200, None, 3, 1, False, True), 5, 100)
            store.remember("a", kept)
            store.program = "/bin/true"
            again = Store(store.path)
            self.assertEqual((again.of_board("a"), again.of_board("b")), (kept, Remembered()))
            self.assertEqual(again.program, "/bin/true")

    def test_spoilt_store(self) -> None:
        with tempfile.TemporaryDirectory() as folder:
            path = Path(folder) / "file.json"
            for text in ("", "[1]", "{", '{"boards": 5, "program": 7}', '{"boards": {"a": {"options": {"grid": -1, '
                         '"passes": true, "omit_fixed": 0, "x": 1}, "open": "2"}}}'):
                with self.subTest(text):
                    path.write_text(text)
                    store = Store(path)
                    self.assertEqual((store.of_board("a"), store.program), (Remembered(), ""))
                    store.remember("a", Remembered(open=1, grid=100))
                    self.assertEqual(store.of_board("a").open, 1)

    def test_no_room(self) -> None:
        Store(Path("/dev/null/file.json")).remember("a", Remembered())


if __name__ == "__main__":
    unittest.main()
