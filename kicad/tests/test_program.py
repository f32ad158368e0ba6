"""Finding and running the program, with small scripts in its place."""
import os
import stat
import sys
import tempfile
import threading
import time
import unittest
from pathlib import Path
from typing import List

from dsnroute_kicad.program import Outcome, ProgramFault, Run, find_program


@unittest.skipIf(sys.platform == "win32", "the scripts are for a shell")
class Programs(unittest.TestCase):
    def setUp(self) -> None:
        held = tempfile.TemporaryDirectory()
        self.addCleanup(held.cleanup)
        self.folder = Path(held.name)

    def script(self, text: str, mode: int = 0o755) -> Path:
        path = self.folder / "dsnroute"
        path.write_text("#!/bin/sh\n" + text)
        path.chmod(mode)
        return path

    def play(self, words: List[str], cancel_after: float = -1) -> Outcome:
        outcomes: List[Outcome] = []
        ended = threading.Event()
        self.lines: List[str] = []

        def end(outcome: Outcome) -> None:
            outcomes.append(outcome)
            ended.set()

        run = Run(words, self.folder, self.lines.append, end)
        if cancel_after >= 0:
            time.sleep(cancel_after)
            run.cancel()
        self.assertTrue(ended.wait(20))
        self.assertFalse(os.path.exists(f"/proc/{run.pid}"))
        self.assertEqual(len(outcomes), 1)
        return outcomes[0]

    def test_found(self) -> None:
        path = self.script("", 0o644)
        self.assertEqual(find_program("", self.folder), path)
        self.assertTrue(path.stat().st_mode & stat.S_IXUSR, "the run bit wasn't set")
        self.assertEqual(find_program(str(path), Path("/nowhere")), path)

    def test_not_found(self) -> None:
        for setting in (str(self.folder / "none"), str(self.folder)):
            with self.assertRaises(ProgramFault):
                find_program(setting, self.folder)

    def test_outcome(self) -> None:
        outcome = self.play([str(self.script('echo report; echo "mode $DSNROUTE_PROGRESS" >&2; exit 1'))])
        self.assertEqual((outcome.status, outcome.report, outcome.lines), (1, b"report\n", ["mode 1"]))
        self.assertTrue(outcome.is_routed)
        self.assertEqual(self.lines, ["mode 1"])

    def test_much_output(self) -> None:
        """A program that fills both of its outputs doesn't wait for ever."""
        outcome = self.play([str(self.script("yes report | head -c 300000; yes line | head -c 300000 >&2; exit 3"))])
        self.assertEqual((outcome.status, len(outcome.report), len(outcome.lines)), (3, 300_000, 60_000))
        self.assertFalse(outcome.is_routed)

    def test_cancelled(self) -> None:
        since = time.monotonic()
        outcome = self.play([str(self.script("exec sleep 60"))], cancel_after=0.2)
        self.assertIsNone(outcome.status)
        self.assertLess(time.monotonic() - since, 10)

    def test_cancelled_late(self) -> None:
        """A program that has ended before isn't cancelled any more."""
        self.assertEqual(self.play([str(self.script("exit 0"))], cancel_after=1.0).status, 0)

    def test_no_program(self) -> None:
        path = self.folder / "broken"
        path.write_bytes(b"\x7fELF but not quite")
        path.chmod(0o755)
        for words in ([str(self.folder / "none")], [str(path)]):
            with self.assertRaisesRegex(ProgramFault, "can't be started"):
                Run(words, self.folder, lambda line: None, lambda outcome: None)


if __name__ == "__main__":
    unittest.main()
