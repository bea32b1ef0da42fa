"""How tools/minutes watches, and the table that it makes."""

import os
import pathlib
import subprocess
import sys
import tempfile
import unittest

from comparing import program_of

minutes = program_of("tools/minutes")

CRATES = """low: std
middle: low
high: middle
"""
# A check of a crate, and what it is by its words: it takes two tenths of a second of a processor in a copy of itself.
BUSY = """import os, time
if os.fork() == 0:
    while time.process_time() < 0.2:
        pass
    os._exit(0)
os.wait()
time.sleep(1)
"""


class Watching(unittest.TestCase):
    def test_a_check_counts_with_its_copies(self):
        with tempfile.TemporaryDirectory() as folder:
            tool = pathlib.Path(folder) / "rattle"
            tool.symlink_to(os.path.realpath(sys.executable))
            words = [tool, "-c", BUSY, "check", "--crate-name", "low", "--test"]
            watch = minutes.Watch(os.getpid())
            with subprocess.Popen(words, cwd=folder) as started:
                while started.poll() is None:
                    watch.look()
        found = watch.minutes()
        self.assertEqual(list(found), ["low"])
        self.assertGreaterEqual(found["low"]["tests"] * 60, 0.15)
        self.assertEqual((found["low"]["proof"], found["low"]["edits"]), (0, 0))

    def test_lines_can_be_read_again(self):
        crates = {"low": {"proof": 1.25, "tests": 0, "edits": 2}}
        lines = list(minutes.lines_of(crates, 4))
        self.assertEqual(minutes.LINE.findall("\n".join(lines)), [("low", "1.2", "0.0", "2.0")])
        self.assertTrue(lines[1].startswith("minutes in all: 4.0, of which proof 1.2, tests 0.0, edits 2.0;"))


class Table(unittest.TestCase):
    def test_crates_above(self):
        self.assertEqual(minutes.above(CRATES), {"low": {"middle", "high"}, "middle": {"high"}, "high": set()})

    def test_rows(self):
        log = "== low\nminutes high: proof 3.0, tests 1.0, edits 2.0\nminutes low: proof 1.0, tests 0.0, edits 0.5\n"
        self.assertEqual(list(minutes.table(log, CRATES))[2:], [
            "| `low` | 1.0 | 0.0 | 0.5 | 2 | 8 |",
            "| `high` | 3.0 | 1.0 | 2.0 | 0 | 6 |",
            "| all | 4 | 1 | 2 | | 8 |"])


if __name__ == "__main__":
    unittest.main()
