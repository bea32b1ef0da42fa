"""How tools/prove follows what rt prints, with an rt that proves nothing."""

import contextlib
import io
import os
import pathlib
import tempfile
import unittest
from unittest import mock

from comparing import program_of

prove = program_of("tools/prove")

PROVED = "logic=proved functions=3\n"
RT = """#!/bin/sh
if [ "$1" = all ]; then
    printf '== low\\nfn a: proved\\n%b== rvgprof_main\\n%b== summary\\nlow: ok\\nrvgprof_main: %s\\n' '{proved}' '{high}' '{verdict}'
    touch "proved by $*"
    exit {status}
fi
touch "built by $*"
"""


def progress(said):
    """The progress of three crates, at a clock that goes on by half a minute with each look."""
    clock = iter(range(0, 100_000, 30))
    crates = prove.crates_of("low: std\nmiddle: low\n# a comment\nhigh: low middle\n")
    return prove.Progress(crates, {"low": 50, "middle": 30, "high": 20}, said.append, lambda: next(clock))


class Choosing(unittest.TestCase):
    def test_only_what_the_program_stands_on_is_proved(self):
        crates = {"low": [], "middle": ["low"], "program": ["middle", "low"], "beside": ["low"], "tests": ["program"]}
        self.assertEqual(list(prove.with_below("program", crates)), ["low", "middle", "program"])


class Following(unittest.TestCase):
    def test_each_crate_that_ends_is_told_with_what_is_left(self):
        said = []
        prove.follow(["== low\n", "fn a: proved\n", PROVED, "== middle\n", "== high\n", PROVED], progress(said))
        self.assertEqual(said, [
            "low is proved; 1 of 3 crates after 30 s, some 50 % of the work is left",
            "middle is proved; 2 of 3 crates after 1 min 0 s, some 20 % of the work is left",
            "high is proved; 3 of 3 crates after 1 min 30 s, some 0 % of the work is left"])

    def test_what_a_crate_is_refused_for_is_told(self):
        said, wrong = [], ["src/lib.rt:3:1: error: x\n", "logic=not-proved\n"]
        rest = prove.follow(["== low\n", *wrong, "== summary\n", "low: failed (1)\n", "high: ok\n"], progress(said))
        self.assertEqual(said[0], "src/lib.rt:3:1: error: x\nlogic=not-proved")
        self.assertTrue(said[1].startswith("low is NOT proved"))
        self.assertEqual(rest, "low: failed (1)\n")

    def test_a_long_wait_is_told(self):
        said = []
        it = progress(said)
        it.waits()
        self.assertEqual(said, [])
        it.waits()
        far = "0 of 3 crates after 1 min 30 s, some 100 % of the work is left"
        self.assertEqual(said, [f"being proved or next: low; {far}"])


class Running(unittest.TestCase):
    def run_with(self, high, verdict, status):
        """What it prints and how it ends with this rt in place of the kit's."""
        with tempfile.TemporaryDirectory() as folder:
            top = pathlib.Path(folder)
            (top / "crates/rvgprof_main").mkdir(parents=True)
            (top / "crates.txt").write_text("low:\nrvgprof_main: low\ntest_low: low\n")
            proved = PROVED.replace("\n", "\\n")
            (top / "rt").write_text(RT.format(proved=proved, high=high, verdict=verdict, status=status))
            (top / "rt").chmod(0o755)
            path = {"PATH": f"{folder}:{os.environ['PATH']}"}
            printed, main = io.StringIO(), top / "crates/rvgprof_main"
            with mock.patch.multiple(prove, TOP=top, MAIN=main), mock.patch.dict(os.environ, path):
                with contextlib.redirect_stdout(printed), self.assertRaises(SystemExit) as ended:
                    prove.main(["--jobs", "2"])
            return printed.getvalue(), ended.exception.code, sorted(os.listdir(main))

    def test_the_program_is_built_once_all_is_proved(self):
        printed, status, made = self.run_with(PROVED.replace("\n", "\\n"), "ok", 0)
        self.assertEqual((status, made), (0, ["built by run -- --version", "proved by all check --jobs 2"]))
        self.assertIn("proving 2 crates, 2 at a time\n", printed)
        self.assertIn("rvgprof_main is proved; 2 of 2 crates", printed)
        self.assertIn("proved and built in", printed)

    def test_nothing_is_built_where_something_is_refused(self):
        printed, status, made = self.run_with("error: it is wrong\\nlogic=not-proved\\n", "failed (1)", 1)
        self.assertEqual((status, made), (1, ["proved by all check --jobs 2"]))
        self.assertIn("error: it is wrong\n", printed)
        self.assertIn("rvgprof_main: failed (1)\n", printed)

    def test_words_that_are_not_understood(self):
        for words in (["--jobs"], ["--jobs", "0"], ["gp_base"], ["--help"]):
            with self.subTest(words), self.assertRaises(SystemExit) as ended:
                prove.main(words)
            self.assertIn("usage:", ended.exception.code)


if __name__ == "__main__":
    unittest.main()
