"""What tools/checks/inlined refuses, and that it knows each function with a hint."""

import re
import unittest

from comparing import TOP, program_of

inlined = program_of("tools/checks/inlined")

LISTING = """0000000000044340 t prof_machine::runs::Run::call::<#e419fcd8b9e4bf06>
00000000000430f0 t prof_machine::runs::Run::drive::<#e419fcd8b9e4bf06>
0000000000049880 t rv_decode::speller::put_target
                 w _ITM_deregisterTMCloneTable
"""
STEP = "000000000002f0a0 t rv_step::stepper::step\n"
# A function with that hint, which may have more attributes and words before its name.
HINTED = re.compile(r"#\[inline\(always\)]\n(?: *#.*\n)* *(?:pub(?:\([^)]*\))? )?fn (\w+)")


def source_of(crate):
    """The sources of a crate as one text."""
    return "".join(path.read_text() for path in sorted((TOP / "crates" / crate / "src").glob("*.rt")))


class Inlined(unittest.TestCase):
    def test_what_few_turns_call_may_stand(self):
        self.assertEqual(inlined.standing(LISTING), [])

    def test_a_step_that_stands_is_found(self):
        self.assertEqual(inlined.standing(LISTING + STEP), ["rv_step::stepper::step"])

    def test_one_with_parameters_is_found(self):
        listing = LISTING.replace("Run::call", "Run::instruct")
        self.assertEqual(inlined.standing(listing), ["prof_machine::runs::Run::instruct"])

    def test_a_name_in_quotes_is_found(self):
        self.assertEqual(inlined.standing('0000000000001000 t "rv_decode::decoder::decode"\n'), ["rv_decode::decoder::decode"])

    def test_what_is_told_of_no_symbols(self):
        self.assertEqual(inlined.symbols_in(""), set())

    def test_each_hot_function_is_in_the_sources(self):
        for name in inlined.hot_functions():
            crate, function = name.split("::")[0], name.rpartition("::")[2]
            self.assertRegex(source_of(crate), rf"\bfn {function}\b", name)

    def test_each_hint_is_of_a_hot_function(self):
        for crate in ("rv_step", "rv_decode"):
            known = {name.rpartition("::")[2] for name in inlined.hot_functions() if name.startswith(crate)}
            self.assertLessEqual(set(HINTED.findall(source_of(crate))), known)
            self.assertEqual(len(HINTED.findall(source_of(crate))), source_of(crate).count("#[inline(always)]"))


if __name__ == "__main__":
    unittest.main()
