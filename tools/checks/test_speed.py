"""The inputs of tools/speed and its table. No program is measured."""

import collections
import unittest

from comparing import program_of
from elf_files import LOW
from profiles import GNU, gnu_arcs, gnu_hist

speed = program_of("tools/speed")


class Inputs(unittest.TestCase):
    def test_each_function_of_a_tree_has_one_caller_before_it(self):
        arcs = speed.tree(100)
        self.assertEqual([callee for _, callee in arcs], list(range(1, 100)))
        self.assertTrue(all(caller < callee for caller, callee in arcs))
        self.assertLessEqual(max(collections.Counter(caller for caller, _ in arcs).values()), 3)

    def test_callers_at_random_come_before_their_callees(self):
        arcs = speed.callees_at_random(100)
        self.assertTrue(all(caller < callee for caller, callee in arcs))
        self.assertEqual(collections.Counter(callee for _, callee in arcs), {callee: 3 for callee in range(1, 100)})

    def test_a_ring_comes_around(self):
        self.assertEqual(speed.ring(4)[-3:], [(3, 0), (3, 1), (3, 2)])
        self.assertEqual(collections.Counter(callee for _, callee in speed.ring(9)), {callee: 3 for callee in range(9)})

    def test_arcs_of_a_profile_ascend_by_call_site(self):
        profile = speed.profile_of([(1, 0), (0, 1)], 2)
        front = len(GNU + gnu_hist(LOW, LOW + 32, bytes(16)))
        calls = [int.from_bytes(profile[at + 9:at + 13], "little") for at in (front, front + 13)]
        self.assertEqual(profile[front:], gnu_arcs([(LOW + 8, LOW + 20, calls[0]), (LOW + 24, LOW + 4, calls[1])]))
        self.assertTrue(all(1 <= count < 100 for count in calls))

    def test_rows_are_named_in_the_head(self):
        for row in speed.ROWS:
            self.assertIn(f"\n{row.name} ", speed.__doc__)


class Table(unittest.TestCase):
    def test_ratios_have_three_digits(self):
        self.assertEqual([speed.ratio(*pair) for pair in ((3, 2), (2, 3), (250, 2), (1, 110))], ["1.50", "0.67", "125", "0.0091"])

    def test_what_was_not_measured_has_no_ratio(self):
        self.assertEqual(speed.ratio(1, None), "-")
        self.assertEqual(speed.line_of_times(speed.Row("show", ""), {"own": 0.02, "plain": 0.01}).split(), ["show", "20.0", "2.00", "-", "-"])

    def test_a_run_has_its_rate(self):
        row = speed.Row("run", "", instructions=3_000_000)
        self.assertEqual(speed.line_of_times(row, {"own": 0.5, "old": 1.0}).split(), ["run", "500.0", "-", "0.50", "6.0"])

    def test_each_program_has_the_words_of_a_row(self):
        self.assertEqual(speed.commands_of(speed.Row("a", "show g"), {"own": "p", "old": "q"}), {"own": ["p", "show", "g"], "old": ["q", "show", "g"]})

    def test_gprof_does_what_rows_do(self):
        self.assertLessEqual(set(speed.BY_GPROF), {row.name for row in speed.ROWS})

    def test_the_count_of_valgrind(self):
        self.assertEqual(speed.collected_in("==1== Events    : Ir\n==1== Collected : 1234567\n"), 1234567)
        with self.assertRaises(SystemExit):
            speed.collected_in("valgrind: no such file\n")

    def test_the_programs_that_are_given(self):
        self.assertEqual(speed.programs_given(["/bin/sh", "/bin/ls"]), {name: speed.os.path.realpath(path) for name, path in (("own", "/bin/sh"), ("old", "/bin/ls"))})
        for words in (["-h"], ["a", "b", "c"], ["/no/program"]):
            with self.assertRaises(SystemExit):
                speed.programs_given(words)


class Measuring(unittest.TestCase):
    def test_the_least_of_several_runs(self):
        times = iter([0.3, 9.0, 0.2, 0.4, 0.1, 0.5])
        held, speed.seconds = speed.seconds, lambda words: next(times)
        try:
            self.assertEqual(speed.least({"short": ["a"], "long": ["b"]}), {"short": 0.1, "long": 9.0})
        finally:
            speed.seconds = held

    def test_start_and_end_of_a_run_are_not_counted(self):
        held, speed.host_instructions = speed.host_instructions, lambda words: 5000 + 110 * int(words[-1])
        try:
            self.assertEqual(speed.each_instruction("p", "run e g"), 110)
        finally:
            speed.host_instructions = held


if __name__ == "__main__":
    unittest.main()
