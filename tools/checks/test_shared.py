"""What the tools share: reading what rvgprof prints, stacks, names as text, asking the program, and ending."""

import io
import os
import pathlib
import subprocess
import sys
import tempfile
import unittest
from unittest import mock

from comparing import TOP

sys.path.insert(0, str(TOP / "tools/lib/rvgprof"))

from rvgprof_tools import exact, functions, running, sources, stacks


def made(*rows):
    """Functions of 16 bytes, one after the other, each with its own time and executions and its calls by callee."""
    found = []
    for place, (name, costs, calls) in enumerate(rows):
        function = functions.Function(name, 16 * place, 16 * place + 16)
        function.cells.append((16 * place, costs))
        function.calls.update({(16 * place + 4, callee): count for callee, count in calls.items()})
        found.append(function)
    return found


class Reading(unittest.TestCase):
    def test_functions_of_syms(self):
        found = functions.functions_of(b"text .. entry ..\n00001000 8 a\n00001008 4 b c\n")
        self.assertEqual([(f.name, f.low, f.high) for f in found], [(b"a", 0x1000, 0x1008), (b"b c", 0x1008, 0x100C)])

    def test_a_name_of_two_lines(self):
        found = functions.functions_of(b"text .. entry ..\n00001000 8 a\n00001000 4 x\n00001008 4 b\n")
        self.assertEqual([f.name for f in found], [b"a\n00001000 4 x", b"b"])

    def test_no_function_and_what_is_no_function(self):
        self.assertEqual(functions.functions_of(b"text .. entry ..\n"), [])
        with self.assertRaisesRegex(running.Refused, r"isn't understood: 00001000 x\\x9b"):
            functions.functions_of(b"text .. entry ..\n00001000 x\xc2\x9b\n")

    def test_cells_of_annotate(self):
        (f,) = found = made((b"f", (0, 0), {}))
        f.cells.clear()
        cells = b"".join(b"%08x %d %d 00000013 nop\n" % (i, i, 2 * i) for i in (0, 4, 8, 12))
        functions.add_cells(found, b"annotated listing\nf:\n" + cells)
        self.assertEqual(f.own(), [48, 24])

    def test_calls_of_show(self):
        found = made((b"a", (0, 0), {}), (b"b", (0, 0), {}))
        arcs = b"arc 00000008 00000010 3\narc 00000008 00000014 4\narc 00000008 00000040 5\narc 00000000 00000000 0\n"
        functions.add_calls(found, arcs)
        self.assertEqual([dict(f.calls) for f in found], [{(4, 1): 7}, {}])

    def test_jumps_of_annotate(self):
        (f,) = found = made((b"f", (0, 0), {}))
        f.cells.clear()
        listing = b"annotated listing\nf:\n00000000 5 0 010000ef jal\n00000004 0 0 00c000ef jal\n00000008 5 0 00000013 nop\n0000000c 5 0 00008067 ret\n"
        functions.add_cells(found, listing)
        self.assertEqual((f.jumps, f.own()), ({(0, 16): 5}, [0, 15]))

    def test_functions_of_one_name_are_one(self):
        found = made((b"f", (0, 1), {2: 3}), (b"g", (0, 0), {0: 9}), (b"f", (0, 4), {1: 5}))
        found[1].jumps = {(24, 40): 7, (28, 48): 1}
        merged = functions.by_name(found)
        self.assertEqual((merged[b"f"].low, merged[b"f"].executions), (0, [(0, 1), (32, 4)]))
        self.assertEqual((merged[b"f"].known_sites(b"f"), merged[b"f"].known_sites(b"g")), ([(4, 3)], [(36, 5)]))
        self.assertEqual((merged[b"g"].known_sites(b"f"), merged[b"g"].known_sites(b"x")), ([(20, 9)], []))
        found[1].calls.clear()
        self.assertEqual(functions.by_name(found)[b"g"].known_sites(b"f"), [(24, 7)])

    def test_targets_of_jumps_that_link(self):
        # As GNU as encodes them: jal ra, .+0x3c; jal t0, .-0x34; jal x0, .+8 links nothing; jalr ra, 0(ra) is no jal.
        words = {0x03C000EF: 0x10040, 0xFCDFF2EF: 0xFFD0, 0xFD5FF0EF: 0xFFD8, 0x0080006F: None, 0x000080E7: None}
        self.assertEqual({word: functions.target_of(0x10004, word) for word in words}, {
            0x03C000EF: 0x10040, 0xFCDFF2EF: 0xFFD0, 0xFD5FF0EF: 0xFFD8, 0x0080006F: None, 0x000080E7: None})


class Stacks(unittest.TestCase):
    def test_a_stack_counts_once_for_each_function_and_call_on_it(self):
        flow = exact.Flow.of([([b"m", b"f", b"f", b"f"], 5), ([b"m", b"f", b"g", b"f", b"g"], 2)])
        self.assertEqual(flow.whole, {b"m": 7, b"f": 7, b"g": 2})
        self.assertEqual(flow.below, {(b"m", b"f"): 7, (b"f", b"f"): 5, (b"f", b"g"): 2, (b"g", b"f"): 2})
        self.assertEqual((flow.own, flow.total), ({b"f": 5, b"g": 2}, 7))

    def test_what_is_below_the_calls_of_a_node_is_what_its_stacks_hold(self):
        flow = exact.Levels([([b"m", b"a", b"b", b"c", b"a", b"b", b"c", b"a"], 3), ([b"m", b"a", b"b"], 1)])
        a, b, c, again, m = (b"a", 1), (b"b", 1), (b"c", 1), (b"a", 2), (b"m", 1)
        self.assertEqual({call: cost for call, cost in flow.below.items() if call[0][1] == 1},
                         {(m, a): 4, (a, b): 4, (b, c): 3, (c, again): 3})
        self.assertEqual(flow.own, {again: 3, b: 1})

    def test_a_second_time_has_a_node_of_its_own(self):
        flow = exact.Levels([([b"f", b"f", b"f", b"g"], 2)])
        f, again, g = (b"f", 1), (b"f", 2), (b"g", 1)
        self.assertEqual((flow.own, flow.below), ({g: 2}, {(f, again): 2, (again, again): 0, (again, g): 2}))
        self.assertEqual(flow.nodes(), {f, again, g})

    def test_lines(self):
        lines = [b"main;f(int, int) 3\n", b"a 0\n", b"a;b 7"]
        self.assertEqual(list(stacks.stacks_in(lines, "here")), [([b"main", b"f(int, int)"], 3), ([b"a"], 0), ([b"a", b"b"], 7)])

    def test_what_is_no_stack(self):
        for line in (b"a\n", b"a -1\n", b" 1\n", b"\n", b"a 1234567890123456789\n", "a \u00b2\n".encode()):
            with self.subTest(line), self.assertRaisesRegex(running.Refused, "line 2 of here is no stack"):
                list(stacks.stacks_in([b"a 1\n", line], "here"))
        with self.assertRaisesRegex(running.Refused, "no sample is in here"):
            list(stacks.stacks_in([], "here"))

    def test_a_sample_of_a_hook_is_of_its_caller(self):
        given = [([b"m", b"_mcount"], 1), ([b"m", b"moncontrol"], 2), ([b"_mcount"], 3), ([b"m", b"f"], 4), ([b"_mcount", b"f"], 5)]
        want = [([b"m"], 1), ([b"m"], 2), ([b"_mcount"], 3), ([b"m", b"f"], 4), ([b"_mcount", b"f"], 5)]
        self.assertEqual(list(exact.without_hooks(given)), want)

    def test_parts_are_the_whole(self):
        self.assertEqual(list(exact.parts(10, [1, 1, 1])), [3, 3, 4])
        self.assertEqual(list(exact.parts(7, [0, 2, 0])), [0, 7, 0])


class Words(unittest.TestCase):
    def test_operands_and_options(self):
        words = ["a", "--budget", "3", "b", "--inclusive"]
        self.assertEqual(running.parted(words, ("--budget",), ("--inclusive",)), (["a", "b"], {"--budget": "3", "--inclusive": True}))
        for words in (["--budget"], ["--nope"], ["-x"]):
            with self.subTest(words), self.assertRaises(running.Refused):
                running.parted(words, ("--budget",))

    def test_numbers(self):
        self.assertEqual(running.number_of({"--top": "12"}, "--top", None), 12)
        self.assertEqual(running.number_of({}, "--top", 7), 7)
        for text in ("", "-1", "1.5", "x", "\u00b2"):
            with self.subTest(text), self.assertRaises(running.Refused):
                running.number_of({"--top": text}, "--top", None)

    def test_words_of_the_run(self):
        self.assertEqual(running.of_the_run({"--seed": "4", "--top": "1", "--budget": "3"}), ["--budget", "3", "--seed", "4"])

    def test_names_as_text(self):
        names = {b"f": "f", b"a\tb\nc": "a\\x09b\\x0ac", b"\x1b[31m": "\\x1b[31m", b"\x7f": "\\x7f", b"\xff": "\\xff"}
        names |= {b"\xc2\x9b31m": "\\x9b31m", b"\xc2\x80": "\\x80", b"\xc2\xa0": "\u00a0", b"\xc3\xa9": "\u00e9"}
        names |= {"\u2028\u2029".encode(): "\\x2028\\x2029", b"\xed\xa0\x80": "\\xed\\xa0\\x80", "\U0001f600".encode(): "\U0001f600"}
        self.assertEqual({name: running.readable(name) for name in names}, names)

    def test_names_of_files(self):
        self.assertEqual([running.operand(word) for word in ("a", "-a", "./-a", "-")], ["a", "./-a", "./-a", "./-"])


class Asking(unittest.TestCase):
    """A program is asked that stands in for rvgprof: it prints what it is asked, and ends as it is told."""

    SCRIPT = """#!/bin/sh
case $1 in
syms) printf 'asked %s\\n' "$*";;
ends) exit "$2";;
run) printf 'hello\\n';;
folded) printf 'hello\\n_start 1\\n_start;f 2\\n'; exit "${ENDS-0}";;
esac
"""

    def setUp(self):
        folder = tempfile.TemporaryDirectory()
        self.addCleanup(folder.cleanup)
        self.folder = pathlib.Path(folder.name)
        self.program = self.made("asked", self.SCRIPT)
        told = mock.patch.dict(os.environ, RVGPROF=self.program)
        told.start()
        self.addCleanup(told.stop)

    def made(self, name, text):
        path = self.folder / name
        path.write_text(text)
        path.chmod(0o755)
        return str(path)

    def test_what_is_printed(self):
        self.assertEqual(running.asked("syms", "a b"), b"asked syms a b\n")

    def test_its_own_statuses_are_those_of_the_tool(self):
        for status in ("1", "11"):
            with self.subTest(status), self.assertRaises(running.Ended) as ended:
                running.asked("ends", status)
            self.assertEqual(str(ended.exception), status)
        with self.assertRaisesRegex(running.Refused, "ended with status 12"):
            running.asked("ends", "12")

    def test_where_the_program_is(self):
        self.assertEqual(running.program(), self.program)
        beside = self.made("rvgprof", "#!/bin/sh\n")
        with mock.patch.dict(os.environ, RVGPROF="", PATH=str(self.folder)):
            with mock.patch.object(sys, "argv", [str(self.folder / "rvgprof-calls")]):
                self.assertEqual(running.program(), os.path.realpath(beside))
            with mock.patch.object(sys, "argv", ["/nowhere/rvgprof-calls"]):
                self.assertEqual(running.program(), beside)
                os.remove(beside)
                with self.assertRaisesRegex(running.Refused, "neither beside this program nor on PATH"):
                    running.program()

    def test_a_program_that_is_not_there(self):
        with mock.patch.dict(os.environ, RVGPROF="/nowhere/rvgprof"), self.assertRaisesRegex(running.Refused, "No such file"):
            running.asked("syms")

    def test_stacks_without_what_is_printed_before_them(self):
        self.assertEqual(list(stacks.lines_of_run("p.elf", [])), [b"_start 1\n", b"_start;f 2\n"])
        self.assertEqual(list(stacks.lines_of_run("p.elf", [], 15)), [b"_start;f 2\n"])
        with mock.patch.dict(os.environ, ENDS="5"), self.assertRaises(running.Ended):
            list(stacks.lines_of_run("p.elf", []))

    def test_programs_and_files_of_stacks(self):
        program, lines = self.made("p.elf", "\x7fELF"), self.made("lines", "m;f 3\nm 1\n")
        self.assertEqual((exact.is_program(program), exact.is_program(lines)), (True, False))
        self.assertEqual(exact.flow_in(lines, []).whole, {b"m": 4, b"f": 3})
        self.assertEqual(exact.flow_in(program, []).whole, {b"_start": 3, b"f": 2})
        with self.assertRaisesRegex(running.Refused, "nope: No such file"):
            exact.is_program("nope")

    def test_files_and_lines(self):
        elf = self.made("p.elf", "\x7fELF \0.debug_line\0")
        tool = self.made("addr2line", "#!/bin/sh\nprintf '/x/a.c:7\\n??:0\\n/x/b.c:8 (discriminator 2)\\n/x/<artificial>:1\\n/x/a.c:?\\n'\n")
        with mock.patch.dict(os.environ, ADDR2LINE=tool):
            self.assertEqual(sources.sources_of(elf, [0, 4, 8, 12, 16]), {0: ("/x/a.c", 7), 8: ("/x/b.c", 8)})
            self.assertEqual(sources.sources_of(self.made("plain.elf", "\x7fELF"), [0]), {})
        with mock.patch.dict(os.environ, ADDR2LINE="nope"), self.assertRaisesRegex(running.Refused, "nope, which ADDR2LINE names"):
            sources.sources_of(elf, [0])

    def test_counting_what_is_read(self):
        self.assertEqual(running.passed_over(io.BytesIO(b"12345")), 5)
        stream = io.BytesIO(b"12345")
        self.assertEqual((running.passed_over(stream, 3), stream.read()), (3, b"45"))


class Ending(unittest.TestCase):
    """How a tool ends, seen from outside."""

    def ended(self, body, arguments=(), **how):
        text = f"import sys\nsys.path.insert(0, {str(TOP / 'tools/lib/rvgprof')!r})\nsys.dont_write_bytecode = True\n"
        text += f"from rvgprof_tools.running import *\ndef main(words):\n    {body}\nsys.argv[0] = 'rvgprof-it'\nended(main, 'help\\n'{how.pop('refused', '')})\n"
        ran = subprocess.run([sys.executable, "-c", text, *arguments], capture_output=True, **how)
        return ran.returncode, ran.stdout, ran.stderr

    def test_statuses_and_lines(self):
        self.assertEqual(self.ended("return 1"), (1, b"", b""))
        self.assertEqual(self.ended("put_lines(['a', b'b'])"), (0, b"a\nb\n", b""))
        self.assertEqual(self.ended("pass", ["--help"]), (0, b"help\n", b""))
        self.assertEqual(self.ended("raise Refused('why\\x9b')"), (1, b"", b"rvgprof-it: why\\x9b\n"))
        self.assertEqual(self.ended("raise Ended(5)"), (5, b"", b""))
        self.assertEqual(self.ended("raise Ended(5)", refused=", 2"), (2, b"", b""))
        self.assertEqual(self.ended("raise KeyboardInterrupt"), (130, b"", b""))
        self.assertEqual(self.ended("raise MemoryError"), (1, b"", b"rvgprof-it: there is too little memory for this\n"))

    def test_what_is_closed(self):
        line = b"rvgprof-it: the input: Bad file descriptor\n"
        self.assertEqual(self.ended("list(input_lines())", preexec_fn=lambda: os.close(0)), (1, b"", line))
        line = b"rvgprof-it: the output: Bad file descriptor\n"
        self.assertEqual(self.ended("put_lines(['a'])", preexec_fn=lambda: os.close(1)), (1, b"", line))
        self.assertEqual(self.ended("raise Refused('why')", preexec_fn=lambda: os.close(2)), (1, b"", b""))


if __name__ == "__main__":
    unittest.main()
