#!/usr/bin/env python3
"""Unit tests of rvgprof-doctor: what it makes of words, instructions, lines and numbers. They run no program.

usage: tools/checks/test_doctor.py
"""

import collections
import itertools
import os
import struct
import sys
import types
import unittest

sys.dont_write_bytecode = True
TOP = os.path.join(os.path.dirname(os.path.realpath(__file__)), "../..")
sys.path.insert(0, os.path.join(TOP, "tools/lib/rvgprof"))

from rvgprof_doctor.asking import Answer
from rvgprof_tools.running import Refused, readable
from rvgprof_doctor.causes import causes_in
from rvgprof_doctor.causes.elf.names import close_to
from rvgprof_doctor.causes.elf_refused import no_elf, text_range
from rvgprof_doctor.causes.profile.rates import is_another_rate
from rvgprof_doctor.causes.run import shares_in_step, shares_of_wide_counters, stacks_above_128
from rvgprof_doctor.causes.run.end_fetch import calls_without_return
from rvgprof_doctor.causes.run.end_illegal import kind_of
from rvgprof_doctor.instructions import calls, jump_of, spelled
from rvgprof_doctor.known import Known
from rvgprof_doctor.profile import (
    Profile, entries_of, is_of_64_bits, looks_like_profile, rounded_texts, shares_of
)
from rvgprof_doctor.program import Program, is_referred_to, segments_of, target_of, value_before
from rvgprof_doctor.runs import OF_STACKS, Runs, end_of
from rvgprof_doctor.shares import Shares as SharesOf, differing, next_prime, own_of, primes_near
from rvgprof_tools.functions import functions_of
from rvgprof_doctor.text import listed, some
from rvgprof_doctor.words import WITH_VALUE, options_of

LOW = 0x10000
HEAD = b"text 00010000 00010020 entry 00010000 mcount 00010010 moncontrol -\n"
SYMS = HEAD + b"00010000 16 main\n00010010 8 _mcount\n00010018 8 f\n"


def header(segments, content=b""):
    """The headers of a file whose segments are virtual and physical address, offset and sizes."""
    head = b"\x7fELF" + bytes(24) + struct.pack("<IIIHHH", 52, 0, 0, 52, 32, len(segments)) + bytes(6)
    table = b"".join(struct.pack("<8I", 1, place, virtual, physical, size, memory, 7, 4)
                     for virtual, physical, place, size, memory in segments)
    return head + table + content


def program_of(words, syms=SYMS):
    """A program whose text is these words."""
    text = struct.pack(f"<{len(words)}I", *words)
    return Program(header([(LOW, LOW, 84, len(text), len(text))], text), syms)


def refused(text, content):
    """What is known of a program of this content that rvgprof refuses by this text."""
    known = Known.__new__(Known)
    known.content, known.symbols = content, types.SimpleNamespace(status=2, line=lambda: "bad elf: " + text)
    return known


class Causes(unittest.TestCase):
    """The folders of causes."""

    def test_rows(self):
        """Each cause names one or more rows of the document."""
        with open(os.path.join(TOP, "docs/TROUBLES.md"), encoding="utf-8") as file:
            rows = [line for line in file if line.startswith("| ")]
        for folder in ("elf_refused", "run_refused", "profile_refused", "elf", "run", "another_program", "profile", "note"):
            causes = causes_in(folder)
            self.assertTrue(causes, folder)
            for cause in causes:
                self.assertTrue(any(cause.ROW in row for row in rows), cause.__name__)


class Names(unittest.TestCase):
    """What `syms` prints."""

    def test_functions(self):
        found = [(function.low - LOW, function.high - LOW, function.name) for function in functions_of(SYMS)]
        self.assertEqual(found, [(0, 16, b"main"), (16, 24, b"_mcount"), (24, 32, b"f")])

    def test_names_of_any_bytes(self):
        lines = HEAD + b"00010000 16 a\n00010004 4 b\n00010010 16 \xff;\n"
        self.assertEqual([function.name for function in functions_of(lines)], [b"a\n00010004 4 b", b"\xff;"])
        self.assertEqual(readable(b"a\n\xff\x1b"), "a\\x0a\\xff\\x1b")

    def test_what_is_no_list(self):
        with self.assertRaises(Refused):
            functions_of(HEAD + b"no function\n")
        with self.assertRaises(Refused):
            Program(header([]), b"texts\n")

    def test_places(self):
        program = program_of([0x13] * 8)
        self.assertEqual([program.place(LOW + 20), program.name(LOW + 31)], ["_mcount+4", "f"])
        self.assertEqual([program.name(LOW - 4), program.name(LOW + 32)], ["no function"] * 2)
        self.assertEqual((program.begins_at(LOW + 24), program.begins_at(LOW + 28)), (True, False))

    def test_close_names(self):
        names = ["__malloc_malloc", "_Z5clampi", "main", "fmain", "mean"]
        self.assertEqual(close_to("malloc", names)[0], "__malloc_malloc")
        self.assertEqual(close_to("clamp", names)[0], "_Z5clampi")
        self.assertEqual(close_to("maim", names)[0], "main")
        self.assertEqual(close_to("§", names), [])


class Files(unittest.TestCase):
    """What stands in a file."""

    def test_segments(self):
        content = header([(LOW, LOW, 84, 4, 8), (0x20000, 0x30000, 84, 0, 0)], b"abcd")
        self.assertEqual(segments_of(content), [(LOW, LOW, content[84:88], 8)])

    def test_headers_that_are_cut_off(self):
        content = header([(LOW, LOW, 84, 4, 4)], b"abcd")
        for length in range(76):
            with self.assertRaises((struct.error, Refused)):
                segments_of(content[:length])
        with self.assertRaises(Refused):
            Program(content[:60], SYMS)

    def test_bytes(self):
        program = program_of([1, 2, 3])
        self.assertEqual([program.word(LOW + 8), program.word(LOW + 10), program.word(LOW - 4)], [3, 0, 0])
        self.assertEqual(list(program.words()), [(LOW, 1), (LOW + 4, 2), (LOW + 8, 3)])

    def test_names_of_sources(self):
        for text, named in ((b"\1moncontrol\0GNU", True), (b"\0moncontrol\0", True), (b"\0my_moncontrol\0", False)):
            self.assertEqual(Program(header([], text), SYMS).names_switch, named)

    def test_refusals(self):
        """Each refusal that docs/FORMATS.md has gets a line and a remedy by one cause."""
        texts = ["short 3", "magic", "class 2", "class 9", "order 2", "kind 1", "kind 3", "kind 4", "kind 9"]
        texts += ["machine 62", "flags 1", "flags 8", "flags 9", "table size 31", "out of file 9", "text range 0 0"]
        texts += ["text range 65536 99999999", "link 3", "too many symbols 65537"]
        for text in texts:
            found = [found for cause in causes_in("elf_refused") for found in cause.find(refused(text, b"\x7fELF"))]
            self.assertEqual([len(found), *map(bool, found[0])], [1, True, True], text)
        self.assertIn("95.3 MiB", next(text_range.find(refused("text range 65536 99999999", b"")))[0])
        for content, what in ((b"gmon\1\0\0\0", "it is no program but a profile"), (b"!<arch>\nabc", "it is a library")):
            self.assertEqual(next(no_elf.find(refused("magic", content)))[0], what)

    def test_profiles_of_64_bits(self):
        bsd = struct.pack("<QQIII", LOW, LOW + 64, 100, 0x51879, 100)
        head = b"gmon" + struct.pack("<I", 1) + bytes(13)
        gnu = head + struct.pack("<QQII", LOW, LOW + 64, 16, 100)
        narrow = head + struct.pack("<IIII", LOW, LOW + 64, 16, 100) + b"seconds" + bytes(8) + b"s"
        wide = [is_of_64_bits(content) for content in (bsd, gnu, narrow, b"", b"gmon", bytes(64))]
        self.assertEqual(wide, [True, True] + [False] * 4)
        self.assertEqual(list(map(looks_like_profile, (bsd, gnu, b"", b"\x7fELF"))), [True, True, False, False])


class Instructions(unittest.TestCase):
    """What a word is and does."""

    def test_jumps(self):
        far = [jump_of(word) for word in (0x6F, 0x008000EF, 0xFE1FF0EF, 0x7FFFF06F)]
        self.assertEqual(far, [0, 8, -32, 0xFFFFE])

    def test_calls(self):
        words = (0x008000EF, 0x000780E7, 0x6F, 0x8067, 0x13, 0x008002EF)
        self.assertEqual(list(map(calls, words)), [True, True] + [False] * 4)

    def test_targets(self):
        program = program_of([0x018000EF, 0x00000097, 0x014080E7, 0x000780E7, 0x13, 0x13, 0x13, 0x13])
        self.assertEqual([target_of(program, LOW + at) for at in (0, 8, 12)], [LOW + 24, LOW + 24, None])

    def test_values(self):
        lui, more, access = 0x100007B7, 0x00878793, 0x00F7A023
        self.assertEqual(value_before(program_of([lui, more, access]), LOW + 8, 15), 0x10000008)
        self.assertEqual(value_before(program_of([0x00400793, access]), LOW + 4, 15), 4)
        self.assertEqual(value_before(program_of([access]), LOW, 0), 0)
        for unknown in (0x0007A783, 0x000780E7, 0x00F787B3, 0):
            self.assertIsNone(value_before(program_of([unknown, access]), LOW + 4, 15))

    def test_kinds(self):
        rows = {0: "no code", 0x8082: "compressed", 0xF1402573: "a CSR"}
        rows |= {0x30200073: "privileged", 0x10500073: "privileged"}
        rows |= {0x00A5A02F: "an atomic", 0x00052007: "a float", 0x00B57553: "a float"}
        rows |= {0x0C05F557: "of another", 0x28A5D533: "of another"}
        for word, kind in rows.items():
            self.assertTrue(kind_of(word)[0].startswith(kind), f"{word:08x}")

    def test_spelling(self):
        words = [spelled(word) for word in (0xFFC12083, 0xFEA12E23, 0x13)]
        self.assertEqual(words, ["lw x1, -4(x2)", "sw x10, -4(x2)", "00000013"])

    def test_references(self):
        jump, upper, lower = 0x0180006F, 0x00010537, 0x01850513
        rows = [([jump], True), ([upper, lower], True), ([LOW + 24], True)]
        rows += [([0x0140006F], False), ([lower, upper], False)]
        rows.append(([upper, 0x00000513, lower], False))     # it is 0 in between
        for words, refers in rows:
            program = program_of(words + [0x13] * (8 - len(words)))
            self.assertEqual(is_referred_to(program, LOW + 24), refers, words)


HISTOGRAM = b"bsd low 00010000 high 00010020 counters 8 rate 100\n"


def profile_of(text):
    return Profile("g", text)


class Profiles(unittest.TestCase):
    """What `show` prints, and what follows."""

    def test_records(self):
        profile = profile_of(
            b"gnu\nhist low 00010000 high 00010020 counters 8 rate 100 unit 73\ncount 00010004 7\n"
            b"arc 00010008 0001001c 3\narc 00010008 0001001c 4\nblocks 1\nblock 00010000 99\n"
        )
        self.assertEqual((profile.samples(), profile.widths[LOW + 4]), (7, 4))
        self.assertEqual(dict(profile.arcs), {(LOW + 8, LOW + 28): 7})
        self.assertEqual((dict(profile.executions), profile.ranges), ({LOW: 99}, {(LOW, LOW + 32)}))

    def test_full_counters(self):
        for count, full in ((65535, [LOW]), (131070, [LOW]), (65534, []), (65536, [])):
            self.assertEqual(profile_of(HISTOGRAM + b"count 00010000 %d\n" % count).full(), full)

    def test_sites(self):
        for site, exact in ((LOW + 4, True), (LOW + 8, False)):
            self.assertEqual(profile_of(HISTOGRAM + b"arc %08x 00010000 1\n" % site).sites_are_exact(), exact)

    def test_shares(self):
        program = program_of([0x13] * 8)
        profile = profile_of(b"bsd low 00010000 high 00010020 counters 1 rate 100\ncount 00010000 32\n")
        self.assertEqual(shares_of(program, profile), {b"main": 16, b"_mcount": 8, b"f": 8})

    def test_ranges(self):
        program = program_of([0x13] * 8, SYMS.replace(b"text 00010000 00010020", b"text 00010004 0001001c"))
        self.assertEqual(list(rounded_texts(program)), [(LOW + 4, LOW + 28)] + [(LOW, LOW + 32)] * 3)

    def test_room(self):
        self.assertEqual([entries_of(0, size) for size in (0, 2500, 5000, 1 << 24)], [49, 49, 99, 65533])

    def test_rates(self):
        def made(samples, arcs=3, executed=0):
            lines = HISTOGRAM + b"count 00010000 %d\narc 00010008 0001001c %d\n" % (samples, arcs)
            return profile_of(lines + (b"block 00010000 %d\n" % executed if executed else b""))
        rows = [(made(100), made(101), False), (made(100), made(1000), True), (made(100), made(1000, arcs=30), False)]
        rows.append((made(100, executed=1000), made(10, executed=1000), True))
        rows.append((made(100, executed=1000), made(50, arcs=9, executed=505), False))
        for first, second, differ in rows:
            self.assertEqual(is_another_rate(first, second), differ)

    def test_calls_behind_which_nothing_was_executed(self):
        program = program_of([0x000780E7, 0x13, 0x000780E7, 0x13, 0x13, 0x13, 0x13, 0x13])
        profile = profile_of(b"block 00010000 2\nblock 00010004 2\nblock 00010008 2\nblock 0001000c 1\n")
        self.assertEqual(list(calls_without_return(program, profile)), [LOW + 8])


class StacksOf:
    """Runs that have these stacks at these rates, and keep which rates were asked for."""

    def __init__(self, **stacks):
        self.by_rate, self.rates = {int(name[1:]): found for name, found in stacks.items()}, []

    def stacks(self, every):
        self.rates.append(every)
        return self.by_rate[every]


class Shares(unittest.TestCase):
    """What differs by more than chance, and the rates that are tried."""

    ALL = [(b"main", 46000), (b"main;f", 54000)]
    RIGHT = [(b"main", 46), (b"main;f", 54)]
    WRONG = [(b"main", 100)]

    def known(self, runs, hist=2):
        """What is known of a run whose profile has a hundred samples in `main`."""
        profile = profile_of(HISTOGRAM + b"count 00010000 100\n")
        stacks = runs.stacks(997)
        shares = SharesOf(program_of([0x13] * 8), profile, stacks, runs, 1000)
        return types.SimpleNamespace(shares=shares, profile=profile, stacks=stacks, runs=runs, every=1000, hist=hist)

    def remedy(self, **stacks):
        return next(shares_in_step.find(self.known(StacksOf(**stacks))))[1]

    def test_in_step(self):
        (what, remedy), = shares_in_step.find(self.known(StacksOf(r997=self.RIGHT, r1=self.ALL)))
        line = "samples are in step with a loop: with --every 1000 f 0.00 % and exactly 54.00 %, main 100.00 % and"
        self.assertTrue(what.startswith(line), what)
        self.assertTrue(remedy.startswith("--every 997; or "), remedy)

    def test_that_agrees(self):
        runs = StacksOf(r997=self.WRONG)
        self.assertEqual((list(shares_in_step.find(self.known(runs))), runs.rates), ([], [997]))

    def test_the_other_rate_in_step(self):
        runs = StacksOf(r997=self.RIGHT, r1=[(b"main", 100000)])
        self.assertEqual((list(shares_in_step.find(self.known(runs))), runs.rates), ([], [997, 1]))

    def test_another_rate_is_found(self):
        near, right = [(b"main", 60), (b"main;f", 40)], [(b"main", 20), (b"main;f", 80)]
        exact = [(b"main", 20000), (b"main;f", 80000)]
        self.assertTrue(self.remedy(r997=near, r1=exact, r991=right).startswith("--every 991; or "))
        self.assertTrue(self.remedy(r997=near, r1=exact, r991=near, r1009=near).startswith("`rvgprof folded ELF --ev"))

    def test_wide_counters(self):
        known = self.known(StacksOf(r997=self.RIGHT, r1=self.ALL), hist=8)
        self.assertIn("--hist 2", next(shares_of_wide_counters.find(known))[1])
        self.assertEqual(list(shares_in_step.find(known)), [])

    def test_deep_stacks(self):
        stacks = [(b"main", 90), (b";".join([b"main"] * 128), 5), (b";".join([b"main"] * 129), 5)]
        self.assertIn("of 5 samples", next(stacks_above_128.find(types.SimpleNamespace(stacks=stacks)))[0])
        self.assertEqual(list(stacks_above_128.find(types.SimpleNamespace(stacks=self.WRONG))), [])

    def test_primes(self):
        self.assertEqual([next_prime(number) for number in (1, 2, 90, 1527)], [2, 2, 97, 1531])
        rows = {1000: [997, 991, 1009], 997: [991, 1009, 983], 10: [11, 7, 13], 1: [2, 3, 5], 7: [5, 3, 11]}
        for every, near in rows.items():
            self.assertEqual(list(itertools.islice(primes_near(every), 3)), near)

    def test_factors(self):
        for every in range(1, 200):
            self.assertTrue(all(every % number for number in itertools.islice(primes_near(every), 3)))

    def test_differences(self):
        def of(**counts):
            return collections.Counter({name.encode(): count for name, count in counts.items()})
        self.assertEqual(differing(of(f=100), of(f=46, g=43, h=9))[0][0], b"f")
        self.assertEqual(differing(of(f=46, g=43, h=11), of(f=50, g=40, h=10)), [])
        self.assertEqual(differing(of(f=3), of(g=3)), [])
        self.assertEqual(differing(of(f=10400, g=9600), of(f=10000, g=10000)), [])
        self.assertEqual(differing(of(), of(f=100)), [])

    def test_own(self):
        self.assertEqual(own_of([(b"a;b", 3), (b"b", 2), (b"a", 1)]), {b"b": 5, b"a": 1})


class Words(unittest.TestCase):
    """What is asked."""

    def test_options(self):
        words = ["a.elf", "--every", "9", "g", "--gnu", "-k", "a/b/c", "--hide", "--x", "./-g"]
        elf, gmons, options, of_reports = options_of(words)
        self.assertEqual((elf, gmons, options), ("a.elf", ["g", "./-g"], {"--every": "9", "--gnu": None}))
        self.assertEqual(of_reports, [("-k", "a/b/c"), ("--hide", "--x")])

    def test_refusals(self):
        lines = ["", "--every 9", "a --every", "a --every x", "a --every 01", "a --every -1", "a --every=9", "a --x"]
        lines += ["a -k /b", "a -k b/", "a -", "a --gnu --gnu", "a " * 18, "a --seed 1 --quantum 1"]
        for words in map(str.split, lines):
            with self.assertRaises(Refused, msg=words):
                options_of(words)

    def test_words_of_runs(self):
        options = {"--every": "9", "--gnu": None, "--image": "i", "--seed": "3", "--hist": "4"}
        runs = Runs("-a.elf", options, "folder")
        self.assertEqual(runs.elf, "./-a.elf")
        self.assertEqual(runs.words(OF_STACKS, every=7), ["--every", "7", "--seed", "3"])
        words = runs.words(WITH_VALUE[:-1], seed=None, quantum=3)
        self.assertEqual(words, ["--every", "9", "--hist", "4", "--quantum", "3"])

    def test_ends(self):
        def end(text):
            answer = Answer.__new__(Answer)
            answer.errors, answer.status = text, 0
            return end_of(answer)
        said = b"text rvgprof: trap illegal at 00010020 after 3 instructions: 2 samples, 1 calls, 0 lost, arcs on\n"
        self.assertEqual(end(said), ("trap illegal at 00010020", "illegal", LOW + 32, 3, 2, 1, 0, "on"))
        self.assertEqual(end(said.replace(b"trap illegal at 00010020", b"exit 4294967295")).trap, None)
        with self.assertRaises(Refused):
            end(said + b"more\n")

    def test_lists(self):
        self.assertEqual(listed("abcdefg"), "a, b, c, d, e and 2 more")
        self.assertEqual(listed("aab"), "a, b")
        self.assertEqual([some(1, "is", "are"), some(2, "is", "are")], ["1 is", "2 are"])


if __name__ == "__main__":
    unittest.main()
