"""What a run did, instruction by instruction: executions by address, calls by call site, and whole stacks."""

import collections
import os
import re
import subprocess
import tempfile

from .functions import profiled
from .running import Refused, input_lines, look_at, operand, passed_over, program, readable, started
from .stacks import lines_of_run, stacks_in

# The hooks' own functions, which execute nothing: a sample of one is taken in place of the instruction after its call.
HOOKS = (b"_mcount", b"moncontrol")
# So seldom that the run takes no sample that matters: executions and calls are counted at each instruction anyway.
SELDOM = str(2**31 - 1)
# The end line of a run: how it ended.
ENDING = re.compile(rb"rvgprof: (exit \d+|budget|trap [a-z-]+ at [0-9a-f]{8}) after [^\n]*\n\Z")


def counted(elf, options):
    """The functions of a program with the executions and calls of a run, and how many bytes the program printed."""
    elf = operand(elf)
    with tempfile.TemporaryDirectory(prefix="rvgprof-") as folder:
        profile = os.path.join(folder, "gmon.out")
        with started([program(), "run", elf, profile, "--gnu", "--blocks", "--every", SELDOM, *options], subprocess.DEVNULL) as run:
            printed = passed_over(run.stdout)
        if run.returncode != 0:     # once more, with the line that says why
            with started([program(), "run", elf, profile, *options]) as run:
                passed_over(run.stdout)
            look_at(run.returncode)
        return profiled(elf, [profile]), printed


def broken_off(name, options):
    """How a run of a program ends, if by a trap or at its budget; or nothing. A file of stacks doesn't say it."""
    if name == "-" or not is_program(name):
        return None
    with tempfile.TemporaryFile() as errors:
        with started([program(), "run", operand(name), "/dev/null", "--every", SELDOM, *options], errors) as run:
            passed_over(run.stdout)
        look_at(run.returncode)
        errors.seek(max(0, errors.seek(0, os.SEEK_END) - 4096))
        ending = ENDING.search(errors.read())
    return None if ending is None or ending[1].startswith(b"exit") else ending[1]


def is_program(name):
    """Whether a file is an ELF file, and not one of stacks."""
    try:
        with open(name, "rb") as file:
            return file.read(4) == b"\x7fELF"
    except OSError as error:
        raise Refused(f"{readable(os.fsencode(name))}: {error.strerror}") from error


def without_hooks(stacks):
    """Stacks whose samples of a hook are of its caller, which executes the instruction that they stand for."""
    for stack, instructions in stacks:
        yield stack[:-1] if len(stack) > 1 and stack[-1] in HOOKS else stack, instructions


def exact_stacks(elf, options, printed=None):
    """The stack of each instruction of a run, those that are alike in few lines."""
    return without_hooks(stacks_in(lines_of_run(elf, ["--every", "1", *options], printed), f"the stacks of {elf}"))


def flow_in(name, options):
    """What the stacks in a file, on the input (`-`), or of a run of a program say."""
    if name == "-":
        return Flow.of(without_hooks(stacks_in(input_lines(), "the input")))
    if is_program(name):
        return Flow.of(exact_stacks(name, options))
    with open(name, "rb") as file:
        return Flow.of(without_hooks(stacks_in(file, readable(os.fsencode(name)))))


class Flow:
    """What whole stacks say of functions: `own` instructions, those of `whole` stacks that a function is on, and those
    `below` each call of one function by another. A stack's instructions go once to each function and each call on it."""

    def __init__(self):
        self.total = 0
        self.own, self.whole, self.below = collections.Counter(), collections.Counter(), collections.Counter()

    def add(self, stack, instructions):
        self.total += instructions
        self.own[stack[-1]] += instructions
        for function in set(stack):
            self.whole[function] += instructions
        for call in set(zip(stack, stack[1:])):
            self.below[call] += instructions

    @classmethod
    def of(cls, stacks):
        flow = cls()
        for stack, instructions in stacks:
            flow.add(stack, instructions)
        return flow


class Levels:
    """What whole stacks say where a function that comes again on one is told apart: (name, 1) is a function the first time,
    and (name, 2) from the second time on. `below` a call are the stacks in which it reaches its callee the first time, or
    the second one, or in which its caller is there the first time. So what its whole stacks hold is both what comes into a
    function and its own with what goes out of it. Later calls are there, with nothing below them."""

    def __init__(self, stacks):
        self.own, self.below = collections.Counter(), collections.Counter()
        for stack, instructions in stacks:
            self.add(stack, instructions)

    def add(self, stack, instructions):
        times, before = collections.Counter(), None
        for name in stack:
            times[name] += 1
            node = name, min(times[name], 2)
            if before is not None:
                self.below[before, node] += instructions if times[name] <= 2 or before[1] == 1 else 0
            before = node
        self.own[before] += instructions

    def nodes(self):
        return {*self.own, *(node for call in self.below for node in call)}


def parts(whole, shares):
    """A whole number in parts that are as their shares, each less than one away, which together are the whole."""
    of_all, given, before = sum(shares), 0, 0
    for share in shares:
        before += share
        part = whole * before // of_all - given
        given += part
        yield part
