"""Stacks of samples, as `rvgprof folded` prints them: a line for each, its functions from the oldest call on, and a number."""

import re
import subprocess

from .running import Refused, look_at, operand, passed_over, program, readable, started

LINE = re.compile(rb"(.+) ([0-9]{1,18})\n?")


def stacks_in(lines, source):
    """The functions and the samples of each stack, line by line."""
    none = True
    for number, line in enumerate(lines, 1):
        parts = LINE.fullmatch(line)
        if not parts:
            shown = readable(line.rstrip(b"\n")[:60])
            raise Refused(f"line {number} of {source} is no stack: {shown}")
        none = False
        yield parts[1].split(b";"), int(parts[2])
    if none:
        raise Refused(f"no sample is in {source}")


def lines_of_run(elf, options, printed=None):
    """The lines of stacks of a run. The program's own output stands before them, so a first run says how long it is."""
    elf = operand(elf)
    if printed is None:
        with started([program(), "run", elf, "/dev/null", *options], subprocess.DEVNULL) as run:
            printed = passed_over(run.stdout)
    with started([program(), "folded", elf, *options]) as folded:
        passed_over(folded.stdout, printed)
        yield from folded.stdout
    look_at(folded.returncode)
