"""Runs of a program, and how they end."""

import collections
import os
import re
import sys

from rvgprof_doctor.asking import Answer
from rvgprof_tools.running import Refused, operand
from rvgprof_doctor.words import WITH_VALUE

OF_STACKS = ("--every", "--budget", "--ram", "--harts", "--quantum", "--seed")
END = re.compile(
    rb"rvgprof: (exit \d+|budget|trap ([a-z-]+) at ([0-9a-f]{8})) after (\d+) instructions: "
    rb"(\d+) samples, (\d+) calls, (\d+) lost, arcs (on|off|error)\n\Z"
)
End = collections.namedtuple("End", "how trap address instructions samples calls lost arcs")


class Runs:
    """Runs of a program with the options that were given, in a folder for their files."""

    def __init__(self, elf, options, folder):
        self.elf, self.options = operand(elf), options
        self.file = os.path.join(folder, "gmon.out")
        self.printed = 0

    def words(self, names, **others):
        """The options of some names as words, with other values for some; None takes one out."""
        values = {name: value for name, value in self.options.items() if name in names}
        values |= {"--" + name: value for name, value in others.items()}
        return [word for name, value in values.items() if value is not None for word in (name, str(value))]

    def run(self, file, **others):
        """Runs it for a profile with executions, and tells rvgprof's answer."""
        names = [name for name in WITH_VALUE if name != "--image"]
        answer = Answer(["run", self.elf, file, "--gnu", "--blocks", *self.words(names, **others)], sys.maxsize)
        self.printed = answer.passed
        return answer

    def stacks(self, every):
        """The stacks of a run that samples by another number, each with its samples."""
        answer = Answer(["folded", self.elf, *self.words(OF_STACKS, every=every)], self.printed)
        if answer.status != 0:
            raise Refused(answer.line())
        found = []
        for line in answer.output.splitlines():
            stack, _, samples = line.rpartition(b" ")
            if samples.isdigit():
                found.append((stack, int(samples)))
        return found


def end_of(answer):
    """How a run ended."""
    found = END.search(answer.errors)
    if not found:
        raise Refused(f"rvgprof tells no end of the run: {answer.line()}")
    how, trap, address = (part and part.decode() for part in found.group(1, 2, 3))
    numbers = map(int, found.group(4, 5, 6, 7))
    return End(how, trap, int(address, 16) if address else None, *numbers, found[8].decode())
