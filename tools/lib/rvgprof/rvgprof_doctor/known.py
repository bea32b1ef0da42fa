"""What is known of a program, its run and its profiles. Each is read once, when a cause first asks for it."""

import collections
import functools
import re

from rvgprof_doctor.asking import Answer
from rvgprof_tools.running import Refused, operand, readable
from rvgprof_doctor.profile import shown
from rvgprof_doctor.program import Program
from rvgprof_doctor.runs import Runs, end_of
from rvgprof_doctor.shares import Shares, primes_near
from rvgprof_tools.sources import sources_of

MOST = 64 << 20             # bytes of a file
Refusal = collections.namedtuple("Refusal", "kind first second text")


def read(name, most):
    """The first bytes of a file."""
    try:
        with open(name, "rb") as file:
            return file.read(most)
    except OSError as error:
        raise Refused(f"{name}: {error.strerror}") from error


class Known:
    """A program by its file's name, profiles that are there, and the options of a run and of reports."""

    def __init__(self, elf, gmons, options, of_reports, folder):
        self.elf, self.gmons, self.options, self.of_reports = elf, gmons, options, of_reports
        self.content = read(elf, MOST + 1)
        self.runs = Runs(elf, options, folder)
        self.every, self.ram, self.harts, self.hist = (
            int(options.get(name, usual)) for name, usual in (("--every", 1000), ("--ram", 64), ("--harts", 1), ("--hist", 2))
        )

    @functools.cached_property
    def symbols(self):
        """What `syms` answers."""
        return Answer(["syms", operand(self.elf)])

    @functools.cached_property
    def refusal(self):
        """For what rvgprof refuses the program's file, and the numbers that it says."""
        text = self.symbols.line().removeprefix("bad elf: ")
        if self.symbols.status != 2:
            return Refusal("", 0, 0, text)
        kind = re.match(r"[a-z ]*[a-z]|", text)[0]
        return Refusal(kind, *(list(map(int, re.findall(r"\d+", text))) + [0, 0])[:2], text)

    @functools.cached_property
    def program(self):
        return Program(self.content, self.symbols.output)

    @functools.cached_property
    def ran(self):
        """What a run answers."""
        answer = self.runs.run(self.runs.file)
        if answer.status == 1:
            raise Refused("an option's value isn't understood by rvgprof (see man rvgprof)")
        return answer

    @functools.cached_property
    def end(self):
        """How the run ended, or nothing where there are profiles in place of one."""
        return None if self.gmons else end_of(self.ran)

    @functools.cached_property
    def profiles(self):
        return [shown(name) for name in self.gmons or [self.runs.file]]

    @property
    def profile(self):
        """That of the run."""
        return self.profiles[0]

    @functools.cached_property
    def arcs(self):
        """The calls of all profiles."""
        return sum((profile.arcs for profile in self.profiles), collections.Counter())

    @functools.cached_property
    def report(self):
        """What a report of the profiles answers."""
        return Answer(["report", operand(self.elf), *map(operand, self.gmons or [self.runs.file])])

    @functools.cached_property
    def refused_profile(self):
        """The profile that is refused, and its first bytes."""
        line = self.report.line()
        named = next((name for name in self.gmons if line.startswith(f"bad profile {operand(name)}: ")), self.gmons[0])
        return named, read(named, 64)

    @functools.cached_property
    def shares(self):
        return Shares(self.program, self.profile, self.stacks, self.runs, self.every)

    @functools.cached_property
    def stacks(self):
        """Stacks at a rate near that of the run, with which it has no factor in common."""
        return self.runs.stacks(next(primes_near(self.every))) if self.profile.samples() else []

    @functools.cached_property
    def trap(self):
        """The beginning of what is said of a trap: which it is, and where by function, file and line."""
        where = f"trap {self.end.trap} at {self.end.address:08x}"
        if self.end.trap == "fetch-outside":
            return where
        return f"{where} in {self.place(self.end.address)}"

    def place(self, address):
        """An address by its function, and by file and line where -g and addr2line tell them."""
        source = sources_of(self.elf, [address]).get(address)
        return self.program.place(address) + (f" ({source[0]}:{source[1]})" if source else "")

    @functools.cached_property
    def callers(self):
        """The calls that lead to a trap, where one hart runs: the stack behind the last instruction, or in front of it."""
        count, hook = self.end.instructions, b";_mcount"
        for every in (count, count - 1) if self.harts == 1 and count > 2 else ():
            for stack, _ in self.runs.stacks(every):
                return f"; the calls: {readable(stack.removesuffix(hook))}"
        return ""
