"""How a check compares, fails and ends: a line for each difference, and status 1 where there is one."""

import importlib.machinery
import importlib.util
import os
import pathlib
import shutil
import sys

TOP = pathlib.Path(__file__).resolve().parent.parent.parent
FIRMWARE = TOP / "crates/test_commands/data/firmware.elf"
# So many differences end a check: what comes behind them tells no more.
MOST = 20


def program_given(doc):
    """The program that the command line names. Without one a check says what it does, or that nothing can be tried."""
    if len(sys.argv) != 2 or sys.argv[1].startswith("-"):
        sys.exit(doc)
    program = os.path.realpath(sys.argv[1])
    if not os.access(program, os.X_OK):
        print(f"{sys.argv[1]} isn't there: nothing was tried")
        sys.exit(0)
    return program


def program_of(path):
    """A program of the repository as a module, so that its functions can be tried."""
    name = path.rpartition("/")[2].replace("-", "_")
    loader = importlib.machinery.SourceFileLoader(name, str(TOP / path))
    module = importlib.util.module_from_spec(importlib.util.spec_from_loader(name, loader))
    loader.exec_module(module)
    return module


def missing(*tools):
    """The first tool that isn't there, or nothing."""
    return next((tool for tool in tools if not shutil.which(tool)), None)


def shown(value):
    """A value in one line, its front where it is long."""
    text = ascii(value)
    return text if len(text) <= 600 else f"{text[:600]} .."


class Comparisons:
    """What was compared, and how often it differed."""

    def __init__(self):
        self.made, self.differ = 0, 0

    def same(self, what, got, want):
        """Compares, and says where it differs; of long bytes from where on."""
        self.made += 1
        if got == want:
            return True
        if isinstance(got, bytes) and isinstance(want, bytes) and len(got) + len(want) > 600:
            return self.wrong(f"{what}: {self.place(got, want)}")
        return self.wrong(f"{what}: {shown(got)} in place of {shown(want)}")

    @staticmethod
    def place(got, want):
        """Where long bytes begin to differ."""
        ends = min(len(got), len(want))
        at = next((i for i in range(ends) if got[i] != want[i]), ends)
        near = slice(max(0, at - 60), at + 60)
        return f"{got[near]} in place of {want[near]}, from byte {at} on, of {len(got)} and {len(want)} bytes"

    def holds(self, what, is_so):
        """Looks that something is so."""
        self.made += 1
        return True if is_so else self.wrong(what)

    def wrong(self, line):
        """Says what is wrong."""
        self.differ += 1
        print(line, flush=True)
        if self.differ == MOST:
            print(f"{MOST} differ: the rest wasn't tried")
            sys.exit(1)
        return False

    def end(self, what="comparisons"):
        """Says how many there were, and ends the check."""
        print(f"{self.made} {what}, {self.differ} of them differ")
        sys.exit(self.differ != 0)
