"""A longjmp or a task switch, and how many of the stacks lie below calls that it left.

`folded` takes a call off where something returns to it. The frames that a longjmp leaves stay, with the calls of what
goes on below them: so on such a stack stands, above the function that called longjmp, one that it doesn't call.
"""

import collections

from rvgprof_doctor.program import target_of
from rvgprof_doctor.text import listed, percent
from rvgprof_tools.running import readable

ROW = "show code that runs after a `longjmp`"
LEAST = 0.01                # of the samples
SP, FRAME = 2, 8


def sets_stack_pointer(word):
    """Whether an instruction loads the stack pointer, or copies it from a register that isn't the frame's."""
    if word >> 7 & 31 != SP:
        return False
    return word & 0x707F == 0x2003 or word & 0xFFF0707F == 0x13 and word >> 15 & 31 not in (SP, FRAME)


def switches(program, executions):
    """The functions outside of start code that were seen to set the stack pointer."""
    found = {program.at(address) for address in executions if sets_stack_pointer(program.word(address))}
    return sorted(function.name for function in found - {None, program.at(program.entry)})


class Above:
    """What may stand above a function on a stack: what it calls, and what that goes to by jumps."""

    def __init__(self, program):
        self.calls, self.jumps = collections.defaultdict(set), collections.defaultdict(set)
        self.anywhere = set()       # functions with a call, and (NAME, "jump") those with a jump, by a register
        self.known = {}
        for address, word in program.words():
            link = word >> 7 & 31
            if word & 0x7F in (0x6F, 0x67) and link in (0, 1) and word != 0x8067:
                self.add(program, address, link)

    def add(self, program, address, link):
        """Adds a call, or a jump out of a function."""
        caller, target = program.at(address), target_of(program, address)
        callee = None if target is None else program.at(target)
        if caller and target is None:
            self.anywhere.add(caller.name if link else (caller.name, "jump"))
        elif caller and callee and (link or caller is not callee):
            (self.calls if link else self.jumps)[caller.name].add(callee.name)

    def of(self, name):
        """The functions that may stand above one, and whether a register may lead to others."""
        if name not in self.known:
            found, waiting = set(), list(self.calls[name])
            while waiting:
                callee = waiting.pop()
                if callee not in found:
                    found.add(callee)
                    waiting += self.jumps[callee]
            self.known[name] = found, name in self.anywhere or any((callee, "jump") in self.anywhere for callee in found)
        return self.known[name]

    def is_left(self, stack, switching):
        """Whether a stack has a call that was left: above a function that calls what switches one that it doesn't call,
        or by a register only, and that stands below it already."""
        for place, (name, above) in enumerate(zip(stack, stack[1:])):
            callees, more = self.of(name)
            if above not in callees and not callees.isdisjoint(switching) and (not more or above in stack[:place]):
                return True
        return False


def find(known):
    names = switches(known.program, known.profile.executions)
    if not names:
        return
    above, total = Above(known.program), sum(samples for _, samples in known.stacks)
    left = sum(samples for stack, samples in known.stacks if above.is_left(stack.split(b";"), names))
    if left and left >= LEAST * total:
        yield (
            f"{listed(map(readable, names))} sets the stack pointer (longjmp, or a task switch): {percent(left, total)} "
            "of the samples of `folded` lie below calls that were left, which keep them until their caller returns",
            "read each function's own time, which is right, and the functions above the last switch. The call graph has "
            "the right numbers of calls, but shares times by them",
        )
