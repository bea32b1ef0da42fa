"""Stacks that skip callers."""

from rvgprof_doctor.text import some

ROW = "A call stack lacks callers"
DEEPEST = 128               # the callers that a stack keeps


def find(known):
    deep = sum(samples for stack, samples in known.stacks if stack.count(b";") >= DEEPEST)
    if deep:
        yield (
            f"calls are more than {DEEPEST} deep: of {some(deep, 'sample', 'samples')} `folded` keeps the oldest "
            f"{DEEPEST} callers",
            "the numbers of calls of the call graph, which has all; its times with callees are shared by calls",
        )
