"""A call graph whose shares are far from those of the stacks."""

import collections
import math
import re

from rvgprof_doctor.text import some
from rvgprof_tools.running import readable

ROW = "A caller has far too much or too little time in the call graph"
FAR = 0.10                  # of all time
FEW = 100                   # samples, below which nothing is said
ENTRY = re.compile(rb"^\[(\d+)\] +([\d.]+) +[\d.]+ +[\d.]+.{22}  (.+) \[\1\]$", re.M)


def shares_of_graph(text):
    """The share of each function with its callees by the call graph. Those of cycles, which are pooled, aren't among them."""
    return {found[3]: float(found[2]) / 100 for found in ENTRY.finditer(text) if b" <cycle " not in b" " + found[3]}


def shares_of_stacks(stacks):
    """The share of the stacks that each function is on, and how many samples there are."""
    whole, total = collections.Counter(), 0
    for stack, samples in stacks:
        total += samples
        for name in set(stack.split(b";")):
            whole[name] += samples
    return {name: samples / total for name, samples in whole.items()}, total


def far_off(known, stacks):
    """The functions whose shares in the graph are far from those of stacks, those that differ most first."""
    of_graph, (of_stacks, total) = shares_of_graph(known.report.output), shares_of_stacks(stacks)
    names = collections.Counter(function.name for function in known.program.functions)
    rows = []
    for name, share in of_graph.items():
        exact = of_stacks.get(name, 0)
        far = abs(share - exact)
        if total >= FEW and names[name] == 1 and far > FAR + 4 * math.sqrt(exact * (1 - exact) / total):
            rows.append((-far, name, share, exact))
    return sorted(rows)


def find(known):
    if not known.end or not known.end.calls or known.shares.rows or known.profile.full() or not far_off(known, known.stacks):
        return
    rows = far_off(known, known.runs.stacks(1))
    if rows:
        said = ", ".join(f"{readable(name)} {100 * graph:.1f} % and exactly {100 * exact:.1f} %" for _, name, graph, exact in rows[:3])
        yield (
            f"note: the call graph shares times by calls, which is more than {100 * FAR:.0f} points off for "
            f"{some(len(rows), 'function', 'functions')}: {said}",
            "`rvgprof-calls ELF`, or `rvgprof folded ELF --every 1 --inclusive`, for exact times with callees",
        )
