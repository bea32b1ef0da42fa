"""Samples in no function."""

import collections
import re

from rvgprof_tools.running import Refused
from rvgprof_doctor.text import percent

ROW = "`outside` above 0"


def find(known):
    found = re.match(rb"flat profile\nattributed (\d+), outside (\d+), rate", known.report.output)
    if known.report.status != 0 or not found:
        raise Refused(known.report.line())
    attributed, outside = int(found[1]), int(found[2])
    if not outside or not known.program.functions:
        return
    lost = collections.Counter()
    for profile in known.profiles:
        lost.update({at: count for at, count in profile.counters.items() if known.program.at(at) is None})
    where = f", most at {lost.most_common(1)[0][0]:08x}" if lost else ""
    yield (
        f"{percent(outside, attributed + outside)} of the samples lie in no function{where}",
        "the program that ran, unstripped; a label of assembler is a function with .globl, or .type NAME, @function",
    )
