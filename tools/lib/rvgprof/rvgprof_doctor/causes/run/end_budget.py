"""A run that didn't end, and where it was. Further harts may well stand still, and wait."""

import collections

from rvgprof_doctor.instructions import STAYS
from rvgprof_doctor.text import percent

ROW = "the program doesn't exit"


def find(known):
    if known.end.how != "budget":
        return
    program, executions, total = known.program, known.profile.executions, known.end.instructions
    stays = [at for at, times in executions.items() if program.word(at) == STAYS and times > 1]
    if stays and known.harts == 1:
        yield (
            f"budget: the run stands still at {stays[0]:08x} in {program.place(stays[0])} and doesn't exit",
            "exit by environment call 93, as examples/board/board.c; picolibc's start code does with --crt0=hosted",
        )
        return
    often = collections.Counter()
    for address, count in executions.items():
        often[program.name(address)] += count
    name, count = (often.most_common(1) or [("no function", 0)])[0]
    yield (
        f"budget: the run didn't end within {total} instructions, {percent(count, total)} of them in {name}",
        "a larger --budget; or let it exit (environment call 93, picolibc's --crt0=hosted), and wait for no device",
    )
