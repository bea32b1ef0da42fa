"""A run without calls."""

from rvgprof_doctor.program import is_referred_to

ROW = "`0 calls`"


def find(known):
    end, program = known.end, known.program
    if end.calls or end.lost or program.mcount is None:
        return
    if not is_referred_to(program, program.mcount):
        yield "0 calls: no function calls _mcount", "-pg for all sources"
    else:
        yield (
            "0 calls, though functions call _mcount",
            "profiling was off (moncontrol), or the run ended before a function of -pg was called from the text",
        )
