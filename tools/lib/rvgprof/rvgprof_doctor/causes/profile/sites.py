"""Calls that don't return, or stand last in a function, and are booked to the next one."""

from rvgprof_doctor.instructions import calls
from rvgprof_doctor.program import target_of
from rvgprof_doctor.text import MOST_LINES, some

ROW = "A function seems to call something that it never calls"


def returns_into_next(program, site, callee):
    """Whether a call's return address is the first byte of a function that doesn't make the call."""
    if not program.begins_at(site) or not calls(program.word(site - 4)):
        return False
    goes = target_of(program, site - 4)
    return goes is None or program.at(goes) == program.at(callee)


def find(known):
    program = known.program
    found = sorted(arc for arc in known.arcs if returns_into_next(program, *arc))
    for number, (site, callee) in enumerate(found[:MOST_LINES], 1):
        caller, of = program.name(site - 4), program.name(callee)
        rest = f" (and {len(found) - MOST_LINES} such call sites more)" if number == MOST_LINES < len(found) else ""
        yield (
            f"{program.name(site)} stands as caller of {of} in place of {caller}, since its first byte {site:08x} is "
            f"the return address: {some(known.arcs[site, callee], 'call', 'calls')}{rest}",
            f"-fpatchable-function-entry=1,1 for all sources; or no_instrument_function for {of}",
        )
