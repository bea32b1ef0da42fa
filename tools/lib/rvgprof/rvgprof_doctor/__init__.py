"""Finds the troubles of a program, its run and its profiles."""

from rvgprof_tools.running import Refused
from rvgprof_doctor.causes import found_in


def meaning(answer, folder, known):
    """What it means that rvgprof refuses something."""
    found = list(found_in(folder, known))
    if not found:
        raise Refused(answer.line())
    return found


def findings(known):
    """All troubles, each with its remedy. Behind a refusal there is nothing to be looked at."""
    if known.symbols.status != 0:
        yield from meaning(known.symbols, "elf_refused", known)
        return
    yield from found_in("elf", known)
    if known.gmons and known.report.status != 0:
        yield from meaning(known.report, "profile_refused", known)
        return
    if known.gmons:
        others = list(found_in("another_program", known))
        yield from others
        if others:
            return
    elif known.ran.status != 0:
        yield from meaning(known.ran, "run_refused", known)
        return
    else:
        yield from found_in("run", known)
    yield from found_in("profile", known)
    yield from found_in("note", known)
