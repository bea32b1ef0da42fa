"""A jump to where there is no memory."""

from rvgprof_doctor.instructions import calls
from rvgprof_doctor.program import target_of
from rvgprof_doctor.text import listed

ROW = "`trap fetch-outside at 00000000`"


def calls_without_return(program, profile):
    """Calls by a register that were made once more than what stands behind them was executed."""
    for address in sorted(profile.executions):
        word = program.word(address)
        if word & 0x7F == 0x67 and calls(word) and target_of(program, address) is None:
            if profile.executions[address] > profile.executions[address + 4]:
                yield address


def find(known):
    if known.end.trap != "fetch-outside":
        return
    if known.end.address == 0 and known.program.mcount is None:
        remedy = "link examples/board/mcount.S: _mcount isn't there; or it is a null function"
    elif known.end.address == 0:
        remedy = "a function that is weak and isn't linked, or a null pointer to one"
    else:
        remedy = "a pointer or a return address that was damaged, as by a stack above 256 KiB; or code elsewhere"
    places = [known.place(address) for address in calls_without_return(known.program, known.profile)]
    by = f", maybe called at {listed(places)}" if places else ""
    yield f"{known.trap}: no memory is there{by}{known.callers}", remedy
