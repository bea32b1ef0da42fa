"""A `moncontrol` that is put in place of its calls. One that is `ret` alone may be of assembler and not wanted."""

from rvgprof_doctor.instructions import RET
from rvgprof_doctor.program import is_referred_to

ROW = "`moncontrol` switches nothing"


def find(known):
    program, switch = known.program, known.program.moncontrol
    if switch is None:
        inlined = program.names_switch
    else:
        inlined = program.word(switch) != RET and not is_referred_to(program, switch)
    if inlined:
        yield (
            "no instruction calls moncontrol, whose calls were inlined: it switches nothing",
            "write it in assembler, as in examples/board, or in a source of its own without -flto",
        )
