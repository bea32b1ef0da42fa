"""A function whose own frame is larger than the stack that a hart has."""

from rvgprof_doctor.instructions import signed
from rvgprof_doctor.program import value_before

ROW = "maybe by a stack above 256 KiB"
STACK = 256 << 10
ADD_TO_SP = 0x00010133      # add sp, sp, ..


def find(known):
    program = known.program
    for address in sorted(known.profile.executions):
        word = program.word(address)
        size = value_before(program, address, word >> 20 & 31) if word & 0xFE0FFFFF == ADD_TO_SP else None
        if size is not None and -signed(size, 32) > STACK:
            yield (
                f"{known.place(address)} takes {-signed(size, 32)} bytes of the stack, which has {STACK} for each hart: "
                "what lies below it is overwritten",
                "a static array, or malloc, in place of a large one on the stack",
            )
