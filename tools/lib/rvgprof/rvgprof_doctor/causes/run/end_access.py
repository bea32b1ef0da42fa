"""A load or a store where there is no memory."""

from rvgprof_doctor.instructions import base_of, constant_of, spelled, stored_at
from rvgprof_doctor.program import value_before

ROW = "`trap store-outside`"


def device_or_null(program, address):
    """What an access outside of memory may be."""
    word = program.word(address)
    more = stored_at(word) if word & 0x7F == 0x23 else constant_of(word)
    value = value_before(program, address, base_of(word))
    if value is not None:
        value = value + more & 0xFFFFFFFF
        if value < 4096:
            return f", the address {value:08x}", "a null pointer: see what it is to point to"
        return (
            f", the address {value:08x}",
            "a device, which isn't there: the console and the end of examples/board/board.c in its place",
        )
    if base_of(word) == 2:
        return (
            ", by the stack pointer",
            "leave sp as it is at the entry, where rvgprof has set it; a script's __stack may lie outside of --ram",
        )
    return "", "a device (the console of examples/board/board.c in its place), a null pointer or one that was damaged"


def find(known):
    if known.end.trap in ("load-outside", "store-outside"):
        said, remedy = device_or_null(known.program, known.end.address)
        word = known.program.word(known.end.address)
        yield f"{known.trap}: {spelled(word)}{said}, isn't in memory{known.callers}", remedy
