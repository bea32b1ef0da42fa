"""A word that is no instruction of RV32IM, and what it is."""

from rvgprof_doctor.text import RV32IM

ROW = "`trap illegal`"
WITHOUT = "start code and drivers that do without it where rvgprof runs them, as examples/board/start.S"


def kind_of(word):
    """What a word is, and what mends it."""
    opcode = word & 0x7F
    if word == 0:
        return "no code", "see who goes there: `objdump -d` at the address; a script with `>ram AT>flash` leaves zeros"
    if word & 3 != 3:
        return "compressed", f"{RV32IM} for all sources and libraries"
    if opcode == 0x73:
        return ("a CSR" if word >> 12 & 3 else "privileged, as mret and wfi"), WITHOUT
    if opcode == 0x2F:
        return "an atomic", f"{RV32IM} for all sources and libraries, without an `a`; or plain accesses"
    if opcode in (0x07, 0x27, 0x43, 0x47, 0x4B, 0x4F, 0x53):
        return "a float", f"{RV32IM} for all sources and libraries, without `f` and `d`"
    return "of another extension", f"{RV32IM} for all sources and libraries"


def find(known):
    if known.end.trap == "illegal":
        word = known.program.word(known.end.address)
        kind, remedy = kind_of(word)
        yield f"{known.trap}: {word:08x} is {kind}{known.callers}", remedy
