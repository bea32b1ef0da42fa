"""A jump to an address that is no multiple of 4."""

from rvgprof_doctor.text import RV32IM

ROW = "`trap jump-misaligned`"


def find(known):
    if known.end.trap == "jump-misaligned":
        yield (
            f"{known.trap}: it jumps to an address that is no multiple of 4{known.callers}",
            f"{RV32IM}, without compressed code; or a pointer or a return address that was damaged",
        )
