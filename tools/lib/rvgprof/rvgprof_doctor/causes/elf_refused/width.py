"""A program of 64 bits."""

from rvgprof_doctor.text import RV32IM

ROW = "`bad elf: class 2`"


def find(known):
    number = known.refusal.first
    if known.refusal.kind == "class":
        yield f"it is of {'64 bits' if number == 2 else 'no known width'} (class {number})", RV32IM
