"""Compressed instructions, or the 16 registers of RVE."""

from rvgprof_doctor.text import RV32IM

ROW = "`bad elf: flags 1`"


def find(known):
    number = known.refusal.first
    if known.refusal.kind == "flags" and number & 1:
        yield f"it has compressed instructions (flags {number})", f"{RV32IM} for all sources, and for libraries too"
    elif known.refusal.kind == "flags":
        yield f"it is for the 16 registers of RVE (flags {number})", RV32IM
