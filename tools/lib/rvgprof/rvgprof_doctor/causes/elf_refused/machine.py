"""A program for another processor."""

from rvgprof_doctor.text import RV32IM

ROW = "`machine N`"


def find(known):
    if known.refusal.kind == "machine":
        yield f"it is for another processor (machine {known.refusal.first})", f"riscv64-unknown-elf-gcc {RV32IM}"
