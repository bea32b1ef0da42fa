"""Samples in the helpers of -msave-restore, which are called by t0, and so stand below the caller's caller."""

from rvgprof_doctor.text import percent

ROW = "`-msave-restore`"
LEAST = 0.05                # of the samples
HELPERS = b"__riscv_save_", b"__riscv_restore_"


def find(known):
    if not known.end:
        return
    total = sum(samples for _, samples in known.stacks)
    helping = sum(samples for stack, samples in known.stacks if stack.rpartition(b";")[2].startswith(HELPERS))
    if helping and helping >= LEAST * total:
        yield (
            f"note: {percent(helping, total)} of the samples lie in the helpers of -msave-restore, which are called by t0: "
            "in `folded` they stand below the caller of the function that uses them",
            "-mno-save-restore for your sources; picolibc is built with these helpers",
        )
