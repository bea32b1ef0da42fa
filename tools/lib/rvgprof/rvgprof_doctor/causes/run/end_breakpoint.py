"""An `ebreak`, which asks a debugger."""

ROW = "`trap breakpoint`"


def find(known):
    if known.end.trap != "breakpoint":
        return
    program, address = known.program, known.end.address
    if program.word(address - 4) == 0x01F01013 and program.word(address + 4) == 0x40705013:
        yield (
            f"{known.trap}: an ebreak that asks a debugger to print or to end (semihosting){known.callers}",
            "environment calls in its place, as in examples/board/board.c; no --oslib=semihost and no --crt0=semihost",
        )
    else:
        yield f"{known.trap}: an ebreak, as of __builtin_trap or an assertion{known.callers}", "see what leads there"
