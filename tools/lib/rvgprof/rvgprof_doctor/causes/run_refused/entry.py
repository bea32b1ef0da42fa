"""A program that begins nowhere."""

ROW = "`entry outside`"


def find(known):
    if known.ran.status == 11:
        yield (
            f"the program's entry {known.program.entry:08x} is no multiple of 4, or not in memory",
            "ENTRY(_start) in the linker script, and a function _start in the text",
        )
