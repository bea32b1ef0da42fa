"""A program's file is larger than rvgprof reads."""

ROW = "`too large a.elf`"


def find(known):
    if known.symbols.status == 9:
        yield (
            "its file is above 64 MiB", "`objcopy --strip-debug` keeps functions and sections, and takes out the rest"
        )
