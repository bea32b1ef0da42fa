"""More functions than a program may have."""

ROW = "`bad elf: too many symbols`"


def find(known):
    if known.refusal.kind == "too many symbols":
        yield (
            f"it has {known.refusal.first} functions, and may have 65536",
            "fewer: -Wl,--gc-sections, -Wl,--discard-all",
        )
