"""A program that doesn't fit into memory: what `--ram` would do, or which memories lie apart."""

ROW = "`program too large`, by a few MiB"
STACKS = 2 << 20            # bytes of memory that are stacks
MOST = 256


def find(known):
    if known.ran.status != 10:
        return
    spans = sorted((virtual, virtual + in_memory) for virtual, _, _, in_memory in known.program.segments)
    base, end = spans[0][0] & ~0xFFF if spans else 0, max((high for _, high in spans), default=0)
    needed, most = -(-(end + STACKS - base) // 2**20), min(MOST, 2**32 - base >> 20)
    gaps = [(low - high, high, low) for (_, high), (low, _) in zip(spans, spans[1:])]
    if known.ram < needed <= most:
        yield f"it needs {needed} MiB with its stacks, and --ram is {known.ram}", f"--ram {needed}"
    elif needed <= most < known.ram:
        yield f"its memory begins at {base:08x}, and would end above 4 GiB with --ram {known.ram}", f"--ram {most}"
    elif not gaps or max(gaps)[0] < 2**20:
        yield f"its memory is too large ({known.ran.line()})", f"one memory of less than {MOST - 2} MiB"
    else:
        _, high, low = max(gaps)
        yield (
            f"its memories lie apart: nothing is between {high:08x} and {low:08x}, and all of it would take {needed} MiB",
            "code and data in one memory, as in examples/board/link.ld",
        )
