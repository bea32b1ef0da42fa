"""A big-endian program."""

ROW = "`bad elf: order 2`"


def find(known):
    if known.refusal.kind == "order":
        yield (
            f"its bytes are in big-endian order (order {known.refusal.first})", "a compiler for little-endian RISC-V"
        )
