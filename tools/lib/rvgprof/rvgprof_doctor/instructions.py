"""Instructions, as words."""

RET = 0x00008067
STAYS = 0x0000006F          # a jump to itself
LOADS = {0: "lb", 1: "lh", 2: "lw", 4: "lbu", 5: "lhu"}
WRITES = {0: "sb", 1: "sh", 2: "sw"}


def signed(value, bits):
    return value - (1 << bits) if value >> bits - 1 & 1 else value


def jump_of(word):
    """How far a jal goes."""
    far = (word >> 31 & 1) << 20 | (word >> 12 & 0xFF) << 12 | (word >> 20 & 1) << 11 | (word >> 21 & 0x3FF) << 1
    return signed(far, 21)


def register_of(word):
    """The register that an instruction writes, 0 where it is a store or a branch."""
    return 0 if word & 0x7F in (0x23, 0x63) else word >> 7 & 31


def constant_of(word):
    """The constant of an instruction that isn't a store."""
    return signed(word >> 20, 12)


def base_of(word):
    return word >> 15 & 31


def calls(word):
    """Whether a word is a call."""
    return word & 0x7F in (0x6F, 0x67) and word >> 7 & 31 == 1


def stored_at(word):
    """The constant of a store."""
    return signed(word >> 25 << 5 | word >> 7 & 31, 12)


def spelled(word):
    """An instruction that accesses memory, or a word."""
    kind, base = word >> 12 & 7, base_of(word)
    if word & 0x7F == 0x03 and kind in LOADS:
        return f"{LOADS[kind]} x{word >> 7 & 31}, {constant_of(word)}(x{base})"
    if word & 0x7F == 0x23 and kind in WRITES:
        return f"{WRITES[kind]} x{word >> 20 & 31}, {stored_at(word)}(x{base})"
    return f"{word:08x}"
