"""No code by the section headers, or code too far apart."""

ROW = "`bad elf: text range 0 0`"


def find(known):
    kind, low, high, _ = known.refusal
    if kind != "text range":
        return
    if (low, high) == (0, 0):
        yield (
            "it has no section headers, or none with code (text range 0 0)",
            "don't cut them off: neither `strip --strip-section-headers` nor another tool that leaves segments alone",
        )
        return
    yield (
        f"its text reaches from {low:08x} to {high:08x}, {(high - low) / 2**20:.1f} MiB, and may have 16",
        "all code in one memory, and -ffunction-sections -Wl,--gc-sections where it is too much",
    )
