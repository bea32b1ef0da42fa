"""Headers or tables of a program that say what can't be."""

ROW = "`bad elf: out of file`"
REMEDY = "link it again and copy all of it"


def find(known):
    if known.refusal.kind in ("out of file", "table size", "link"):
        yield f"its headers or tables are damaged, or it is cut off ({known.refusal.text})", REMEDY
    elif known.refusal.kind in ("short", "magic") and known.content[:4] == b"\x7fELF":
        yield "it is cut off", REMEDY
