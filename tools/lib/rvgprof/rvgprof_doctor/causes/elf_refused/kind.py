"""An ELF file that isn't a linked program."""

ROW = "`bad elf: kind 1`"
NAMES = {1: "an object file", 3: "a shared or position-independent file", 4: "a core file"}
REMEDIES = {1: "the linked program (`-r` doesn't link it)", 3: "-static -no-pie"}


def find(known):
    number = known.refusal.first
    if known.refusal.kind == "kind":
        yield f"it is {NAMES.get(number, 'no program')} (kind {number})", REMEDIES.get(number, "the linked program")
