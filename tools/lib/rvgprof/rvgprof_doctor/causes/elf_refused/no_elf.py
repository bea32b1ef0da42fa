"""A file that is no ELF file."""

from rvgprof_doctor.profile import looks_like_profile

ROW = "`bad elf: magic`"


def find(known):
    if known.refusal.kind not in ("short", "magic") or known.content[:4] == b"\x7fELF":
        return
    if looks_like_profile(known.content):
        yield (
            "it is no program but a profile",
            "the program is the first word; where a profile was written over it, link it again: the output is the last "
            "word of `run` and `profile`, and the first of `sum`",
        )
    elif known.content[:8] in (b"!<arch>\n", b"!<thin>\n"):
        yield "it is a library", "the linked program"
    else:
        yield "it is no ELF file", "the linked program, neither its source nor its .bin or .hex file"
