"""Segments that are loaded elsewhere than a script thinks. Where all are, as for an offset, none stays behind."""

ROW = "`>ram AT>flash`"


def find(known):
    loaded = [segment for segment in known.program.segments if segment[2]]
    moved = [segment for segment in loaded if segment[0] != segment[1]]
    if moved and len(moved) < len(loaded):
        virtual, physical, content, _ = moved[0]
        yield (
            f"{len(content)} bytes of data at {virtual:08x} have their load address at {physical:08x} "
            "(`>ram AT>flash`), where rvgprof loads nothing: start code that copies them from there copies zeros",
            "say `>ram` in place of `>ram AT>flash` in the linker script, as examples/board/link.ld",
        )
