"""A load or a store at an address that is no multiple of its width."""

from rvgprof_doctor.instructions import spelled

ROW = "`trap load-misaligned`"


def find(known):
    if known.end.trap in ("load-misaligned", "store-misaligned"):
        word = known.program.word(known.end.address)
        yield (
            f"{known.trap}: {spelled(word)} accesses an address that is no multiple of its width{known.callers}",
            "-mstrict-align, and no casts to wider pointers; or a pointer that was damaged",
        )
