"""A file that is no profile of a program of 32 bits, or not all of one."""

from rvgprof_doctor.profile import is_of_64_bits, looks_like_profile

ROW = "`bad profile g: range`"


def find(known):
    if known.report.status != 3:
        return
    (name, content), line = known.refused_profile, known.report.line()
    if content[:4] == b"\x7fELF":
        yield f"{name} is a program", "the program is the first word, and its profiles follow"
    elif is_of_64_bits(content):
        yield f"{name} is of a host of 64 bits ({line})", "a profile of a program of 32 bits"
    elif looks_like_profile(content):
        yield f"{name} is cut off or damaged ({line})", "copy all of it, or make it anew"
    else:
        yield f"{name} is no profile ({line})", "a gmon.out file, written by `rvgprof run` or an mcount runtime"
