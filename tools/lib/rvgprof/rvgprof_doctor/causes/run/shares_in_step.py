"""Samples that are in step with a loop."""

from rvgprof_doctor.shares import rate_that_agrees

ROW = "One function of a loop has all of the loop's time"


def find(known):
    if known.hist <= 2 and known.shares.rows and not known.profile.full():
        number = rate_that_agrees(known.runs, known.every, known.shares.exact)
        yield (
            f"samples are in step with a loop{known.shares.figures()}",
            (f"--every {number}; or " if number else "") + "`rvgprof folded ELF --every 1`, with each instruction",
        )
