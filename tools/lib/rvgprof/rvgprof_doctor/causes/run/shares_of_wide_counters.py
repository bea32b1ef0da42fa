"""Counters that have parts of several functions."""

ROW = "Small functions have some of their neighbours' time"


def find(known):
    if known.hist > 2 and known.shares.rows and not known.profile.full():
        yield (
            f"counters of {2 * known.hist} bytes have parts of several functions{known.shares.figures()}",
            "--hist 2, with a counter for each instruction",
        )
