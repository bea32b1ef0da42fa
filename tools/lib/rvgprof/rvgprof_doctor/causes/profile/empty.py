"""A profile without samples or calls, where its run isn't known."""

ROW = "`0 calls`"


def find(known):
    for profile in () if known.end else known.profiles:
        if not profile.samples():
            yield f"no sample is in {profile.name}", "a smaller --every; or profiling was switched off"
        if not profile.arcs:
            yield f"no call is in {profile.name}", "-pg for all sources, and a function _mcount"
