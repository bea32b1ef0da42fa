"""Arcs that ran out, by the end of the run or as far as a profile tells."""

from rvgprof_doctor.profile import entries_of

ROW = "`arcs error`"
REMEDY = "more text: ROOM=256K of examples/board has room for 5242 calls more; --hash doesn't help"


def find(known):
    for profile in known.profiles:
        most = entries_of(*min(profile.ranges, default=(0, 0)))
        if known.end and known.end.arcs == "error":
            yield f"arcs error: there is room for {most} different calls, and those behind aren't counted", REMEDY
        elif not known.end and len(profile.arcs) >= most:
            yield (
                f"{profile.name} has {len(profile.arcs)} different calls, all that there is room for: "
                "some may be missing",
                REMEDY,
            )
