"""A profile whose calls can't be this program's."""

from rvgprof_doctor.profile import rounded_texts
from rvgprof_doctor.program import is_behind_call

ROW = "the profile of another build"


def find(known):
    program = known.program
    for profile in known.profiles:
        if not program.segments or profile.ranges - set(rounded_texts(program)):
            continue
        wrong = {callee for _, callee in profile.arcs if not is_behind_call(program, callee, program.mcount)}
        if profile.sites_are_exact():
            wrong |= {site for site, _ in profile.arcs if not is_behind_call(program, site)}
        if wrong:
            yield (
                f"{profile.name} is of another build: of its {len(profile.arcs)} calls some have addresses with no call "
                f"in front of them in this program, as {min(wrong):08x} in {program.name(min(wrong))}",
                "the program that ran, and a new run after each build",
            )
