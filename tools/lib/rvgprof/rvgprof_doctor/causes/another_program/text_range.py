"""A profile whose range can't be this program's."""

from rvgprof_doctor.profile import rounded_texts

ROW = "the profile another program's"


def find(known):
    low, high = known.program.low, known.program.high
    for profile in known.profiles:
        foreign = sorted(profile.ranges - set(rounded_texts(known.program)))
        if foreign:
            yield (
                f"{profile.name} is of another program: its range is {foreign[0][0]:08x} to {foreign[0][1]:08x}, and "
                f"the text {low:08x} to {high:08x}",
                "the program that ran",
            )
