"""Full counters, whose they are, and how many samples of a run had no room."""

import collections

from rvgprof_doctor.profile import FULL
from rvgprof_doctor.shares import next_prime
from rvgprof_doctor.text import listed, percent, some

ROW = "A tight loop has too little time"


def find(known):
    for profile in known.profiles:
        full = profile.full()
        if not full:
            continue
        owned = collections.Counter(known.program.name(address) for address in full)
        said = some(len(full), "counter is", "counters are") + f" full, at {FULL} samples: of "
        said += listed(f"{name} ({count})" for name, count in owned.most_common())
        if known.end is None:
            yield (
                f"{said}; how many more there were isn't in a profile, and their shares are too small",
                "run it with a larger --every, or see `rvgprof folded ELF --inclusive`, which has no limit",
            )
            continue
        without = known.end.samples - profile.samples()
        enough = next_prime(max(known.every + 1, -(-known.end.instructions // FULL)))
        yield (
            f"{said}; {without} of {known.end.samples} samples ({percent(without, known.end.samples)}) had no room"
            f"{known.shares.figures()}",
            f"--every {enough}, with which none can be full; or `rvgprof folded ELF --inclusive`, which has no limit",
        )
