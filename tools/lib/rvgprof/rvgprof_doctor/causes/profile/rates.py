"""Profiles that were made with different `--every`, as far as executions or the same calls tell it."""

ROW = "runs of different `--every`"


def periods_of(profile):
    """The rates that a profile with executions may have been made with: from and to."""
    executed, samples = sum(profile.executions.values()), profile.samples()
    return executed / (samples + 1), executed / samples


def is_another_rate(first, second):
    """Whether two profiles of one program can't be of one `--every`."""
    if not first.samples() or not second.samples() or first.full() or second.full():
        return False
    if first.executions and second.executions:
        (low, high), (other_low, other_high) = periods_of(first), periods_of(second)
        return high < other_low or other_high < low
    most, least = max(first.samples(), second.samples()), min(first.samples(), second.samples())
    return bool(first.arcs) and first.arcs == second.arcs and most > 1.5 * least + 2


def find(known):
    first = known.profiles[0]
    second = next((profile for profile in known.profiles[1:] if is_another_rate(first, profile)), None)
    if second:
        why = "executions" if first.executions and second.executions else "the same calls"
        yield (
            f"{first.name} with {first.samples()} samples and {second.name} with {second.samples()} can't be of "
            f"one --every, by {why}: a report adds both as they are, and --every isn't in a profile",
            "profiles of one --every, told by the files' names",
        )
