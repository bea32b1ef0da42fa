"""How findings are said."""

RV32IM = "-march=rv32im -mabi=ilp32"
MOST_LINES = 5              # of one kind of trouble


def percent(part, whole):
    return f"{100 * part / whole if whole else 0:.2f} %"


def some(count, one, more):
    """A number and what it counts."""
    return f"{count} {one if count == 1 else more}"


def listed(names):
    """Some names in a line."""
    names = list(dict.fromkeys(names))
    rest = f" and {len(names) - MOST_LINES} more" if len(names) > MOST_LINES else ""
    return ", ".join(names[:MOST_LINES]) + rest
