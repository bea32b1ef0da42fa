"""Names in -k and --hide that no function has."""

import difflib

from rvgprof_tools.running import readable

ROW = "`-k` does nothing"


def close_to(name, names):
    """Names that may be meant."""
    inside = [other for other in names if len(name) > 2 and name in other]
    inside.sort(key=lambda other: (not other.endswith(name), len(other)))
    return (inside + [other for other in difflib.get_close_matches(name, names) if other not in inside])[:3]


def find(known):
    names = sorted({readable(function.name) for function in known.program.functions})
    for option, value in known.of_reports:
        for name in value.split("/", 1) if option == "-k" else [value]:
            if name not in names:
                close = close_to(name, names)
                instead = f"maybe {' or '.join(close)}; " if close else ""
                yield (
                    f"{option} {value}: no function has the name {name}, so that it does nothing",
                    f"{instead}`rvgprof syms` has the names",
                )
