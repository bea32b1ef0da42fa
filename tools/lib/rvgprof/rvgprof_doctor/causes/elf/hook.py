"""No functions, or no `_mcount`."""

from rvgprof_tools.running import readable

ROW = "`mcount -`"
OTHERS = b"mcount", b"__mcount", b"_mcount_"


def find(known):
    program = known.program
    others = [function.name for function in program.functions if function.name in OTHERS]
    if not program.functions:
        yield "it has no function symbols, so that no time lies in a function", "don't strip it"
    elif program.mcount is None and others:
        yield f"its hook is named {readable(others[0])}, and no call is counted", "name it _mcount"
    elif program.mcount is None:
        yield (
            "it has no function _mcount, so that no call is counted",
            "-pg for all sources, and link examples/board/mcount.S; `rvgprof folded` knows stacks without it",
        )
