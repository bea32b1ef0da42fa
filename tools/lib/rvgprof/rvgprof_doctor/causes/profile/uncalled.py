"""Words -k whose functions are there, and no call."""

from rvgprof_tools.running import readable
from rvgprof_doctor.text import listed

ROW = "or one doesn't call the other"


def find(known):
    program = known.program
    names = {readable(function.name) for function in program.functions}
    made = {(program.name(site), program.name(callee)) for site, callee in known.arcs}
    for option, value in known.of_reports:
        caller, _, callee = value.partition("/")
        if option == "-k" and {caller, callee} <= names and (caller, callee) not in made:
            callers = listed(sorted(by for by, to in made if to == callee)) or "none that is counted"
            yield f"-k {value}: no call of {callee} by {caller} is counted", f"its callers are {callers}"
