"""The causes of troubles. Each is a module in a folder that says when it is looked for:

elf_refused, run_refused, profile_refused    what it means that rvgprof refuses a program, a run or a profile
elf, run                                     what a program's file or a run has
another_program                              what shows that a profile isn't this program's, so that no more is looked for
profile                                      what the profile of a run, or those that are given, have
note                                         what is no trouble, and to be known; the line begins with `note: `

A cause has `ROW`, words that stand in its row of docs/TROUBLES.md, and `find(known)`, which yields what is found and the
remedy. A new cause is a new file. Those of a folder are looked for in the order of their names.
"""

import importlib
import pkgutil


def causes_in(folder):
    """The causes in a folder."""
    package = importlib.import_module(f"{__name__}.{folder}")
    names = sorted(found.name for found in pkgutil.iter_modules(package.__path__))
    return [importlib.import_module(f"{package.__name__}.{name}") for name in names]


def found_in(folder, known):
    """What the causes in a folder find."""
    for cause in causes_in(folder):
        yield from cause.find(known)
