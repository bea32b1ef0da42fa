"""The words of the command line."""

import re

from rvgprof_tools.running import Refused

WITH_VALUE = ("--every", "--budget", "--ram", "--harts", "--quantum", "--seed", "--rate", "--hist", "--hash", "--image")
WITHOUT_VALUE = ("--gnu", "--blocks")
OF_REPORTS = ("-k", "--hide")


def value_of(option, words):
    """The value of an option, as far as this program looks at it."""
    value = next(words, None)
    if value is None:
        raise Refused(f"{option} has no value")
    if option == "-k" and not re.fullmatch("[^/]+/.+", value, re.S):
        raise Refused(f"-k {value} isn't understood: it is -k FROM/TO")
    if option in WITH_VALUE and option != "--image" and not re.fullmatch("[1-9][0-9]{0,9}", value):
        raise Refused(f"{option} {value} isn't understood: it is a number from 1 on")
    return value


def options_of(words):
    """The ELF file, the profiles, the options of the run, and those of reports."""
    operands, of_the_run, of_reports = [], {}, []
    words = iter(words)
    for word in words:
        if word in of_the_run:
            raise Refused(f"{word} is given twice")
        if word in WITHOUT_VALUE:
            of_the_run[word] = None
        elif word in WITH_VALUE:
            of_the_run[word] = value_of(word, words)
        elif word in OF_REPORTS:
            of_reports.append((word, value_of(word, words)))
        elif not word.startswith("-"):
            operands.append(word)
        elif "=" in word and word.split("=")[0] in WITH_VALUE + OF_REPORTS:
            raise Refused(f"{word} isn't understood: an option's value is the next word, {word.replace('=', ' ', 1)}")
        else:
            raise Refused(f"{word} isn't understood (see --help); a file of that name is ./{word}")
    if not 1 <= len(operands) <= 17:
        raise Refused("an ELF file, and none to sixteen profiles, are asked for (see --help)")
    if "--quantum" in of_the_run and "--seed" in of_the_run:
        raise Refused("--quantum and --seed can't stand side by side")
    return operands[0], operands[1:], of_the_run, of_reports
