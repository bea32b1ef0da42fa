"""What rvgprof answers."""

import os
import tempfile

from rvgprof_tools.running import Refused, passed_over, program, started


class Answer:
    """What rvgprof answers: its status, how many bytes it passed over, its output behind them, and its last line."""

    def __init__(self, words, keep_from=0):
        with tempfile.TemporaryFile() as errors:
            with started([program(), *words], errors) as asked:
                self.passed = passed_over(asked.stdout, keep_from)
                self.output = asked.stdout.read()
            self.status = asked.returncode
            errors.seek(max(0, errors.seek(0, os.SEEK_END) - 8192))
            self.errors = errors.read()

    def line(self):
        """Its last line on the error output, without its name in front."""
        lines = self.errors.decode("utf-8", "backslashreplace").splitlines()
        return lines[-1].removeprefix("rvgprof: ") if lines else f"rvgprof ended with status {self.status}"


def asked(*words):
    """What rvgprof prints where it is done, which it can be but for want of memory or files."""
    answer = Answer(words)
    if answer.status != 0:
        raise Refused(answer.line())
    return answer.output
