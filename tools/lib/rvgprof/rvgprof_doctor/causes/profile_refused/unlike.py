"""Profiles that can't be added up."""

ROW = "`unlike g: range`"
MEANINGS = {"rate": "another --rate", "dimension": "another unit"}
OTHER_RANGE = "another range: of another program or build, or of another --hist or --hash"


def find(known):
    if known.report.status == 4:
        line = known.report.line()
        unlike = MEANINGS.get(line.rpartition(": ")[2], OTHER_RANGE)
        yield f"profiles can't be added up: {line} ({unlike} than those before)", "profiles that are alike"
