"""Profiles that are larger than rvgprof reads."""

ROW = "`too large g`"


def find(known):
    if known.report.status == 9:
        yield (
            f"profiles are above 64 MiB together ({known.report.line()})",
            "fewer of them, a sum's parts, or a larger --hist and --hash",
        )
