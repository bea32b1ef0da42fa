"""A run without samples."""

ROW = "`0 samples`"


def find(known):
    count = known.end.instructions
    if known.end.samples or known.end.trap:
        return
    if count >= known.every:
        yield f"0 samples, though {count} instructions were executed", "profiling was off: moncontrol(1) switches it on"
    else:
        yield (
            f"0 samples: the run has {count} instructions, fewer than --every {known.every}",
            f"--every {max(1, count // 1000)}",
        )
