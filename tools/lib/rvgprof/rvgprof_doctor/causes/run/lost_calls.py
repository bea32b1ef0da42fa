"""Lost calls, and with which quantum fewer are."""

from rvgprof_doctor.runs import end_of

ROW = "With several harts, calls are missing"
QUANTUMS = 1000, 3, 5, 7


def find(known):
    end = known.end
    if not end.lost:
        return
    tried = []
    for quantum in QUANTUMS:
        tried.append((end_of(known.runs.run(known.runs.file + ".other", seed=None, quantum=quantum)).lost, quantum))
        if tried[-1][0] == 0:
            break
    least, quantum = min(tried)
    better = f"--quantum {quantum}, with which {least} are lost; or " if least < end.lost else ""
    yield (
        f"{end.lost} of {end.calls + end.lost} calls are lost: they met one that another hart was just counting",
        f"{better}another --quantum or --seed; a sum of runs doesn't bring lost calls back",
    )
