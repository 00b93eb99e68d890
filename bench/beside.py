#!/usr/bin/env python3
"""Times two programs of the same surface in turn, and tells the ratio of their times.

    bench/beside.py FOLDER OURS OTHER [WORD..]

FOLDER has the texts that RUNS names, of which `bench.py --keep FOLDER` writes those at the limits; those
that are not there are left out. WORD.. stand before the form's own words in OTHER's runs. Each run is
taken REPS times (5 where the environment does not say), ours and the other's in turn; the least processor
time of each counts. The last line has the worst ratio. Where the two write other bytes or end with
another status, the script says so and ends with 1.
"""

import os
import resource
import subprocess
import sys

RUNS = [
    "demo 60", "solve demo60.net", "solve square.net", "solve dense.net", "solve chain10.net",
    "solve maid60.net", "solve text4m.net", "print text4m.net", "graph maid60.net", "trim maid60.net",
    "info maid60.net A", "info one60.net A", "info demo60.net agent", "control maid60.net A",
    "control one60.net A", "control demo60.net agent", "update one60.net", "update demo60.net",
    "update leaves20.net", "given maid60.net S0 1", "threshold maid60.net S0 1 1", "pure pure16.net",
    "check leaves20.net leaves20.report",
    "print comments.net", "print tokens.net", "print small_lists.net", "print brackets.net", "print string.net",
    "print chance_tables.net", "print utility_tables.net", "solve utility_tables.net", "solve utility_rows.net",
    "solve utility_decimals.net", "print long_data.net", "print many_decimals.net", "print long_names.net",
    "solve worlds.net", "solve chain.net", "graph decisions.net", "trim decisions.net", "graph ring.net",
]


def timed(command, folder):
    """What the command wrote and how it ended, and the processor time that it took."""
    before = resource.getrusage(resource.RUSAGE_CHILDREN)
    run = subprocess.run(command, cwd=folder, capture_output=True, timeout=600, check=False)
    after = resource.getrusage(resource.RUSAGE_CHILDREN)
    took = after.ru_utime + after.ru_stime - before.ru_utime - before.ru_stime
    return (run.returncode, run.stdout, run.stderr), took


def least_times(ours, other, folder, times):
    """The least time of each of the two commands, taken in turn, and whether they told the same."""
    least = [None, None]
    told = [None, None]
    for _ in range(times):
        for which, command in enumerate((ours, other)):
            told[which], took = timed(command, folder)
            least[which] = took if least[which] is None else min(least[which], took)
    return least, told[0] == told[1]


def main():
    folder, ours, other, *before = sys.argv[1:]
    times = int(os.environ.get("REPS", "5"))
    worst, alike = (0.0, "nothing"), True
    for words in RUNS:
        form, *rest = words.split()
        if any("." in word and not os.path.exists(os.path.join(folder, word)) for word in rest):
            continue
        (own, its), same = least_times(
            [os.path.abspath(ours), form, *rest],
            [os.path.abspath(other), *before, form, *rest],
            folder,
            times,
        )
        ratio = own / its if its else float("inf")
        worst, alike = max(worst, (ratio, words)), alike and same
        note = "" if same else "  OTHER BYTES"
        print(f"{words:36} {own * 1e3:9.1f} ms {its * 1e3:9.1f} ms {ratio:6.2f}{note}", flush=True)
    print(f"worst: {worst[0]:.2f}, {worst[1]}")
    sys.exit(0 if alike else 1)


if __name__ == "__main__":
    main()
