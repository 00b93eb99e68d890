#!/usr/bin/env python3
"""Times two programs of this surface on random large diagrams, and tells for each form how they compare.

    bench/larger.py FOLDER OURS OTHER [WORD..]

WORD.. stand before the form's own words in OTHER's runs. Each form runs on each of COUNT diagrams (40 where the
environment does not say), which are drawn with SEED (1) and written into FOLDER, REPS times (3), ours and the other's in
turn, and where ours seems slower a second longer or AGAIN times more (40); the least processor time of each counts. A row
tells of a form both sums in milliseconds, their ratio, and the worst ratio, with its diagram. Where the two write other
bytes or end with another status, the script says so and ends with 1.
"""

import os
import pathlib
import random
import re
import sys

from beside import least_times
from drawn import large

# A run that takes so many times as long is timed more often, for as many seconds.
SLOWER, SECONDS = 1.03, 1.0


def forms(chance, name, text):
    """The words of each form on the diagram, those of its first agent and of one of its nodes among them."""
    node = chance.choice(re.findall(r"^node (\S+)", text, re.M))
    return [
        ["graph", name], ["print", name], ["trim", name], ["solve", name], ["info", name, "A"], ["control", name, "A"],
        ["pure", name], ["update", name], ["given", name, node, "0"], ["threshold", name, node, "1", "0"],
    ]


def least_of_more(times, commands, folder, again):
    """The least times of the two programs, after some more runs where ours seems slower."""
    own, its = times
    more = min(again, int(SECONDS / (own + its))) if own > SLOWER * its else 0
    if more == 0:
        return own, its
    (own_again, its_again), _ = least_times(*commands, folder, more)
    return min(own, own_again), min(its, its_again)


def main():
    folder, ours, other, *before = sys.argv[1:]
    usual = {"SEED": 1, "COUNT": 40, "REPS": 3, "AGAIN": 40}
    setting = {name: int(os.environ.get(name, number)) for name, number in usual.items()}
    chance, alike, sums = random.Random(setting["SEED"]), True, {}
    pathlib.Path(folder).mkdir(parents=True, exist_ok=True)
    for number in range(setting["COUNT"]):
        text, name = large(chance).decode(), f"large{number}.net"
        (pathlib.Path(folder) / name).write_text(text)
        for words in forms(chance, name, text):
            commands = [os.path.abspath(ours), *words], [os.path.abspath(other), *before, *words]
            times, same = least_times(*commands, folder, setting["REPS"])
            own, its = least_of_more(times, commands, folder, setting["AGAIN"])
            if not same:
                print("OTHER BYTES:", *words)
            alike = alike and same
            mine, their, worst = sums.get(words[0], (0.0, 0.0, (0.0, "none")))
            sums[words[0]] = (mine + own, their + its, max(worst, (own / its, name)))
    print("| form | ours, ms | other, ms | ratio | worst | its text |\n|---|---|---|---|---|---|")
    for form, (own, its, (worst, name)) in sums.items():
        print(f"| `{form}` | {own * 1e3:.0f} | {its * 1e3:.0f} | {own / its:.2f} | {worst:.2f} | {name} |")
    sys.exit(0 if alike else 1)


main()
