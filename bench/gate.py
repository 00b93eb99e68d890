#!/usr/bin/env python3
"""Runs the gate of a checkout and tells where its processor time goes, crate by crate.

usage: gate.py [TOP [CRATE..]]

The gate (`rt ci`) runs at TOP, or where this script stands; where crates are named, it runs over a copy of
them and of those below them alone, so that it may be timed in parts. While it runs, the processor times of all checks
are read twice a second, and each counts for its crate as proof, as tests or as must-fail edits; what a
check does in its last half second is lost. The gate's own lines go to standard output, and behind them a
table in minutes of processor time, the most expensive crate first, and the seconds of the most expensive
edits. The status is the gate's.
"""

import os
import re
import shutil
import subprocess
import sys
import tempfile
import threading
import time

TICKS = os.sysconf("SC_CLK_TCK")
MOST_EDITS = 40


def words_of(process):
    """The words of a process, none where it is gone."""
    try:
        with open(f"/proc/{process}/cmdline", "rb") as words:
            return words.read().decode(errors="replace").split("\0")
    except OSError:
        return []


def seconds_of(process):
    """The processor time of a process and of its children that have ended."""
    try:
        with open(f"/proc/{process}/stat") as line:
            fields = line.read().rpartition(")")[2].split()
    except OSError:
        return 0.0
    return sum(int(field) for field in fields[11:15]) / TICKS


def folder_of(process):
    try:
        return os.readlink(f"/proc/{process}/cwd")
    except OSError:
        return ""


def parent_of(process):
    try:
        with open(f"/proc/{process}/stat") as line:
            return line.read().rpartition(")")[2].split()[1]
    except OSError:
        return "0"


def task_of(words, folder):
    """The crate and the part of the gate that a check belongs to."""
    crate = words[words.index("--crate-name") + 1]
    if "rt-edit-" in folder:
        return crate, "edits"
    return crate, "tests" if "--test" in words else "proof"


def text_of(path):
    """The text of a file, none where there is no such file."""
    try:
        with open(path, encoding="utf-8", errors="replace") as text:
            return text.read()
    except OSError:
        return None


def is_applied(edit, folder):
    """Whether the texts that the edit puts in stand in the folder, and those that it takes away don't."""
    path, old = "", ""
    for line in (text_of(edit) or "").splitlines():
        word, _, rest = line.partition(": ")
        if word == "file":
            path = rest
        elif word == "old":
            old = rest
        elif line.startswith("new:"):
            text = text_of(os.path.join(folder, path))
            if text is None or rest not in text or (old not in rest and old in text):
                return False
    return True


def edit_of(top, crate, folder):
    """The edit of the crate that a check in the folder tries, none where it is checked as it stands."""
    edits = os.path.join(top, "crates", crate, "must-fail")
    names = sorted(name for name in os.listdir(edits) if name.endswith(".edit"))
    return next((name for name in names if is_applied(os.path.join(edits, name), folder)), None)


def below(process, ancestor):
    while process not in ("0", "1"):
        if process == ancestor:
            return True
        process = parent_of(process)
    return False


def sample(gate, top, found, edits):
    """Notes the processor time of each check below the gate, and which edit it tries, while it runs."""
    while gate.poll() is None:
        for process in filter(str.isdigit, os.listdir("/proc")):
            words = words_of(process)
            if "--crate-name" not in words or not below(process, str(gate.pid)):
                continue
            # A forked copy has its parent's words, and counts for it once it has ended.
            if words_of(parent_of(process)) == words:
                continue
            folder = folder_of(process)
            task = task_of(words, folder)
            if task[1] == "edits" and (process, folder) not in edits:
                edits[process, folder] = edit_of(top, task[0], folder)
            key = process, folder, task
            found[key] = max(found.get(key, 0.0), seconds_of(process))
        time.sleep(0.5)


def print_table(found):
    crates = {}
    for (_, _, (crate, part)), seconds in found.items():
        parts = crates.setdefault(crate, {"proof": 0.0, "tests": 0.0, "edits": 0.0})
        parts[part] += seconds / 60
    print("\n| crate | proof | tests | edits | together |\n|---|---|---|---|---|")
    rows = sorted(crates.items(), key=lambda row: -sum(row[1].values()))
    for crate, parts in rows:
        print_row(f"`{crate}`", parts)
    total = {part: sum(parts[part] for _, parts in rows) for part in ("proof", "tests", "edits")}
    print_row("all", total)


def print_edits(found, edits):
    times = {}
    for (process, folder, (crate, _)), seconds in found.items():
        name = edits.get((process, folder))
        if name is not None:
            times[crate, name] = times.get((crate, name), 0.0) + seconds
    print("\n| edit | seconds |\n|---|---|")
    for (crate, name), seconds in sorted(times.items(), key=lambda row: -row[1])[:MOST_EDITS]:
        print(f"| `{crate}/{name}` | {seconds:.0f} |")


def print_row(name, parts):
    numbers = [parts["proof"], parts["tests"], parts["edits"], sum(parts.values())]
    print(f"| {name} | " + " | ".join(f"{number:.1f}" for number in numbers) + " |")


def copy_part(top, names, room):
    """Copies the crates of these names, and those below them, as a checkout of their own."""
    with open(os.path.join(top, "crates.txt"), encoding="utf-8") as lines:
        listed = dict(re.findall(r"(?m)^(\w+)([^#\n]*)", lines.read()))
    needed, waiting = [], list(names)
    while waiting:
        name = waiting.pop()
        if name not in needed:
            needed.append(name)
            waiting += [below for below in listed[name].partition(":")[2].split() if below in listed]
    shutil.copy(os.path.join(top, "HANDLES"), room)
    with open(os.path.join(room, "crates.txt"), "w", encoding="utf-8") as part:
        part.writelines(f"{name}{listed[name]}\n" for name in needed)
    for name in needed:
        folder = os.path.join("crates", name)
        shutil.copytree(os.path.join(top, folder), os.path.join(room, folder), ignore=shutil.ignore_patterns("out"))


def run_gate(top):
    """Runs the gate at the folder, prints where its time went, and gives its status."""
    found, edits = {}, {}
    gate = subprocess.Popen(["rt", "ci"], cwd=top)
    watch = threading.Thread(target=sample, args=(gate, top, found, edits))
    watch.start()
    status = gate.wait()
    watch.join()
    print_table(found)
    print_edits(found, edits)
    return status


def main():
    top = sys.argv[1] if len(sys.argv) > 1 else os.path.join(os.path.dirname(__file__), "..")
    if len(sys.argv) < 3:
        sys.exit(run_gate(top))
    with tempfile.TemporaryDirectory(prefix="gate-") as room:
        copy_part(top, sys.argv[2:], room)
        sys.exit(run_gate(room))


if __name__ == "__main__":
    main()
