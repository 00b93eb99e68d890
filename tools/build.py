#!/usr/bin/env python3
"""Proves and builds the program maidsolve of the checkout TOP, and tells how far it is.

usage: build.py TOP

The toolchain proves the program and the crates below it, several side by side, each once those that it stands on are and
by one process, since sharing a crate among several takes more processor time. What an earlier run proved is kept in
crates/*/out, so that only what changed is proved again. The status is 0 where the program stands, else 1 after one line
that says what failed and where the log is.
"""
import os
import re
import shutil
import subprocess
import sys
import time

PROGRAM = "maidsolve"

# The library with the program's one call, which stands above all others that the program needs. Asked for this one, the
# toolchain looks through all sources before it proves any; asked for the program, it takes twice as long for that.
LIBRARY = "maid_app"

# What proving a large crate takes of memory, in bytes.
MEMORY = 4_000_000_000


def say(text):
    print(f"{PROGRAM}: {text}", flush=True)


def libraries(top):
    """The names of the library and of the crates below it."""
    with open(os.path.join(top, "crates.txt")) as lines:
        listed = {name: below.split() for name, below in re.findall(r"(?m)^(\w+)[^:#\n]*:([^#\n]*)", lines.read())}
    needed, waiting = set(), [LIBRARY]
    while waiting:
        name = waiting.pop()
        if name in listed and name not in needed:
            needed.add(name)
            waiting += listed[name]
    return needed


def worker_count():
    """How many crates are proved side by side: one a processor, as far as the free memory goes."""
    with open("/proc/meminfo") as lines:
        free = 1024 * int(re.search(r"MemAvailable:\s+(\d+)", lines.read())[1])
    return max(1, min(os.cpu_count() or 1, free // MEMORY))


def time_text(seconds):
    return f"{int(seconds) // 60} min {int(seconds) % 60:02} s"


def prove(folder, log, names, workers):
    """Proves the crates of these names, and tells of each when it is done; gives those that are not proved."""
    began, done, failed = time.time(), set(), []
    words = ["rt", "all", "check", "--jobs", str(workers)]
    how = {"stdin": subprocess.DEVNULL, "stdout": subprocess.PIPE, "stderr": subprocess.STDOUT, "text": True}
    with subprocess.Popen(words, cwd=folder, errors="replace", **how) as process:
        for line in process.stdout:
            log.write(line)
            begun, ended = re.match(r"== (\w+)$", line), re.match(r"(\w+): (ok|failed|not run)\b", line)
            if begun and begun[1] in names - done:
                done.add(begun[1])
                say(f"{len(done):2} of {len(names)} {begun[1]} ({time_text(time.time() - began)})")
            elif ended and ended[1] in names and ended[2] == "failed":
                failed.append(ended[1])
    return failed or ([LIBRARY] if process.returncode else [])


def build(top):
    folder, workers, names = os.path.join(top, "crates", PROGRAM), worker_count(), libraries(top)
    out = os.path.join(folder, "out")
    program = os.path.join(out, PROGRAM)
    os.makedirs(out, exist_ok=True)
    if os.path.exists(program):
        os.remove(program)
    say(f"proving {len(names)} libraries, {workers} at a time, and building; from nothing that takes half an hour or more")
    with open(os.path.join(out, "build.log"), "w") as log:
        failed = prove(os.path.join(top, "crates", LIBRARY), log, names, workers)
        log.flush()
        if not failed:
            # With no words the program only prints its usage line, so its own status says nothing.
            subprocess.run(["rt", "run"], cwd=folder, stdin=subprocess.DEVNULL, stdout=log, stderr=log, check=False)
            failed = [] if os.access(program, os.X_OK) else [PROGRAM]
    if failed:
        say(f"the crate {failed[0]} could not be proved and built; the log is {log.name}")
    return 1 if failed else 0


def main():
    if shutil.which("rt") is None:
        say("there is no fresh program, and rt, which proves and builds it, is not on the path")
        return 1
    try:
        return build(sys.argv[1])
    except OSError as error:
        say(f"there is no fresh program, and none can be built here: {error}")
        return 1


if __name__ == "__main__":
    sys.exit(main())
