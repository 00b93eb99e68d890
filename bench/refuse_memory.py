#!/usr/bin/env python3
"""Refuses each allocation of a run in turn, for each form of words.

    bench/refuse_memory.py PROGRAM [FORM..]

A run is repeated with its first call for memory refused, then with its second, and so on, until a run
makes no call of that number; and all this once more with each call refused that comes behind. A run
that was refused memory must end with status 10, with nothing on standard output and the one line
`no memory` on standard error. Any other end is a fault. The script prints the first faults of each form
and a line a form, and ends with 1 where there was a fault.

It needs Python 3.9 or later, a C compiler (`cc`) and glibc: the calls are refused by a small library
that stands before the system's `malloc` and its kin. It counts from its own constructor on, which the
loader runs once it has done its work, so that calls of the system's start-up are never refused.
"""

import argparse
import os
import pathlib
import subprocess
import sys
import tempfile

EXAMPLES = pathlib.Path(__file__).resolve().parent.parent / "examples"

# The seconds after which a run is cut off.
LIMIT = 60

# How many faults of a form are printed.
SHOWN = 10

REFUSED = (10, b"", b"no memory\n")

LIBRARY = r"""
#include <errno.h>
#include <stdlib.h>
#include <unistd.h>

extern void *__libc_malloc(size_t);
extern void *__libc_calloc(size_t, size_t);
extern void *__libc_realloc(void *, size_t);
extern void *__libc_memalign(size_t, size_t);

/* The call that is refused, counted from 1, or 0 as long as none is; and whether those behind it are too. */
static unsigned long refused, calls;
static int later;

/* A descriptor that takes one byte when the call is refused. */
static int told;

__attribute__((constructor)) static void begin(void) {
    later = atoi(getenv("REFUSE_LATER"));
    told = atoi(getenv("REFUSE_TOLD"));
    refused = strtoul(getenv("REFUSE_CALL"), 0, 10);
}

static int refuses(void) {
    if (refused == 0 || ++calls < refused || (calls > refused && !later)) return 0;
    if (calls == refused && write(told, "r", 1) != 1) abort();
    errno = ENOMEM;
    return 1;
}

void *malloc(size_t size) { return refuses() ? 0 : __libc_malloc(size); }
void *calloc(size_t count, size_t size) { return refuses() ? 0 : __libc_calloc(count, size); }
void *realloc(void *old, size_t size) { return refuses() ? 0 : __libc_realloc(old, size); }
void *memalign(size_t align, size_t size) { return refuses() ? 0 : __libc_memalign(align, size); }
void *aligned_alloc(size_t align, size_t size) { return refuses() ? 0 : __libc_memalign(align, size); }

void *reallocarray(void *old, size_t count, size_t size) {
    size_t bytes;
    if (__builtin_mul_overflow(count, size, &bytes) || refuses()) return 0;
    return __libc_realloc(old, bytes);
}

int posix_memalign(void **result, size_t align, size_t size) {
    void *got = refuses() ? 0 : __libc_memalign(align, size);
    if (got == 0) return ENOMEM;
    *result = got;
    return 0;
}
"""


def forms(folder):
    """For each form the words behind it, of several runs: such as write a text, and such as are refused anyway."""
    diagrams = ["steer.net", "lead.net", "team.net", "arcs.net", "coin.net", "empty.net"]
    refused = ["pennies.net", "wide.net", "loop.net", "zero.net", "absent.net"]
    plain = [[name] for name in diagrams + refused]
    good, wrong, bad = (str(folder / name) for name in ("good", "wrong", "bad"))
    return {
        "solve": plain,
        "check": [
            ["steer.net", good],
            ["steer.net", wrong],
            ["steer.net", bad],
            ["steer.net", "absent"],
            ["coin.net", str(folder / "coin")],
            ["loop.net", good],
        ],
        "graph": plain,
        "print": plain + [["oil.net"]],
        "trim": plain,
        "info": [
            ["steer.net", "agent"],
            ["lead.net", "A"],
            ["lead.net", "B"],
            ["arcs.net", "agent"],
            ["lead.net", "C"],
            ["pennies.net", "A"],
        ],
        "control": [
            ["steer.net", "agent"],
            ["copy.net", "A"],
            ["copy.net", "B"],
            ["arcs.net", "agent"],
            ["lead.net", "C"],
            ["pennies.net", "A"],
        ],
        "demo": [["1"], ["2"], ["5"]],
        "pure": plain + [["climb.net"]],
        "update": plain + [["climb.net"], ["blind.net"]],
        "given": [
            ["steer.net", "X", "p"],
            ["coin.net", "C", "b"],
            ["arcs.net", "X", "q"],
            ["umbrella.net", "Forecast", "wet"],
            ["copy.net", "Copy", "a"],
            ["steer.net", "Y", "p"],
            ["steer.net", "X", "z"],
            ["wide.net", "X", "p"],
        ],
        "threshold": [
            ["steer.net", "X", "1", "p"],
            ["coin.net", "C", "1", "b"],
            ["umbrella.net", "Forecast", "2", "wet"],
            ["copy.net", "Copy", "1", "a"],
            ["steer.net", "Y", "1", "p"],
            ["steer.net", "X", "1", "z"],
            ["steer.net", "X", "2", "p"],
            ["copy.net", "Copy", "01", "a"],
        ],
    }


def ended(words, environment=None, told=None):
    """How a run of these words ends: its status, its standard output and its standard error."""
    done = subprocess.run(
        words,
        cwd=EXAMPLES,
        env=environment or {},
        pass_fds=() if told is None else (told,),
        stdin=subprocess.DEVNULL,
        capture_output=True,
        timeout=LIMIT,
    )
    return done.returncode, done.stdout, done.stderr


def write_reports(program, folder):
    """Writes reports to check: right ones, one with a wrong worth, and one that is none."""
    right = ended([*program, "solve", "steer.net"])[1]
    (folder / "good").write_bytes(right)
    (folder / "wrong").write_bytes(right.replace(b"= 3", b"= 4"))
    (folder / "bad").write_bytes(right.replace(b"row 2", b"row 3"))
    (folder / "coin").write_bytes(ended([*program, "solve", "coin.net"])[1])


def build_library(folder):
    """Compiles the library that refuses calls."""
    source, library = folder / "refuse.c", folder / "refuse.so"
    source.write_text(LIBRARY, encoding="ascii")
    subprocess.run(["cc", "-O1", "-fno-builtin", "-shared", "-fPIC", "-o", library, source], check=True)
    return library


def refuse_in_turn(words, library, later):
    """Refuses the calls of a run of these words in turn.

    Returns how it ends with ample memory, how many calls there were, and how the runs with other ends than
    a refused one's ended.
    """
    ample = ended(words)
    faults = []
    with tempfile.TemporaryFile() as told:
        call = 0
        while True:
            call += 1
            told.seek(0)
            told.truncate()
            environment = {
                "LD_PRELOAD": str(library),
                "REFUSE_CALL": str(call),
                "REFUSE_LATER": str(later),
                "REFUSE_TOLD": str(told.fileno()),
            }
            end = ended(words, environment, told.fileno())
            was_refused = os.fstat(told.fileno()).st_size > 0
            if end != (REFUSED if was_refused else ample):
                faults.append((call, end))
            if not was_refused:
                return ample, call - 1, faults


def try_form(program, form, runs, library):
    """Tries these runs of a form, and prints what came: whether all was right."""
    statuses, refusals, faults = set(), 0, []
    for words in runs:
        for later in (0, 1):
            ample, count, wrong = refuse_in_turn([*program, form, *words], library, later)
            statuses.add(ample[0])
            refusals += count
            faults += [(words, later, call, end) for call, end in wrong]
    for words, later, call, (status, out, err) in faults[:SHOWN]:
        behind = " and all behind it" if later else ""
        print(f"{form} {' '.join(words)}: call {call}{behind} refused, status {status}, {out!r}, {err!r}")
    known = " ".join(map(str, sorted(statuses)))
    print(f"{form}: {len(runs)} runs (status {known}), {refusals:,} refusals, {len(faults):,} faults", flush=True)
    if refusals == 0:
        print(f"{form}: no call was refused: the program asks for its memory in another way")
    return refusals > 0 and not faults


def main():
    parser = argparse.ArgumentParser(description=__doc__.splitlines()[0])
    parser.add_argument("program", metavar="PROGRAM", help="the built program, and words before the form if need be")
    parser.add_argument("form", metavar="FORM", nargs="*", help="the forms to try, all if none is named")
    asked = parser.parse_intermixed_args()
    first, *before = asked.program.split()
    program = [str(pathlib.Path(first).resolve()), *before]
    with tempfile.TemporaryDirectory() as scratch:
        folder = pathlib.Path(scratch)
        all_forms = forms(folder)
        unknown = [form for form in asked.form if form not in all_forms]
        if unknown:
            parser.error("no such form: " + " ".join(unknown))
        library = build_library(folder)
        write_reports(program, folder)
        chosen = asked.form or all_forms
        good = [try_form(program, form, all_forms[form], library) for form in chosen]
    return 0 if all(good) else 1


if __name__ == "__main__":
    sys.exit(main())
