#!/usr/bin/env python3
"""Times the built program on large texts and prints a table.

Usage: python3 bench/bench.py [--limit SECONDS] [--keep FOLDER] [--plain PROGRAM] [SHAPE ..]

Writes texts of up to 4,194,304 bytes and 256 nodes, the limits of a diagram's text, runs `solve`, `graph` and `print`
on each, one after the other, and prints a row a run: bytes, status, seconds on the clock, seconds of computing, greatest
memory.
Every text is in the grammar and within the limits. What it solves is beside the point: a text that `solve` refuses by
its weight bound (7) or its size (8) has still been read and built. A text fault (5) or a crash is an error
of the run, and so is a run that was cut off. Texts stand in a temporary folder, or in FOLDER where they are to be kept.
PROGRAM is bench/plain.rs, built: it prints each text, too, for comparison.
"""
import argparse
import os
import pathlib
import subprocess
import sys
import tempfile
import time

MOST_BYTES = 4_194_304
MOST_NODES = 256
MOST_NAME = 255
MOST_STATES = 256
MOST_PARENTS = 16
PROGRAM = pathlib.Path(__file__).resolve().parent.parent / "crates" / "maidsolve" / "out" / "maidsolve"
# Done, a relevance cycle, the weight bound, too large a run.
READ_STATUSES = {0, 6, 7, 8}
# What `timeout` ends with where it cut a run off.
CUT_OFF = 124
TIME = "/usr/bin/time"


def coins(count):
    """`count` chance nodes without parents, each sure of its first state."""
    nodes = "".join(f'node N{i} {{ states = ("a" "b"); }}\n' for i in range(count))
    return nodes + "".join(f"potential (N{i}) {{ data = (1 0); }}\n" for i in range(count))


def labels(count):
    """A list of `count` short labels."""
    return "(" + " ".join(f'"{i:x}"' for i in range(count)) + ")"


def numbers(count):
    """`count` numbers of one digit, not all nought in any row."""
    return "(" + " ".join(["1"] * count) + ")"


def filled(text, piece, end=""):
    """The text, then the piece as often as it fits in the limit, then the end."""
    times = (MOST_BYTES - len(text) - len(end)) // len(piece)
    return text + piece * times + end


def comments():
    """A comment of about 16,000 bytes behind each of 256 nodes."""
    lines = coins(MOST_NODES).splitlines()
    room = (MOST_BYTES - sum(len(line) + 1 for line in lines)) // MOST_NODES
    note = " %" + "note " * ((room - 2) // 5)
    return "\n".join(line + (note if line.startswith("node") else "") for line in lines) + "\n"


def tokens():
    """Attributes that are read over, a token a byte: about four million tokens."""
    return filled(coins(MOST_NODES - 1) + "node Last { ", "x=1;", ' states = ("a"); } potential (Last) { data = 1; }\n')


def small_lists():
    """Attributes that are read over, each a list of two numbers."""
    return filled(coins(MOST_NODES - 1) + "node Last { ", "x=(1 2);", ' states = ("a"); } potential (Last) { data = 1; }\n')


def brackets():
    """Numbers inside 32 lists each, the deepest that is allowed, and nothing between the tokens."""
    value = "x=" + "(" * 32 + "1" + ")" * 32 + ";"
    return filled(coins(MOST_NODES - 1) + "node Last { ", value, ' states = ("a"); } potential (Last) { data = 1; }\n')


def string():
    """One string of escapes that nearly fills the text."""
    return filled(coins(MOST_NODES - 1) + 'node Last { label = "', '\\"', '"; states = ("a"); } potential (Last) { data = 1; }\n')


def chance_tables():
    """31 chance tables of 65,536 numbers, the most that a table may have: about two million numbers."""
    wide = 32
    nodes = "".join(f"node N{i} {{ states = {labels(MOST_STATES if i < wide else 1)}; }}\n" for i in range(MOST_NODES))
    first = f"potential (N0) {{ data = {numbers(MOST_STATES)}; }}\n"
    tables = "".join(
        f"potential (N{i} | N{i - 1}) {{ data = {numbers(MOST_STATES * MOST_STATES)}; }}\n" for i in range(1, wide)
    )
    rest = "".join(f"potential (N{i}) {{ data = 1; }}\n" for i in range(wide, MOST_NODES))
    return nodes + first + tables + rest


def utilities(count, data):
    """`count` utilities with that table over the same two nodes of 256 states: 65,536 worlds."""
    others = MOST_NODES - count
    nodes = "".join(f"node N{i} {{ states = {labels(MOST_STATES if i < 2 else 1)}; }}\n" for i in range(others))
    heads = "".join(f"utility U{i} {{ }}\n" for i in range(count))
    chances = "".join(
        f"potential (N{i}) {{ data = {numbers(MOST_STATES if i < 2 else 1)}; }}\n" for i in range(others)
    )
    tables = "".join(f"potential (U{i} | N0 N1) {{ data = {data}; }}\n" for i in range(count))
    return nodes + heads + chances + tables


def utility_tables():
    """31 utilities of 65,536 values over the same two nodes: 65,536 worlds."""
    return utilities(31, numbers(MOST_STATES**2))


def utility_rows():
    """The same, each row of 256 values in a list of its own."""
    return utilities(31, "(" + numbers(MOST_STATES) * MOST_STATES + ")")


def utility_decimals():
    """14 utilities of 65,536 values with up to three decimals."""
    return utilities(14, "(" + "1 2.5 0.125 -7.25 " * (MOST_STATES**2 // 4) + ")")


def long_data():
    """One chance table of 65,536 long numerals (half, with many noughts behind it)."""
    head = f"node A {{ states = {labels(MOST_STATES)}; }}\nnode B {{ states = {labels(MOST_STATES)}; }}\n"
    head += "".join(f'node N{i} {{ states = ("a"); }}\npotential (N{i}) {{ data = 1; }}\n' for i in range(MOST_NODES - 2))
    head += f"potential (A) {{ data = {numbers(MOST_STATES)}; }}\npotential (B | A) {{ data = ("
    end = "); }\n"
    cells = MOST_STATES * MOST_STATES
    room = (MOST_BYTES - len(head) - len(end)) // cells
    return head + ("0.5" + "0" * (room - 4) + " ") * cells + end


def many_decimals():
    """Two utilities whose values need 30 decimals, the most that are allowed, over the same two nodes."""
    first = 246
    head = f"node A {{ states = {labels(first)}; }}\nnode B {{ states = {labels(MOST_STATES)}; }}\n"
    head += f"potential (A) {{ data = {numbers(first)}; }}\npotential (B) {{ data = {numbers(MOST_STATES)}; }}\n"
    head += "".join(f'node N{i} {{ states = ("a"); }}\npotential (N{i}) {{ data = 1; }}\n' for i in range(MOST_NODES - 4))
    table = "0.000000000000000000000000000001 " * (first * MOST_STATES)
    return head + "".join(f"utility {name} {{ }}\npotential ({name} | A B) {{ data = ({table}); }}\n" for name in "UV")


def long_names():
    """Names and labels of 255 bytes, and 16 parents for every node but the first 16."""
    names = ["N" * (MOST_NAME - 3) + f"{i:03}" for i in range(MOST_NODES)]
    label = '"' + "s" * MOST_NAME + '"'
    parents = " ".join(names[:MOST_PARENTS])

    def text(states):
        lines = []
        for i, name in enumerate(names):
            count = 1 if i < MOST_PARENTS else states
            lines.append(f"node {name} {{ states = ({' '.join([label] * count)}); }}")
        for i, name in enumerate(names):
            count = 1 if i < MOST_PARENTS else states
            head = name if i < MOST_PARENTS else f"{name} | {parents}"
            lines.append(f"potential ({head}) {{ data = (1{' 0' * (count - 1)}); }}")
        return "\n".join(lines) + "\n"

    states = 1
    while len(text(states + 1)) <= MOST_BYTES:
        states += 1
    return text(states)


def worlds():
    """16 decisions of two states in a line and 240 utilities: 65,536 worlds, and a plan for each decision and each utility below it."""
    count, shared = 16, 15
    text = "".join(f'decision D{i} {{ states = ("a" "b"); }}\n' for i in range(count))
    text += "".join(f"potential (D{i} | D{i - 1}) {{ }}\n" for i in range(1, count))
    for i in range(count):
        for j in range(shared):
            head, data = (f"U{i}x{j} | D{i - 1} D{i}", "0 1 2 0") if i else (f"U{i}x{j} | D{i}", "0 1")
            text += f"utility U{i}x{j} {{ }}\npotential ({head}) {{ data = ({data}); }}\n"
    return text


def chain():
    """A chain of 256 nodes: a decision, 253 chance nodes, a decision that sees the last of them, and a utility."""
    inner = MOST_NODES - 3
    text = 'decision First { states = ("a" "b"); }\n'
    text += "".join(f'node N{i} {{ states = ("a" "b"); }}\n' for i in range(inner))
    text += 'decision Last { states = ("a" "b"); }\nutility U { }\n'
    text += "potential (N0 | First) { data = (1 0 0 1); }\n"
    text += "".join(f"potential (N{i} | N{i - 1}) {{ data = (1 0 0 1); }}\n" for i in range(1, inner))
    text += f"potential (Last | N{inner - 1}) {{ }}\npotential (U | N{inner - 1} Last) {{ data = (3 0 0 1); }}\n"
    return text


def decisions():
    """128 decisions, each of which sees the 10 before it, and 128 utilities of one agent."""
    count = MOST_NODES // 2
    # With 11 parents the cells of all rules together would pass their limit of 262,144.
    seen = 10
    text = "".join(f'decision D{i} {{ states = ("a" "b"); }}\nutility U{i} {{ }}\n' for i in range(count))
    text += "potential (U0 | D0) { data = (0 1); }\n"
    for i in range(1, count):
        parents = " ".join(f"D{j}" for j in range(max(0, i - seen), i))
        text += f"potential (D{i} | {parents}) {{ }}\npotential (U{i} | D{i - 1} D{i}) {{ data = (0 1 2 0); }}\n"
    return text


def ring():
    """128 decisions that see nothing, each of which shares a utility with the next: a relevance cycle."""
    count = MOST_NODES // 2
    text = "".join(f'decision D{i} {{ states = ("a" "b"); }}\nutility U{i} {{ }}\n' for i in range(count))
    for i in range(count):
        text += f"potential (U{i} | D{i} D{(i + 1) % count}) {{ data = (0 1 2 0); }}\n"
    return text


SHAPES = {
    "comments": comments,
    "tokens": tokens,
    "small_lists": small_lists,
    "brackets": brackets,
    "string": string,
    "chance_tables": chance_tables,
    "utility_tables": utility_tables,
    "utility_rows": utility_rows,
    "utility_decimals": utility_decimals,
    "long_data": long_data,
    "many_decimals": many_decimals,
    "long_names": long_names,
    "worlds": worlds,
    "chain": chain,
    "decisions": decisions,
    "ring": ring,
}


def run(words, limit, notes):
    """Runs these words once: its status, both times in seconds and its greatest memory in bytes.

    The memory is taken by GNU time, since a child of this script would begin with the script's own as its greatest.
    """
    timed = [TIME, "-q", "-o", str(notes), "-f", "%U %S %M", "timeout", str(limit)]
    started = time.perf_counter()
    ended = subprocess.run(timed + words, stdout=subprocess.DEVNULL, stderr=subprocess.DEVNULL)
    clock = time.perf_counter() - started
    user, system, kilobytes = notes.read_text().split()
    return ended.returncode, clock, float(user) + float(system), int(kilobytes) * 1024


def main():
    parser = argparse.ArgumentParser(description=__doc__.splitlines()[0])
    parser.add_argument("--limit", type=float, default=120, help="seconds after which a run is cut off")
    parser.add_argument("--keep", help="a folder for the texts, which then stay there")
    parser.add_argument("--plain", help="bench/plain.rs, built, to compare with")
    parser.add_argument("shapes", nargs="*", metavar="SHAPE", help="one of: " + ", ".join(SHAPES))
    asked = parser.parse_args()
    unknown = [name for name in asked.shapes if name not in SHAPES]
    if unknown:
        parser.error("no such shape: " + " ".join(unknown))
    if not os.access(PROGRAM, os.X_OK):
        sys.exit(f"{PROGRAM} isn't there: run ./maidsolve once, which proves and builds it")
    if not os.access(TIME, os.X_OK):
        sys.exit(f"{TIME} isn't there: it is the package time of GNU")
    forms = {form: [str(PROGRAM), form] for form in ("solve", "graph", "print")}
    if asked.plain:
        forms["plain"] = [asked.plain]
    failed = False
    with tempfile.TemporaryDirectory() as scratch:
        folder = pathlib.Path(asked.keep or scratch)
        folder.mkdir(parents=True, exist_ok=True)
        notes = pathlib.Path(scratch) / "notes"
        print("| shape | bytes | form | status | seconds | of computing | greatest memory, MB |")
        print("|---|---|---|---|---|---|---|")
        for name in asked.shapes or SHAPES:
            text = SHAPES[name]()
            assert len(text) <= MOST_BYTES, f"{name} has {len(text)} bytes"
            path = folder / f"{name}.net"
            path.write_text(text, encoding="ascii")
            for form, words in forms.items():
                status, clock, computing, memory = run([*words, str(path)], asked.limit, notes)
                failed = failed or status not in READ_STATUSES
                shown = "cut off" if status == CUT_OFF else status
                print(
                    f"| {name} | {len(text):,} | {form} | {shown} | {clock:.2f} | {computing:.2f} | {memory / 1e6:.0f} |",
                    flush=True,
                )
    return 1 if failed else 0


if __name__ == "__main__":
    sys.exit(main())
