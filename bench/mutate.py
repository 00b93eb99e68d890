#!/usr/bin/env python3
"""Runs each form of words on mutated diagrams and reports, and looks how the runs end.

    bench/mutate.py PROGRAM [--seed N] [--runs N] [--keep FOLDER] [--beside OTHER]

The texts are random small diagrams, those of examples/ and of bench/more_rows.json, and the reports that
the program itself writes of them. One to four mutations change a text that is not random: bytes are
flipped, cut or doubled, blocks exchanged, numbers made huge, brackets nested, names exchanged, lines
removed. Where `print` takes the text, every form runs on it, and `check` on its own report, which must be
accepted, and on a mutated one. Where `print` refuses it, two further forms must refuse it with the same
line.

A fault is a run that ends by a signal, takes more than five seconds of the processor (or five minutes on
the clock, which much else on the machine makes long), ends with a status that the form has not, or whose
standard output or standard error is not as the status asks: see STATUSES and LINES; with OTHER, another
program of this surface, also one that the other ends in another way, by a byte or by the status. Its
files, words and end are kept in a folder, which is named. The script ends with 1 where there was a fault.
The same seed and program give the same runs.

It needs Python 3.9 or later, and the program.
"""

import argparse
import collections
import json
import pathlib
import random
import re
import resource
import subprocess
import sys
import tempfile

# No folder of compiled modules is to stand in bench/.
sys.dont_write_bytecode = True

from drawn import drawn
from mutations import DIAGRAMS, NAME, REPORTS, STRING, mutated

BENCH = pathlib.Path(__file__).resolve().parent
EXAMPLES = BENCH.parent / "examples"

# The seconds of the processor that a run may take, and those on the clock after which it is cut off.
LIMIT, CLOCK_LIMIT = 5, 300

# No longer text is taken from the rows, so that the runs are many.
MOST_BYTES = 20_000

# The names of the files of a run.
DIAGRAM, REPORT = "t.net", "r.txt"

# After these statuses the run has written its text.
WRITTEN = {0, 11}

# The statuses that each form may end with, beside those of ANY, and of READING where it reads a file.
ANY, READING = {0, 1, 5, 9, 10}, {2, 3, 4}
STATUSES = {
    "solve": {6, 7, 8},
    "check": {7, 8, 11},
    "graph": set(),
    "print": set(),
    "trim": set(),
    "info": {6, 7, 8, 12},
    "control": {6, 7, 8, 12},
    "demo": {6, 7, 8},
    "pure": {7, 8, 14},
    "update": {7, 8, 15, 16},
    "given": {6, 7, 8, 17, 18, 19, 20},
    "threshold": {6, 7, 8, 17, 18, 21, 22},
}

# What may be said of a place in a diagram.
FAULT = (
    r"bad byte|open string|bad numeral|unsupported|too deep|unexpected|double name|double attribute|"
    r"limit passed: (nodes 257|agents 17|(name bytes|states|parents|cells|rules) \d+)|missing states|bad states|"
    r"bad label|bad agent|repeated agent|unknown name|double potential|repeated parent|utility parent|missing table|"
    r"graph cycle:( \w+)+|not a number|wrong count: want \d+ got \d+|number too long|negative|zero row|"
    r"wide weight|wide value"
)

# The line of each status, in which NAME, LABEL and ROW are the words behind the file.
LINES = {
    1: r"usage: maidsolve solve F \| check F R \| .*",
    2: r"absent: FILE",
    3: r"read fault: FILE",
    4: r"text too long: FILE",
    5: r"(DIAGRAM:[1-9]\d*:[1-9]\d*: (" + FAULT + r")|REPORT:[1-9]\d*: bad line)",
    6: r"relevance cycle:( \w+)+",
    7: r"weight bound: (node \w+|utilities)",
    8: r"too large: (cells \d+ work \d+|leaves \d+|profiles \d+ leaves \d+|rules)",
    9: r"write fault",
    10: r"no memory",
    12: r"unknown agent: NAME",
    14: r"no pure equilibrium: \d+ profiles",
    15: r"not one agent",
    16: r"rounds spent: 10000",
    17: r"unknown chance node: NAME",
    18: r"unknown state: LABEL",
    19: r"below a decision: NAME",
    20: r"impossible: NAME LABEL",
    21: r"unknown row: ROW",
    22: r"no other state: NAME",
}

# Words for the number of a row, and almost such.
ROWS = ["0", "3", "4", "65536", "99999", "100000", "01", "+1", "-1", ""]

def row_texts():
    """The texts of our own rows: those of diagrams, and those of reports with their diagrams."""
    rows = json.loads((BENCH / "more_rows.json").read_text(encoding="utf-8"))["rows"]
    diagrams, reports = set(), set()
    for row in rows:
        for each in row.get("each", [{"files": []}]):
            files = [
                "".join(text * times for text, times in content).encode("latin-1")
                for _, content in row["files"] + each["files"]
                if sum(len(text) * times for text, times in content) <= MOST_BYTES
            ]
            reports.update(file for file in files if file.startswith(b"maidsolve "))
            diagrams.update(file for file in files if not file.startswith(b"maidsolve "))
    return sorted(diagrams), sorted(reports)


class Runner:
    """Runs the program on files in a folder, counts how runs end, and keeps those with a fault."""

    def __init__(self, program, other, folder, keep):
        self.program, self.other, self.folder, self.keep = program, other, folder, keep
        self.runs, self.faults = 0, 0
        self.ends = collections.Counter()
        self.slowest = (0.0, "")

    def write(self, name, text):
        (self.folder / name).write_bytes(text)

    def end_of(self, program, words):
        """How a program ends on these words: the status, and the two texts."""
        try:
            done = subprocess.run(
                [*program, *words],
                cwd=self.folder,
                env={},
                stdin=subprocess.DEVNULL,
                capture_output=True,
                timeout=CLOCK_LIMIT,
            )
            return done.returncode, done.stdout, done.stderr
        except subprocess.TimeoutExpired:
            return None, b"", b""

    def run(self, form, *words):
        """Runs a form, looks at its end, and gives it."""
        before = resource.getrusage(resource.RUSAGE_CHILDREN)
        end = self.end_of(self.program, [form, *words])
        after = resource.getrusage(resource.RUSAGE_CHILDREN)
        seconds = after.ru_utime + after.ru_stime - before.ru_utime - before.ru_stime
        self.runs += 1
        self.ends[form, end[0]] += 1
        self.slowest = max(self.slowest, (seconds, " ".join([form, *map(printable, words)])))
        cause = fault_of(form, words, end, seconds)
        if not cause and self.other and self.end_of(self.other, [form, *words]) != end:
            cause = "the other program ends in another way"
        if cause:
            self.fault(cause, form, words, end)
        return end

    def fault(self, cause, form, words, end):
        """Keeps the files of a run with a fault, and tells where."""
        self.faults += 1
        folder = self.keep / f"{self.faults:04}"
        folder.mkdir(parents=True)
        for file in self.folder.iterdir():
            (folder / file.name).write_bytes(file.read_bytes())
        status, out, err = end
        told = {"cause": cause, "words": [form, *map(printable, words)], "status": status}
        (folder / "end.json").write_text(json.dumps(told, indent=1) + "\n", encoding="ascii")
        (folder / "out").write_bytes(out)
        (folder / "err").write_bytes(err)
        print(f"fault: {cause}: {form} {' '.join(map(printable, words))}, status {status}: {folder}", flush=True)


def printable(word):
    return word if isinstance(word, str) else ascii(word)


def as_bytes(word):
    return word.encode() if isinstance(word, str) else word


def line_pattern(status, words):
    """What the line of this status may be, of a run on these words behind the form."""
    quoted = [re.escape(as_bytes(word)) for word in words] + [b""] * 3
    meant = {
        b"FILE": re.escape(DIAGRAM.encode()) + b"|" + re.escape(REPORT.encode()),
        b"DIAGRAM": quoted[0],
        b"REPORT": re.escape(REPORT.encode()),
        b"NAME": quoted[1],
        b"LABEL": quoted[len(words) - 1],
        b"ROW": quoted[2],
    }
    return re.sub(b"|".join(meant), lambda name: b"(?:" + meant[name.group()] + b")", LINES[status].encode())


def fault_of(form, words, end, seconds):
    """What is wrong with this end of a run, or nothing."""
    status, out, err = end
    if status is None:
        return "cut off"
    if status < 0:
        return "signal"
    if seconds > LIMIT:
        return f"{seconds:.1f} seconds"
    if status not in ANY | STATUSES[form] | (set() if form == "demo" else READING):
        return "status"
    if status in WRITTEN:
        return "standard error is not empty" if err else None
    if out and status != 9:
        return "standard output is not empty"
    if not err.endswith(b"\n") or err.count(b"\n") != 1:
        return "not one line on standard error"
    demo = ["demo"] if form == "demo" else words
    if not re.fullmatch(line_pattern(status, demo), err[:-1], re.DOTALL):
        return "another line on standard error"
    return None


def asked_words(chance, text):
    """The words behind a file for each form that has such: mostly out of the text."""
    names = NAME.findall(text) or [b"X"]
    nodes = re.findall(rb"node\s+(\w+)", text) or names
    strings = [found.replace(b'\\"', b'"').replace(b"\\\\", b"\\") for found in STRING.findall(text)] or [b"a"]
    strange = [b"", b"agent", b"A", b"-", b"0", b"\xff", b"a b", b"x" * 300, b"%s%n", "\u00e9".encode()]
    node = chance.choice(chance.choice([nodes] * 12 + [names, strange]))
    own = re.search(rb"node\s+" + re.escape(node) + rb"\b[^}]*?states\s*=\s*\(([^)]*)\)", text)
    labels = own and STRING.findall(own.group(1)) or strings
    label = chance.choice(chance.choice([labels] * 12 + [strings, strange]))
    agents = re.findall(rb'agents?\s*=\s*\(?\s*"([^"\n\\]*)"', text) or [b"agent"]
    agent = chance.choice(chance.choice([agents] * 12 + [strings, strange]))
    row = chance.choice(["1"] * 24 + ["2"] * 8 + ROWS)
    return {
        "info": [agent[:400]],
        "control": [agent[:400]],
        "given": [node[:400], label[:400]],
        "threshold": [node[:400], row, label[:400]],
    }


def check_reports(runner, chance, solved, text, reports):
    """Checks the text's own report, which must be accepted where the worlds can be listed, and a mutated one."""
    status, out, _ = solved
    if status == 0:
        runner.write(REPORT, out)
        end = runner.run("check", DIAGRAM, REPORT)
        if end[0] not in (0, 8) or (end[0] == 0 and end[1] != b"accepted\n"):
            runner.fault("a solved report is not accepted", "check", [DIAGRAM, REPORT], end)
    base = out if status == 0 and chance.random() < 0.8 else chance.choice(reports)
    runner.write(REPORT, mutated(chance, base, reports + [text], REPORTS))
    runner.run("check", DIAGRAM, REPORT)


def check_print(runner, printed, text):
    """Prints the printed text, which must come out as it is."""
    runner.write(DIAGRAM, printed)
    end = runner.run("print", DIAGRAM)
    if end != (0, printed, b""):
        runner.fault("printed again it is another text", "print", [DIAGRAM], end)
    runner.write(DIAGRAM, text)


def try_text(runner, chance, text, reports):
    """Runs the forms on one text."""
    runner.write(DIAGRAM, text)
    runner.write(REPORT, b"")
    asked = asked_words(chance, text)
    first = runner.run("print", DIAGRAM)
    if first[0] == 0:
        for form in STATUSES:
            if form not in ("print", "check", "demo", "solve"):
                runner.run(form, DIAGRAM, *asked.get(form, []))
        check_print(runner, first[1], text)
        check_reports(runner, chance, runner.run("solve", DIAGRAM), text, reports)
        return
    for form in chance.sample([form for form in STATUSES if form not in ("print", "demo")], 2):
        words = [REPORT] if form == "check" else asked.get(form, [])
        end = runner.run(form, DIAGRAM, *words)
        if end != first and end[0] != 1:
            runner.fault("refused in another way than by print", form, [DIAGRAM, *words], end)


def try_demo(runner, chance):
    """Runs `demo` on a word that is a number of stages or almost one."""
    stages = [str(chance.randrange(1, 61)), str(chance.randrange(1, 61)), str(chance.randrange(100))]
    stages = chance.choice([*stages, chance.choice(["01", "61", "+5", "", "1e1", "9" * 40, "\xff"])])
    runner.run("demo", stages)


def command(words):
    """The words that start a program, whose own is its path; none where there are none."""
    return [str(pathlib.Path(word).resolve()) if i == 0 else word for i, word in enumerate(words.split())]


def report_ends(runner):
    """Prints how many runs of each form ended with each status."""
    for form in STATUSES:
        ends = [(str(status), count) for (other, status), count in runner.ends.items() if other == form]
        ends.sort(key=lambda end: (len(end[0]), end[0]))
        print(f"{form}: " + ", ".join(f"{status}: {count:,}" for status, count in ends))
    seconds, words = runner.slowest
    print(f"slowest: {seconds:.2f} seconds, {words}")


def main():
    parser = argparse.ArgumentParser(description=__doc__.splitlines()[0])
    parser.add_argument("program", metavar="PROGRAM", help="the built program, and words before the form if need be")
    parser.add_argument("--seed", type=int, default=1, help="another seed gives other texts")
    parser.add_argument("--runs", type=int, default=20_000, help="how many runs there are at the least")
    parser.add_argument("--keep", help="a new folder for the inputs that fail")
    parser.add_argument("--beside", metavar="OTHER", default="", help="another program, and words before the form")
    asked = parser.parse_args()
    if asked.keep and pathlib.Path(asked.keep).exists():
        parser.error(f"{asked.keep} is there already")
    chance = random.Random(asked.seed)
    keep = pathlib.Path(asked.keep or tempfile.mkdtemp(prefix="mutated-"))
    texts, reports = row_texts()
    examples = [path.read_bytes() for path in sorted(EXAMPLES.glob("*.net"))]
    with tempfile.TemporaryDirectory() as scratch:
        runner = Runner(command(asked.program), command(asked.beside), pathlib.Path(scratch), keep)
        count = 0
        while runner.runs < asked.runs:
            text = drawn(chance)
            if chance.random() < 0.6:
                text = chance.choice(chance.choice([examples, examples, texts]))
                text = mutated(chance, text, examples + texts, DIAGRAMS)
            try_text(runner, chance, text, reports)
            count += 1
            if count % 20 == 0:
                try_demo(runner, chance)
    report_ends(runner)
    print(f"seed {asked.seed}: {count:,} texts, {runner.runs:,} runs, {runner.faults:,} faults")
    if runner.faults:
        print(f"kept in {keep}")
    elif keep.exists():
        keep.rmdir()
    return 1 if runner.faults else 0


if __name__ == "__main__":
    sys.exit(main())
