#!/usr/bin/env python3
"""Writes crates/worked_rows/stdin and stdout from worked rows given as data.

usage: rows.py

The rows are those that came with the specification, bench/specified_rows.json, and those of our own,
bench/more_rows.json, each with why it is there. What must come is taken from the data alone and never
from the program. A row that tells neither the whole of `out` nor its first or last line has no more than
the status and `err` compared.

Rows that share their words and some files are given once with these, and `each` has what differs.

A file is given as pieces, each a text and how often it stands there, one behind the other; `out_is` and
`err_is` may be one text or such pieces. A character of a text is the byte of its number, from 0 to 255.

No row is left out for its time: each ends within a second.
"""

import json
import os

BENCH = os.path.dirname(os.path.abspath(__file__))
CRATE = os.path.join(BENCH, "..", "crates", "worked_rows")
DATA = ("specified_rows.json", "more_rows.json")


def escaped(text):
    """The text as the program reads and prints it: `%HH` for a byte that is not plain."""
    assert all(ord(c) < 256 for c in text), "a character that is no byte"
    return "".join(
        c if " " <= c <= "~" and c not in "%\\" else "%%%02X" % ord(c) for c in text
    )


def whole(content):
    """The text, or what its pieces come to."""
    return content if isinstance(content, str) else "".join(text * times for text, times in content)


def lines(text):
    """The lines of a text; one with no end is marked by a `\\`."""
    parts = text.split("\n")
    return [escaped(part) for part in parts[:-1]] + ([escaped(parts[-1]) + "\\"] if parts[-1] else [])


def device_lines(row):
    for device in ("shelf", "out", "err"):
        for number in row.get(device, {}).get("fails", []):
            yield f"{device} fails {number}"
        if "piece" in row.get(device, {}):
            yield f"{device} piece {row[device]['piece']}"


def given_lines(row):
    """The lines that say what the row runs on."""
    if row["words"]:
        yield "words " + " ".join(row["words"])
    for name, content in row["files"]:
        yield "file " + name
        for text, times in content:
            if times == 1:
                yield from ("text " + line for line in lines(text))
            else:
                yield f"times {times} {escaped(text)}\\"
    yield from device_lines(row)


def told(row):
    """The parts that the row tells, each with its lines."""
    parts = {}
    if "out_is" in row:
        parts["out"] = lines(whole(row["out_is"]))
    else:
        if "out_first" in row:
            parts["first"] = [escaped(row["out_first"])]
        if "out_last" in row:
            parts["last"] = [escaped(row["out_last"])]
    if "err_is" in row:
        parts["err"] = lines(whole(row["err_is"]))
    return parts


def single(rows):
    """The rows, those that are given together one by one."""
    for row in rows:
        for own in row.get("each", [{"files": []}]):
            yield {**row, **own, "files": row["files"] + own["files"]}


def main():
    rows = []
    for name in DATA:
        with open(os.path.join(BENCH, name), encoding="utf-8") as file:
            rows += single(json.load(file)["rows"])
    # Of rows that run on the same, the one that tells most counts.
    runs = {}
    for row in rows:
        given, parts = tuple(given_lines(row)), told(row)
        if given not in runs or len(parts) > len(runs[given][2]):
            runs[given] = (row["words"], row["status"], parts)
    stdin = ["# Written by bench/rows.py; src/main.rt says how to read it.", ""]
    stdout = []
    seen = {}
    for given, (words, status, parts) in runs.items():
        name = " ".join(words) or "no words"
        seen[name] = seen.get(name, 0) + 1
        if seen[name] > 1:
            name += f", {seen[name]}"
        stdin += ["row " + name, *given, " ".join(["show", *parts]), ""]
        stdout += ["row " + name, f"status {status}"]
        stdout += [f"{part} {line}" for part, its in parts.items() for line in its]
    for file_name, text in (("stdin", stdin), ("stdout", stdout)):
        with open(os.path.join(CRATE, file_name), "w", encoding="ascii") as file:
            file.write("\n".join(text).rstrip("\n") + "\n")
    print(f"{len(runs)} rows")


main()
