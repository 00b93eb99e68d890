"""Mutations of texts: of diagrams and of reports.

Each takes the source of chance, a text and a list of other texts, and gives the changed text.
"""

import re

# How large a mutated text may become.
MOST_MUTATED = 6_000_000

# Numbers at limits and far beyond them.
HUGE = [
    "0", "1", "2", "-1", "0.5", "1e-30", "1e-31", "1e30", "1e37", "1e38", "-1e37", "0e999999999999999999999",
    "1e999999999999999999999", "1e-999999999999999999999", "-0", "+.5e+0", "00000000000000000000000000001",
    str(2**31), str(2**63 - 1), str(2**64), str(2**126 - 1), str(2**126), str(2**127), str(2**128), str(-(2**127)),
    str(10**38), "9" * 200, "0." + "0" * 29 + "1", "0." + "3" * 31, "1" + "0" * 5000, "1e4096", "18446744073709551615/3",
]

# Pieces of the grammar, to put in anywhere.
PIECES = [
    "{", "}", "(", ")", "=", ";", "|", '"', "\\", "%", "\n", "\0", "\xff", "net { }", "utility V { }", "infinity",
    'node Z { states = ("a" "b"); }\n', 'decision E { states = ("a" "b"); }\n', "potential (Z) { data = (1 1); }\n",
    "potential (E | Z) { }\n", 'agents = ("A" "B");', 'agent = "A";', "states = ();", "data = ;", "continuous ",
    "never", " -> ", "row 1:", "agent ", "order:", "1/0", "/2",
]

NUMBER = re.compile(rb"(?<![\w.])[-+]?\d[\d.]*(?:[eE][-+]?\d+)?")
NAME = re.compile(rb"[A-Za-z_]\w*")
STRING = re.compile(rb'"((?:[^"\\\n\r\x00-\x1f]|\\["\\])*)"')
WHOLE = re.compile(rb"(?:^|(?<=\}))[^\n{}]*\{[^{}]*\}", re.M)
LINE = re.compile(rb"^[^\n]*\n", re.M)
CHOICE = re.compile(rb"-> .*$", re.M)


def slice_of(chance, text, longest=200):
    """Where a random piece of the text begins and ends."""
    start = chance.randrange(len(text) + 1)
    return start, min(len(text), start + chance.randrange(1, longest))


def replaced(chance, text, pattern, other):
    """The text with one random match of the pattern replaced."""
    matches = list(pattern.finditer(text))
    if not matches:
        return text
    found = chance.choice(matches)
    return text[: found.start()] + other(found.group()) + text[found.end() :]


def exchanged(chance, text, pattern):
    """The text with two random matches of the pattern exchanged."""
    matches = list(pattern.finditer(text))
    if len(matches) < 2:
        return text
    one, two = sorted(chance.sample(matches, 2), key=lambda found: found.start())
    between = text[one.end() : two.start()]
    return text[: one.start()] + two.group() + between + one.group() + text[two.end() :]


def flip_bytes(chance, text, _):
    changed = bytearray(text)
    for _ in range(chance.randrange(1, 5) if changed else 0):
        at = chance.randrange(len(changed))
        changed[at] = chance.choice([changed[at] ^ 1 << chance.randrange(8), chance.randrange(256)])
    return bytes(changed)


def cut_piece(chance, text, _):
    start, end = slice_of(chance, text)
    return text[:start] + text[end:]


def cut_end(chance, text, _):
    at = chance.randrange(len(text) + 1)
    return chance.choice([text[:at], text[at:]])


def double_piece(chance, text, _):
    start, end = slice_of(chance, text)
    at = chance.choice([end, chance.randrange(len(text) + 1)])
    times = chance.choice([1, 1, 1, 2, 20, 300])
    return text[:at] + text[start:end] * times + text[at:]


def put_in_piece(chance, text, _):
    at = chance.randrange(len(text) + 1)
    return text[:at] + chance.choice(PIECES).encode("latin-1") + text[at:]


def exchange_blocks(chance, text, _):
    return exchanged(chance, text, WHOLE)


def exchange_lines(chance, text, _):
    return exchanged(chance, text, LINE)


def remove_block(chance, text, _):
    return replaced(chance, text, chance.choice([WHOLE, LINE]), lambda _: b"")


def remove_lines(chance, text, _):
    lines = text.splitlines(keepends=True)
    start, end = slice_of(chance, lines, 4)
    return b"".join(lines[:start] + lines[end:])


def double_line(chance, text, _):
    return replaced(chance, text, LINE, lambda line: line * chance.choice([2, 2, 3, 300]))


def huge_number(chance, text, _):
    return replaced(chance, text, NUMBER, lambda _: chance.choice(HUGE).encode())


def other_number(chance, text, _):
    """A small change, after which the text mostly says something still."""
    for _ in range(chance.randrange(1, 6)):
        other = chance.choice([str(chance.randrange(-9, 10)), str(chance.randrange(10)), f"0.{chance.randrange(100)}"])
        text = replaced(chance, text, NUMBER, lambda _: other.encode())
    return text


def nest_brackets(chance, text, _):
    deep = chance.choice([1, 2, 30, 31, 32, 33, 64, 1000, 100_000])
    shut = chance.choice([deep, deep, deep, deep - 1, 0])
    pattern = chance.choice([NUMBER, STRING, re.compile(rb"\([^()]*\)")])
    return replaced(chance, text, pattern, lambda value: b"(" * deep + value + b")" * shut)


def exchange_names(chance, text, _):
    return exchanged(chance, text, NAME)


def exchange_strings(chance, text, _):
    return exchanged(chance, text, STRING)


def exchange_numbers(chance, text, _):
    return exchanged(chance, text, NUMBER)


def rename(chance, text, _):
    """One name in place of another, everywhere or once."""
    names = NAME.findall(text)
    if not names:
        return text
    old, new = re.compile(rb"\b" + chance.choice(names) + rb"\b"), chance.choice(names)
    if chance.random() < 0.1:
        new = new * chance.choice([2, 64, 256])
    return old.sub(new, text) if chance.random() < 0.5 else replaced(chance, text, old, lambda _: new)


def add_parent(chance, text, _):
    """A further parent in a potential, which mostly wants a larger table then."""
    names = NAME.findall(text) or [b"X"]
    parent = b" " + chance.choice(names)
    return replaced(chance, text, re.compile(rb"\|[^)]*"), lambda parents: parents + parent)


def share_utility(chance, text, _):
    strings = STRING.findall(text) or [b"A"]
    owners = b" ".join(b'"' + chance.choice(strings) + b'"' for _ in range(chance.randrange(1, 4)))
    attribute = b" agents = (" + owners + b");"
    return replaced(chance, text, re.compile(rb"utility\s+\w+\s*\{"), lambda head: head + attribute)


def other_worth(chance, text, _):
    """Another fraction in a report."""
    found = chance.choice([b"0", b"1", b"-1", b"1/2", b"2/4", b"-7/3", b"1/0", b"%d" % chance.choice([2**127, 2**128])])
    return replaced(chance, text, re.compile(rb"(?<== )-?\d+(/\d+)?"), lambda _: found)


def other_never(chance, text, _):
    """A row that is marked `never` and was not, or the other way round."""
    worth = re.compile(rb" never$| = -?[\d/]+$", re.M)
    return replaced(chance, text, worth, lambda _: chance.choice([b" never", b" = 1"]))


def exchange_choices(chance, text, _):
    return exchanged(chance, text, CHOICE)


def one_choice(chance, text, _):
    """A row's choice in all rows, or in one other."""
    choices = CHOICE.findall(text) or [b"-> 1"]
    chosen = chance.choice(choices)
    if chance.random() < 0.5:
        return CHOICE.sub(lambda _: chosen, text)
    return replaced(chance, text, CHOICE, lambda _: chosen)


def exchange_decisions(chance, text, _):
    return exchanged(chance, text, re.compile(rb"^decision .*\n(?:row .*\n)*", re.M))


def join_other(chance, text, others):
    """Another text behind this one, whole or behind a front of it."""
    other = chance.choice(others)
    at = chance.randrange(len(text) + 1)
    return chance.choice([text + other, text[:at] + other[chance.randrange(len(other) + 1) :], other + text])


BYTES = [flip_bytes, cut_piece, cut_end, double_piece, put_in_piece, remove_lines, double_line, join_other]
WORDS = [huge_number, nest_brackets, exchange_names, rename, add_parent, exchange_blocks, remove_block, exchange_lines]
VALUES = [other_number, exchange_numbers, exchange_strings, share_utility, huge_number, exchange_blocks]
ANSWERS = [other_worth, other_worth, other_never, exchange_choices, one_choice, exchange_decisions, exchange_names]
DIAGRAMS = [BYTES, WORDS, VALUES, VALUES, BYTES + WORDS + VALUES]
REPORTS = [ANSWERS, ANSWERS, ANSWERS, BYTES, BYTES + WORDS + VALUES]


def mutated(chance, text, others, all_kinds):
    """The text after one to four mutations of one of these kinds."""
    kinds = chance.choice(all_kinds)
    for _ in range(chance.choice([1, 1, 1, 2, 2, 3, 4])):
        text = chance.choice(kinds)(chance, text, others)
        if len(text) > MOST_MUTATED:
            text = text[:MOST_MUTATED]
    return text
