"""Writes what was measured into the tables of docs/SPEED.md, each between two lines that name it."""

import re

from names import BARE, CALLS, HAND, MODEL, TREE, VALUE

KINDS = {
    "command": "queued command",
    "open": "open a phase",
    "send": "send a frame of 8,192 bytes",
    "data": "host data frame of 8,192 bytes",
    "finish": "finish of a tag",
    "media": "media error",
    "link": "link event",
    "comreset": "COMRESET",
    "log": "READ LOG EXT",
}


def table(heads, rows):
    """Columns by their places, as code: the words to the left, the numbers to the right."""
    widths = [max(len(row[i]) for row in [heads, *rows]) for i in range(len(heads))]
    lines = [row[0].ljust(widths[0]) + "".join("  " + word.rjust(width) for word, width in zip(row[1:], widths[1:])) for row in [heads, *rows]]
    return "\n".join(["```", *[line.rstrip() for line in lines], "```"])


def times(*nanoseconds):
    return [f"{n:.1f}" for n in nanoseconds]


def ratio(a, b):
    return f"{a / b:.2f}" if b > 0 else ""


def mixes(measured):
    rows = []
    for kind, taken in measured["lines"].items():
        tree, others = taken[TREE], [taken[name] for name in (HAND, BARE, MODEL)]
        rows.append([kind, *times(tree, *others), *[ratio(tree, other) for other in others]])
    heads = ["ns an event", TREE, HAND, "without test", MODEL, "ratio to by hand", "to without test", "to model"]
    return table(heads, rows)


def instructions(measured):
    if measured["instructions"] is None:
        return "Not counted: no valgrind."
    rows = []
    for kind, taken in measured["instructions"].items():
        tree, hand, bare = (taken[name] for name in (TREE, HAND, BARE))
        rows.append([kind, *[f"{n:.0f}" for n in (tree, hand, bare)], ratio(tree, hand), ratio(tree, bare)])
    heads = ["instructions an event", TREE, HAND, "without test", "ratio to by hand", "to without test"]
    return table(heads, rows)


def calls(measured):
    rows = []
    for kind, taken in measured["calls"].items():
        value, hand = taken[VALUE], taken[CALLS]
        rows.append([kind, *times(value, hand), ratio(value, hand)])
    return table(["ns a call", VALUE, HAND, "ratio"], rows)


def kinds(measured):
    taken = measured["kinds"]
    rows = []
    for kind, words in KINDS.items():
        tree, hand, bare = (taken[name][kind] for name in (TREE, HAND, BARE))
        rows.append([words, *times(tree, hand, bare), ratio(tree, hand)])
    return table(["ns of one event", TREE, HAND, "without test", "ratio to by hand"], rows)


def flat(measured):
    rows = []
    for name, words in [("tags", "outstanding tags"), ("depth", "queue depth"), ("capacity", "sectors of capacity")]:
        points = measured[name]
        for program in (TREE, HAND):
            values = [point[program] for point in points]
            ends = times(values[0], values[-1], min(values), max(values))
            rows.append([f"{words}, {points[0]['at']} to {points[-1]['at']}: {program}", *ends])
    return table(["ns an event against", "at the first", "at the last", "least", "most"], rows)


def memory(measured):
    taken = measured["memory"]
    rows = [[name, f"{peak / 1024:.1f}"] for name, peak in taken["KiB"].items()]
    return table([f"{taken['events']:,} events, {taken['bytes'] / 1e6:.0f} MB", "MiB at most"], rows)


def said(measured):
    how = f"{measured['events']:,} events a file, least of {measured['runs']} runs"
    return f"Measured {measured['said']}; {how}.\nMachine: {measured['machine']}."


def write(measured, path):
    with open(path) as page:
        text = page.read()
    for part in (said, mixes, instructions, calls, kinds, flat, memory):
        name = part.__name__
        begin, end = f"<!-- measured: {name} -->", f"<!-- end: {name} -->"
        pattern = re.escape(begin) + ".*?" + re.escape(end)
        text, found = re.subn(pattern, lambda _: f"{begin}\n\n{part(measured)}\n\n{end}", text, flags=re.S)
        if found != 1:
            raise SystemExit(f"tests/bench: {path} has {found} places for {name}")
    with open(path, "w") as page:
        page.write(text)
