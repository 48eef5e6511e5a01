#!/usr/bin/env python3
"""What tests/hourly/tools tries tools on: samples that have every kind of gap, and what is known
of their counters.

    gaps.py samples                     the samples, as `hourly` reads them
    gaps.py counted SAMPLES HOURS COUNTER..
                                        of each counter: how many hours are known, how many are
                                        gaps, and the mean of what is known, or `-`: from the
                                        pages, by rule [table-change], where HOURS are left out
    gaps.py same COUNTED <PRINTED       whether a tool printed this and nothing else but heads; if
                                        not, status 1 and both
    gaps.py emptied TABLE HOURS         the table with the fields of these hours empty
    gaps.py table HOURS                 a table of so many hours and sixteen counters
"""
import random
import re
import sys

# Each reading: the hour, and each counter's value, `-` where the page has none. All names look
# like numbers, so that a tool that makes numbers of them is seen; 002h is asked for and not kept.
WIDTHS = {"001": 4, "008": 4, "010": 2, "012": 4, "1E3": 8}
READINGS = """
 8          5  0      3   -   7     the first hour; 012h is absent
 9          9  0      3   1   7     012h was absent before
10         12  0      5   3   9
12         20  0      8   3   9     11 has no sample, so 12 has none before it
13         22  0  65535   -  11     010h is at the top of two bytes; 012h is absent
14         24  0  65535   4  13     010h was at the top; 012h was absent before
15          2  0      7   5   3     001h and 1E3h have fallen; 010h was at the top
16          2  0      7   9   3     read twice: this one does not stand
16          4  0      9   9   5
17         15  0      9   9   5
18 4294967295  0     10   9   5     001h is at the top of four bytes
19 4294967295  0     10  10   9     and is there still
20          0  0     12  16  15     and was there before
"""
SIXTEEN = "001 002 003 004 005 006 007 008 009 00A 00B 00D 00F 010 012 013".split()


def page_of(values):
    """Page 11h with the values that are not `-`."""
    page = bytearray(512)
    at = 4
    for (counter, width), value in zip(WIDTHS.items(), values):
        if value != "-":
            entry = width // 2 << 12 | int(counter, 16)
            page[at:at + 2] = entry.to_bytes(2, "little")
            page[at + 2:at + 2 + width] = int(value).to_bytes(width, "little")
            at += 2 + width
    page[511] = -sum(page) % 256
    return page


def samples():
    for line in READINGS.strip().splitlines():
        hour, *values = line.split()[:1 + len(WIDTHS)]
        print(hour, page_of(values).hex())


def values_of(page):
    """The value and the top of each counter that the page has."""
    values, at = {}, 4
    while at < 508:
        entry = int.from_bytes(page[at:at + 2], "little")
        if entry == 0:
            break
        width = 2 * (entry >> 12 & 7)
        value = int.from_bytes(page[at + 2:at + 2 + width], "little")
        values[f"{entry & 0xFFF:03X}"] = value, 256 ** width - 1
        at += 2 + width
    return values


def counted(path, left_out, counters):
    """Each counter's known hours, gaps and mean; the hours that are left out are gaps."""
    pages = {}
    with open(path, encoding="ascii") as lines:
        for line in lines:
            hour, digits = line.split(" ")
            pages[int(hour)] = values_of(bytes.fromhex(digits))
    hours = range(min(pages), max(pages) + 1)
    for counter in counters:
        changes = []
        for hour in hours[1:]:
            old, old_top = pages.get(hour - 1, {}).get(counter, (None, None))
            new, new_top = pages.get(hour, {}).get(counter, (None, None))
            known = None not in (old, new) and old < old_top and old <= new < new_top
            if known and hour not in left_out:
                changes.append(new - old)
        known = len(changes)
        yield counter, known, len(hours) - known, sum(changes) / known if known else None


def is_head(words):
    """Whether a line only names the columns, or underlines them."""
    return set(words) <= {"counter", "known", "gaps", "mean"} or set("".join(words)) == {"-"}


def told(lines):
    """What a tool told of each counter, whatever it sets between the numbers. A line that is no
    counter's stands for itself, so it is like nothing that is expected."""
    for line in lines:
        words = [word for word in re.split(r"[,|\s]+", line) if word]
        if len(words) in (3, 4) and re.fullmatch("[0-9A-F]{3}", words[0]):
            mean = None if words[3:] in ([], ["-"], ["NaN"], ["NA"], ["<NA>"]) else float(words[3])
            yield words[0], int(words[1]), int(words[2]), mean
        elif not is_head(words):
            yield line, 0, 0, None


def alike(one, other):
    """Whether two means are none, or the same to five digits."""
    if one is None or other is None:
        return one is other
    return abs(one - other) <= 1e-5 * max(1, abs(one))


def same(expected, printed):
    """Whether both tell the same of the same counters, in whatever order."""
    expected, printed = (sorted(rows, key=lambda row: row[:3]) for rows in (expected, printed))
    return [row[:3] for row in expected] == [row[:3] for row in printed] and all(
        alike(row[3], other[3]) for row, other in zip(expected, printed))


def emptied(path, left_out):
    """The table with the fields of these hours empty, line by line."""
    with open(path, newline="", encoding="ascii") as lines:
        for line in lines:
            hour, counter, _ = line.split(",")
            print(f"{hour},{counter},\r\n" if hour in left_out else line, end="")


def table(hours):
    """A table of so many hours: 001h has 213 gaps, each of a single hour, 013h is never kept."""
    chance = random.Random(1)
    single = {0, *chance.sample(range(2, hours, 2), 212)}
    print("hour,counter,change", end="\r\n")
    for hour in range(hours):
        for place, counter in enumerate(SIXTEEN):
            often = hour in single if counter == "001" else chance.random() < 0.002 * place
            gap = hour == 0 or counter == "013" or often
            change = 0 if chance.random() < 0.9 else chance.randrange(10 ** (1 + place // 2))
            print(f"{hour},{counter},{'' if gap else change}", end="\r\n")


def main(command, *words):
    if command == "samples":
        samples()
    elif command == "counted":
        left_out = {int(hour) for hour in words[1].split()}
        for counter, known, gaps, mean in counted(words[0], left_out, words[2:]):
            print(counter, known, gaps, "-" if mean is None else mean)
    elif command == "same":
        with open(words[0], encoding="ascii") as lines:
            expected = list(told(lines))
        text = sys.stdin.read()
        if not expected or not same(expected, told(text.splitlines())):
            print("expected:", *expected, "printed:", text, sep="\n")
            return 1
    elif command == "emptied":
        emptied(words[0], words[1].split())
    elif command == "table":
        table(int(words[0]))
    else:
        return 2
    return 0


if __name__ == "__main__":
    sys.exit(main(*sys.argv[1:]))
