"""Measures the event program beside the one by hand and the model: see tests/bench, which runs this."""

import argparse
import json
import os
import shutil
import sys

import page
import plot
from files import KINDS, MIXES, Files, solved
from names import BARE, CALLS, HAND, MODEL, TREE, VALUE
from timing import Program, least

TAGS = list(range(1, 33))
DEPTHS = [1, 2, 4, 8, 12, 16, 20, 24, 28, 32]
CAPACITIES = [1, 2, 4, 8, 12, 16, 24, 32, 40, 48, 56, 64]
SHARES = [0.25, 0.5, 1, 1.5, 2, 3, 4]
MEMORY_BYTES = 100_000_000


class Bench:
    def __init__(self, words):
        self.runs, self.events = words.runs, words.events
        self.files = Files(words.by_hand, words.folder)
        self.tree = Program(TREE, words.run_events.split())
        self.hand = Program(HAND, [words.by_hand])
        self.bare = Program(BARE, [words.by_hand, "--no-check"])
        self.plain = [Program(HAND, [words.plain]), Program(BARE, [words.plain, "--no-check"])]
        self.model = Program(MODEL, [words.model, "--run"])
        self.value = Program(VALUE, [*words.by_value.split(), "--by-value"], named=True)
        self.calls = Program(CALLS, [words.by_hand, "count"])

    def same(self, path, programs):
        """Ends with status 1 where two of the programs print different bytes."""
        wanted = programs[0].printed(path)
        for program in programs[1:]:
            if program.printed(path) != wanted:
                print(f"tests/bench: {programs[0].name} and {program.name} print different bytes: {path}")
                sys.exit(1)

    def timed(self, kind, programs, events=None, further=()):
        """Nanoseconds an event of each program, over a file on which they are found to agree."""
        path, _ = self.files.make(kind, events or self.events, *further)
        self.same(path, programs)
        times = least(programs, path, self.runs)
        return {name: taken / (events or self.events) * 1e9 for name, taken in times.items()}

    def mixes(self):
        lines = {kind: self.timed(kind, [self.tree, self.hand, self.bare, self.model]) for kind in MIXES}
        calls = {kind: self.timed(kind, [self.value, self.calls]) for kind in MIXES}
        return lines, calls

    def kinds(self):
        """Nanoseconds of one event of each kind: as many files as there are kinds, each mostly of one, solved for all.

        What a run costs without events is taken off before.
        """
        programs = [self.tree, self.hand, self.bare]
        empty, _ = self.files.make("link", 1)
        start = least(programs, empty, self.runs)
        rows, times = [], []
        for kind in KINDS:
            path, counts = self.files.make(kind, self.events)
            self.same(path, programs)
            rows.append([counts[name] for name in KINDS])
            times.append(least(programs, path, self.runs))
        by_program = {}
        for program in programs:
            values = [taken[program.name] - start[program.name] for taken in times]
            by_program[program.name] = dict(zip(KINDS, (x * 1e9 for x in solved(rows, values))))
        return by_program

    def series(self, kind, points):
        events = max(self.events // 4, 1000)
        measured = []
        for point in points:
            taken = self.timed(kind, [self.tree, self.hand, self.bare], events, (point,))
            measured.append({"at": point, **taken})
        return measured

    def totals(self):
        """Milliseconds of a whole run against the number of events."""
        measured = []
        for share in SHARES:
            events = int(self.events * share)
            taken = self.timed("mixed", [self.tree, self.hand, self.bare], events)
            measured.append({"at": events, **{name: n * events / 1e6 for name, n in taken.items()}})
        return measured

    def instructions(self):
        """Instructions of an event over each mix, of the programs as built for one processor; none without valgrind."""
        if shutil.which("valgrind") is None:
            return None
        events = max(self.events // 10, 1000)
        empty, _ = self.files.make("link", 1)
        counted = {}
        for kind in MIXES:
            path, _ = self.files.make(kind, events)
            self.same(path, [self.tree, *self.plain])
            counted[kind] = {
                program.name: (program.instructions(path) - program.instructions(empty)) / events
                for program in [self.tree, *self.plain]
            }
        return counted

    def memory(self):
        """The most memory over a file of so many bytes, and how many it has."""
        path, _ = self.files.make("mixed", self.events)
        events = MEMORY_BYTES * self.events // os.path.getsize(path) * 101 // 100
        path, _ = self.files.make("mixed", events)
        size = os.path.getsize(path)
        peaks = {program.name: program.peak(path) for program in [self.tree, self.hand]}
        self.files.remove(path)
        return {"bytes": size, "events": events, "KiB": peaks}


def told(lines, calls):
    for kind, taken in lines.items():
        print(f"{kind}:")
        for name, nanoseconds in taken.items():
            print(f"  {nanoseconds:8.1f} ns an event  {taken[TREE] / nanoseconds:6.2f}  {name}")
    for kind, taken in calls.items():
        print(f"{kind}, public calls by value and no lines:")
        for name, nanoseconds in taken.items():
            print(f"  {nanoseconds:8.1f} ns an event  {taken[VALUE] / nanoseconds:6.2f}  {name}")


def told_kinds(kinds):
    print("nanoseconds of one event of a kind:")
    for kind in KINDS:
        taken = "".join(f"  {kinds[name][kind]:9.1f} {name}" for name in kinds)
        print(f"  {kind:9}{taken}")


def main():
    words = argparse.ArgumentParser(prog="tests/bench")
    words.add_argument("--page", action="store_true")
    for name in ["by-hand", "plain", "run-events", "by-value", "model", "folder", "said", "machine"]:
        words.add_argument("--" + name, required=True)
    words.add_argument("--runs", type=int, required=True)
    words.add_argument("--events", type=int, required=True)
    words = words.parse_args()
    bench = Bench(words)
    lines, calls = bench.mixes()
    told(lines, calls)
    kinds = bench.kinds()
    told_kinds(kinds)
    if words.page:
        measured = {
            "said": words.said, "machine": words.machine, "runs": words.runs, "events": words.events,
            "lines": lines, "calls": calls, "kinds": kinds,
            "tags": bench.series("tags", TAGS), "depth": bench.series("depth", DEPTHS),
            "capacity": bench.series("capacity", CAPACITIES), "totals": bench.totals(),
            "instructions": bench.instructions(), "memory": bench.memory(),
        }
        with open(os.path.join(words.folder, "measured.json"), "w") as out:
            json.dump(measured, out, indent=1)
        page.write(measured, "docs/SPEED.md")
        plot.write(measured, "docs/speed.svg")
    ratios = ", ".join(f"{kind} {taken[TREE] / taken[HAND]:.2f}" for kind, taken in lines.items())
    print(f"run_events / by hand, least of {words.runs} runs each: {ratios}")


main()
