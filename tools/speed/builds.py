#!/usr/bin/env python3
"""Compares the speed of two builds of `serve`, with the client of targets.py.

    tools/speed/builds.py [--rounds N] [--slices N] [--seconds S] [--only WORDS] [--depths NUMBERS]
        [--processors TARGET,CLIENT] OLD NEW

It takes an idle machine, and half an hour if nothing else is said. OLD and NEW are built programs of two clones, such as
crates/lanthovur_serve/out/lanthovur_serve. A cell is `serve` or `serve --at-once`, reads or writes of 4 KiB to 1 MiB, with 1
or 8 outstanding. --only names one of the two: serve or at-once. --depths names other numbers of commands outstanding.

A machine's speed can change by half within seconds. So OLD, NEW and OLD once more take turns by short slices, in each order
equally often. They share one processor, and the client has another. A round's rate is the mean of its N slices (12) of S
seconds each (0.25). A round has new processes. The table has, over N rounds (5):

new / old      the median rate of NEW over the mean of OLD's two
old / old      OLD's second median over its first, which says what the machine does by itself
by slice       the median over all slices of NEW's rate over the mean of OLD's two beside it
time           the processor time for a command that NEW took over that of OLD, by /proc

A cell is lower if NEW has less than 0.95 of OLD's median and the difference is more than that between OLD's two. A line has the
geometric mean of the ratios `new / old`, and the least. The last line is 'N cells hold, M are lower, K runs failed'. The client looks at each byte that it reads, and a run that finds a wrong
one fails. The status is 1 if a cell is lower or a run failed.

A shorter run says less. With two rounds of slices of 0.1 s, on a host that took part of the time, one program was called lower
than itself in 6 of 16 cells. So measure OLD beside OLD first on a machine that isn't known.
"""
import argparse
import itertools
import math
import os
import shutil
import signal
import statistics
import sys
import tempfile
import time

from run import compiled
from targets import BLOCK, BLOCKS, SIZES, TARGETS, Measures, bytes_of, end_all, table

# The programs that take turns, by the places of OLD and NEW.
TURNS = {"old": 0, "new": 1, "again": 0}
ORDERS = list(itertools.permutations(TURNS))
DEPTHS = [1, 8]
# How much lower a cell's median may be.
LOSS = 0.05


class Cell:
    """What the three gave in one cell: for each round its slices, and for a slice a rate and a time for each of them."""

    def __init__(self, name):
        self.name, self.rounds = name, []

    def slices(self):
        return [of for slices in self.rounds for of in slices]

    def median(self, turn):
        """The median over the rounds of the mean rate of a round's slices."""
        return statistics.median(statistics.mean(of[turn][0] for of in slices) for slices in self.rounds)

    def old(self):
        return (self.median("old") + self.median("again")) / 2

    def ratio(self):
        return self.median("new") / self.old()

    def is_lower(self):
        spread = abs(self.median("again") - self.median("old")) / self.old()
        return self.ratio() < 1 - max(LOSS, spread)

    def line(self):
        by_slice = statistics.median(2 * of["new"][0] / (of["old"][0] + of["again"][0]) for of in self.slices())
        took = {turn: statistics.mean(of[turn][1] for of in self.slices()) for turn in TURNS}
        ratios = (self.ratio(), self.median("again") / self.median("old"), by_slice,
                  2 * took["new"] / (took["old"] + took["again"]))
        return [self.name, f"{self.old():,.0f}", *(f"{ratio:.3f}" for ratio in ratios), "lower" if self.is_lower() else ""]


def one_round(measures, kind, first, *words):
    """The slices of one round, over new processes: for each slice what the client found of each turn."""
    programs = [measures.words.old, measures.words.new]
    targets = {}
    try:
        for turn, place in TURNS.items():
            targets[turn] = kind(measures.room, programs[place], BLOCKS)
            os.sched_setaffinity(targets[turn].process.pid, {measures.words.processors[0]})
        orders = [ORDERS[(first + number) % len(ORDERS)] for number in range(measures.words.slices)]
        return [{turn: measures.run(targets[turn], *words) for turn in order} for order in orders]
    finally:
        end_all(targets.values())


def cells_of(measures):
    """All cells, by interleaved rounds. A slice of which a run failed is left out."""
    kinds, cells, began = [TARGETS[name] for name in measures.words.only], {}, time.monotonic()
    for number in range(measures.words.rounds):
        for kind, depth, size in itertools.product(kinds, measures.words.depths, SIZES):
            found = one_round(measures, kind, number, "--size", size, "--depth", depth, "--places", measures.places(size, depth))
            for stage in ("read", "write"):
                name = f"{kind.title}, {depth} outstanding, {size // 1024} KiB: {stage}s"
                slices = [{turn: of[turn][stage] for turn in TURNS} for of in found if all(of.values())]
                if slices:
                    cells.setdefault(name, Cell(name)).rounds.append(slices)
        print(f"round {number + 1} of {measures.words.rounds}: {time.monotonic() - began:,.0f} s", file=sys.stderr, flush=True)
    return list(cells.values())


def pair_of_numbers(word):
    one, other = word.split(",")
    return int(one), int(other)


def read_words():
    own = sorted(os.sched_getaffinity(0))
    parser = argparse.ArgumentParser(description=__doc__, formatter_class=argparse.RawDescriptionHelpFormatter)
    parser.add_argument("old", help="the program to compare with")
    parser.add_argument("new", help="the program that is judged")
    parser.add_argument("--rounds", type=int, default=5, help="how often each cell has new processes")
    parser.add_argument("--slices", type=int, default=2 * len(ORDERS), help="slices of a round, a multiple of six")
    parser.add_argument("--seconds", type=float, default=0.25, help="how long reads and writes last in a slice")
    parser.add_argument("--range", type=bytes_of, default=16 << 20, help="how much of the disk is used, at most 64M")
    parser.add_argument("--only", type=lambda word: word.split(","), default=["serve", "at-once"], help="serve or at-once")
    parser.add_argument("--depths", type=lambda word: [int(depth) for depth in word.split(",")], default=DEPTHS, help="commands outstanding")
    parser.add_argument("--processors", type=pair_of_numbers, default=(own[-1], own[0]),
                        help="the numbers of the target's processor and of the client's; the last and the first if not said")
    words = parser.parse_args()
    words.range = min(words.range, BLOCKS * BLOCK)
    if not set(words.only) <= {"serve", "at-once"}:
        parser.error("--only takes serve and at-once")
    if words.slices < 1 or words.slices % len(ORDERS):
        parser.error(f"--slices is a multiple of {len(ORDERS)}: each order comes equally often")
    if words.rounds < 1:
        parser.error("--rounds is at least 1")
    if not set(words.processors) <= set(own):
        parser.error(f"the processors are {', '.join(map(str, own))}")
    for program in (words.old, words.new):
        if not os.access(program, os.X_OK):
            parser.error(f"there is no program {program}")
    return words


def main():
    words = read_words()
    # Whoever ends this ends the targets, too.
    signal.signal(signal.SIGTERM, lambda *_: sys.exit(143))
    room = tempfile.mkdtemp(prefix="builds-")
    try:
        if not compiled(room, "client"):
            sys.exit("cc is not installed, or refuses client.c")
        # The client runs where this does.
        os.sched_setaffinity(0, {words.processors[1]})
        measures = Measures(words, room)
        cells = cells_of(measures)
    finally:
        shutil.rmtree(room, ignore_errors=True)
    head = ["Cell", "old, commands/s", "new / old", "old / old", "by slice", "time", ""]
    print("\n".join(table(head, [cell.line() for cell in cells])))
    if cells:
        ratios = [cell.ratio() for cell in cells]
        print(f"new / old: geometric mean {math.exp(statistics.mean(map(math.log, ratios))):.3f}, least {min(ratios):.3f}")
    lower = sum(cell.is_lower() for cell in cells)
    print(f"{len(cells) - lower} cells hold, {lower} are lower, {measures.failed} runs failed")
    return 1 if lower or measures.failed else 0


if __name__ == "__main__":
    sys.exit(main())
