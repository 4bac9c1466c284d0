#!/usr/bin/env python3
"""Says which lengths of `serve` serve best: of segments and of bursts to the target, and of Data-Ins to the initiator.

    tools/speed/lengths.py [--rounds N] [--seconds S] [--only WORDS] [--write] [PROGRAM]

It takes an idle machine, and a quarter of an hour if nothing else is said. A setting is three lengths, by `--segment`, `--burst`
and `--data-in`. Each of the three goes from 8,192 to 262,144 bytes beside the others' defaults, and some go together. There are
two clients: speed.c, which stands on libiscsi as QEMU does, and client.c, which keeps its memory. A cell is a client, reads or
writes, and a size with commands outstanding. --only names one of the clients: client or libiscsi.

A round (N, 9 if not said) has a new process for each setting. In each cell they take turns, shuffled, of S seconds each (0.2).
The service has one processor and the client another. The tables have medians: commands a second, and first of all for each setting
the geometric mean over all cells of its rate over that of the defaults, the least such ratio, and the resident memory of 16
sessions that each read and write 1 MiB with 8 outstanding, at its most and without the disk. Settings stand in the order of
that mean. With --write the section takes the place of the one in docs/SPEED.md, or comes last. The last line is 'N passed, M
failed', of runs of the clients. PROGRAM is crates/lanthovur/out/lanthovur if none is named.
"""
import argparse
import math
import os
import random
import shutil
import signal
import statistics
import subprocess
import sys
import tempfile
import time

from builds import pair_of_numbers
from run import NAME, compiled, missing, serve_once
from targets import BLOCK, PROGRAM, Measures, Target, end_all, table, write

TITLE = "Lengths"
DEFAULT = (262144, 262144, 131072)
VALUES = (8192, 16384, 32768, 65536, 131072, 262144)
TOGETHER = [(65536, 65536, 65536), (131072, 131072, 131072), (262144, 262144, 65536), (131072, 131072, 65536)]
# One length at a time, and those that go together.
SETTINGS = [DEFAULT]
SETTINGS += [DEFAULT[:at] + (value,) + DEFAULT[at + 1:] for at in range(3) for value in VALUES if value != DEFAULT[at]]
SETTINGS += [setting for setting in TOGETHER if setting not in SETTINGS]
# Sizes, each with commands outstanding.
SIZES = [(65536, 8), (262144, 1), (262144, 8), (1048576, 8)]
# The disk of the cells, and that of 16 sessions, in blocks.
BLOCKS, MANY_BLOCKS, SESSIONS = (16 << 20) // BLOCK, (128 << 20) // BLOCK, 16
CLIENTS = ("client", "libiscsi")


class Long(Target):
    """`serve` with three lengths."""

    title = "`serve`"

    def __init__(self, room, program, setting, blocks=BLOCKS):
        self.setting = setting
        super().__init__(room, program, blocks)
        self.pid, self.url = self.process.pid, f"iscsi://127.0.0.1:{self.port}/{NAME}/0"

    def command(self):
        segment, burst, data_in = self.setting
        lengths = ["--segment", segment, "--burst", burst, "--data-in", data_in]
        return [self.program, "serve", "--port", self.port, "--blocks", self.blocks, "--quiet", *lengths]

    def most_memory(self):
        """MB that its process had at its most, beside the disk."""
        line = next(line for line in open(f"/proc/{self.pid}/status") if line.startswith("VmHWM"))
        return int(line.split()[1]) / 1000 - self.blocks * BLOCK / 1e6


def rates_of(measures, client, target, size, depth):
    """Commands a second of reads and of writes, or nothing where the run failed."""
    if client == "client":
        found = measures.run(target, "--size", size, "--depth", depth, "--places", BLOCKS * BLOCK // size)
        return (found["read"][0], found["write"][0]) if found else None
    try:
        reads, writes, _, _ = serve_once(f"{measures.room}/speed", target, size, depth, measures.words.seconds)
    except (subprocess.CalledProcessError, KeyError) as error:
        measures.failed += 1
        print(f"FAILED libiscsi, {size}, {depth}, {target.setting}: {error}", flush=True)
        return None
    measures.passed += 1
    return reads, writes


def memory_of(measures, setting):
    """MB of so many sessions at once, beside the disk, or nothing where the run failed."""
    target = Long(measures.room, measures.words.program, setting, MANY_BLOCKS)
    try:
        found = measures.run(target, "--size", 1 << 20, "--depth", 8, "--sessions", SESSIONS, "--places", MANY_BLOCKS * BLOCK >> 20)
        return target.most_memory() if found else None
    finally:
        target.end()


def one_round(measures, cells):
    """Adds what each setting gives in each cell, over new processes."""
    targets = {}
    try:
        for setting in SETTINGS:
            targets[setting] = Long(measures.room, measures.words.program, setting)
            os.sched_setaffinity(targets[setting].pid, {measures.words.processors[0]})
        for client in measures.words.only:
            for size, depth in SIZES:
                for setting in random.sample(SETTINGS, len(SETTINGS)):
                    found = rates_of(measures, client, targets[setting], size, depth)
                    for kind, rate in zip(("reads", "writes"), found or ()):
                        cells.setdefault((client, kind, size, depth), {}).setdefault(setting, []).append(rate)
    finally:
        end_all(targets.values())


def over_default(cells, setting, client=None):
    """The setting's median over that of the defaults, in each cell of a client or of both."""
    for (of, *_), cell in cells.items():
        if client in (None, of) and setting in cell and DEFAULT in cell:
            yield statistics.median(cell[setting]) / statistics.median(cell[DEFAULT])


def mean(ratios):
    """The geometric mean, as text."""
    logs = [math.log(ratio) for ratio in ratios]
    return f"{math.exp(statistics.mean(logs)):.3f}" if logs else ""


def numbers(setting):
    return [f"{length:,}" for length in setting]


def section(measures, cells, memory):
    """The lines of the section."""
    words = measures.words
    ranked = sorted(SETTINGS, key=lambda setting: mean(over_default(cells, setting)), reverse=True)
    sums = [[*numbers(setting), mean(over_default(cells, setting)), *(mean(over_default(cells, setting, client)) for client in words.only),
             f"{min(over_default(cells, setting), default=0):.2f}", f"{memory[setting]:.1f}" if memory.get(setting) else ""]
            for setting in ranked]
    lengths = ["`--segment`", "`--burst`", "`--data-in`"]
    lines = [f"## {TITLE}", "",
             f"These are by `tools/speed/lengths.py`: medians of {words.rounds} rounds of {words.seconds:g} seconds, in shuffled turns. The load "
             f"was {measures.load:.0f} on {os.cpu_count()} processors. The means and the least are of rates over those of the defaults, "
             f"{', '.join(numbers(DEFAULT))}. The memory is that of {SESSIONS} sessions that read and write 1 MiB with 8 outstanding, at its "
             "most and without the disk.", "",
             *table([*lengths, "Mean", *(f"Mean, {client}" for client in words.only), "Least", "Resident MB"], sums)]
    for client in words.only:
        names = [cell for cell in cells if cell[0] == client]
        head = [f"{kind} of {size // 1024} KiB, {depth}" for _, kind, size, depth in names]
        rows = [[*numbers(setting), *(f"{statistics.median(cells[name][setting]):,.0f}" if setting in cells[name] else "" for name in names)]
                for setting in SETTINGS]
        lines += [f"Commands a second, by {client}, with so many outstanding:", "", *table([*lengths, *head], rows)]
    return lines


def read_words():
    own = sorted(os.sched_getaffinity(0))
    parser = argparse.ArgumentParser(description=__doc__, formatter_class=argparse.RawDescriptionHelpFormatter)
    parser.add_argument("program", nargs="?", default=str(PROGRAM), help="the program that serves")
    parser.add_argument("--rounds", type=int, default=9, help="how often each cell is measured")
    parser.add_argument("--seconds", type=float, default=0.2, help="how long reads and writes last in a turn")
    parser.add_argument("--only", type=lambda word: word.split(","), default=list(CLIENTS), help="client or libiscsi")
    parser.add_argument("--processors", type=pair_of_numbers, default=(own[-1], own[0]),
                        help="the numbers of the target's processor and of the client's; the last and the first if not said")
    parser.add_argument("--write", action="store_true", help="put the section into docs/SPEED.md")
    words = parser.parse_args()
    if not set(words.only) <= set(CLIENTS):
        parser.error("--only takes client and libiscsi")
    if not os.access(words.program, os.X_OK):
        parser.error(f"there is no program {words.program}: `./lanthovur </dev/null` builds it")
    return words


def main():
    words = read_words()
    # Whoever ends this ends the targets, too.
    signal.signal(signal.SIGTERM, lambda *_: sys.exit(143))
    room, cells, memory, began = tempfile.mkdtemp(prefix="lengths-"), {}, {}, time.monotonic()
    try:
        if missing("cc") or not compiled(room, "client") or "libiscsi" in words.only and not compiled(room, "speed", "-liscsi"):
            sys.exit("cc or libiscsi-dev is not installed")
        measures = Measures(words, room)
        os.sched_setaffinity(0, {words.processors[1]})
        for number in range(words.rounds):
            one_round(measures, cells)
            print(f"round {number + 1} of {words.rounds}: {time.monotonic() - began:,.0f} s", file=sys.stderr, flush=True)
        memory = {setting: memory_of(measures, setting) for setting in SETTINGS}
    finally:
        shutil.rmtree(room, ignore_errors=True)
    lines = section(measures, cells, memory)
    print("\n".join(lines))
    if words.write:
        write(TITLE, lines)
    print(f"{measures.passed} passed, {measures.failed} failed")
    return 1 if measures.failed else 0


if __name__ == "__main__":
    sys.exit(main())
