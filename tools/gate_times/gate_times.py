#!/usr/bin/env python3
"""Runs the gate and tells where its time goes.

    tools/gate_times/gate_times.py [WORD ..]
    tools/gate_times/gate_times.py --page FILE ..

At the top of the repository: runs `rt ci`, or the words that are given, and passes its lines on. While it runs, the
processes of the prover and the compilers that it started are looked at once a second. At the end there is a table on
standard error: for each crate and part of the gate (proof, tests, edits) how many checks there were, their seconds of
processor, the wall seconds from the first to the last, and the most memory of one; and the dearest checks of edits by
name. What a process does within the second before it ends is not seen. The exit status is that of the command.

With --page it runs nothing, but writes the table of docs/GATE.md from such tables, which stand in files. Where two files
have a part of a crate, the later one counts.
"""
import os
import re
import signal
import subprocess
import sys
import threading
import time

TICK = os.sysconf("SC_CLK_TCK")
PAGE = os.sysconf("SC_PAGE_SIZE")
# So many edits are told by name.
DEAREST = 20


def words_of(process):
    """The words that a process was started with, or none where it has ended."""
    try:
        with open(f"/proc/{process}/cmdline", encoding="utf-8", errors="replace") as it:
            return it.read().split("\0")
    except OSError:
        return []


def times_of(process):
    """The parent, the moment of the start, the seconds of processor and the bytes of memory of a process, or None
    where it has ended."""
    try:
        with open(f"/proc/{process}/stat", encoding="utf-8", errors="replace") as it:
            fields = it.read().rsplit(")", 1)[1].split()
    except OSError:
        return None
    return fields[1], fields[19], (int(fields[11]) + int(fields[12])) / TICK, int(fields[21]) * PAGE


def part_of(words):
    """The crate and the part of the gate that a process works on, or None."""
    if not words or os.path.basename(words[0]) != "rattle" or "--crate-name" not in words:
        return None
    crate = words[words.index("--crate-name") + 1]
    if "--test" in words:
        return crate, "tests"
    # a check that keeps nothing is that of an edit
    return crate, "edits" if words[1] == "check" and "-o" not in words else "proof"


def edit_of(words):
    """The name of the edit that such a process tries, by its number among those of its crate, or "all of them" for the
    check that they begin with; None where it tries none."""
    if "--incremental" not in words:
        return None
    crate = words[words.index("--crate-name") + 1]
    number = os.path.basename(words[words.index("--incremental") + 1])
    if not number.isdigit():
        return f"{crate}: all of them"
    try:
        names = sorted(os.listdir(f"crates/{crate}/must-fail"))
    except OSError:
        # another checkout's
        return None
    return f"{crate}: {names[int(number)]}" if int(number) < len(names) else None


def is_below(process, top, seen):
    """Whether `top` started the process, or one that it stands below, by what was seen of each process."""
    for _ in range(20):
        if process == top:
            return True
        process = seen[process][0] if seen.get(process) else "0"
    return False


class Part:
    """What was seen of a part of the gate."""

    def __init__(self, now):
        self.first = self.last = now
        self.seconds = {}
        self.checks = self.memory = 0


class Table:
    """What was seen of each part."""

    def __init__(self):
        self.parts = {}
        # the edits, and the seconds of each process that tried one
        self.edits = {}
        # the part of each process that was seen, by its number and start
        self.known = {}
        self.began = time.time()

    def look(self, top):
        """Looks once at each process that the process `top` started, or one that it started."""
        now = time.time() - self.began
        seen = {process: times_of(process) for process in os.listdir("/proc") if process.isdigit()}
        for process, times in seen.items():
            if times is None or not is_below(process, top, seen):
                continue
            parent, start, seconds, memory = times
            key = process, start
            # a process that has just begun may still have its parent's words
            if self.known.get(key) is None:
                words = words_of(process)
                self.known[key] = part_of(words)
                if self.known[key] and self.known[key][1] == "edits":
                    self.edits[key] = edit_of(words), 0
                if self.known[key]:
                    part = self.parts.setdefault(self.known[key], Part(now))
                    # the copies that a check makes of itself are no checks of their own
                    part.checks += part_of(words_of(parent)) is None
            if self.known[key]:
                part = self.parts[self.known[key]]
                part.seconds[key] = seconds
                if key in self.edits:
                    self.edits[key] = self.edits[key][0], seconds
                part.last = now
                part.memory = max(part.memory, memory)

    def print(self):
        """Prints the table, the crates in the order in which they were first seen."""
        total = 0
        print(f"{'crate':24} {'part':6} {'checks':>6} {'CPU s':>7} {'from':>6} {'to':>6} {'MB':>6}", file=sys.stderr)
        for crate in dict.fromkeys(crate for crate, _ in self.parts):
            for name in ("proof", "tests", "edits"):
                part = self.parts.get((crate, name))
                if part is None:
                    continue
                seconds = sum(part.seconds.values())
                total += seconds
                row = f"{crate:24} {name:6} {part.checks:6} {seconds:7.0f} {part.first:6.0f} {part.last:6.0f}"
                print(f"{row} {part.memory // 10**6:6}", file=sys.stderr)
        tried = {}
        for name, seconds in self.edits.values():
            tried[name] = tried.get(name, 0) + seconds
        for name in sorted(filter(None, tried), key=tried.get, reverse=True)[:DEAREST]:
            print(f"{tried[name]:7.0f} {name}", file=sys.stderr)
        wall = time.time() - self.began
        print(f"all: {total / 60:.1f} minutes of processor, {wall / 60:.1f} of wall", file=sys.stderr)


# The rows of the table in docs/GATE.md, and the line of sums behind it.
PAGE_TABLE = re.compile(r"(?<=\|---\|---\|---\|---\|---\|---\|---\|\n)(\| `.*\n)+\n.*\n")


def library_names():
    """Each crate of crates.txt with those that it stands on, the lowest first."""
    with open("crates.txt", encoding="utf-8") as file:
        lines = [line.split() for line in file if line[:1].isalpha()]
    crates = {line[0].rstrip(":") for line in lines}
    return {line[0].rstrip(":"): [it for it in line[1:] if it in crates] for line in lines}


def standing_on(name, libraries):
    """The crates that stand on a crate, at any height."""
    found = {name}
    for crate, below in libraries.items():
        if found & {*below}:
            found.add(crate)
    return found - {name}


def write_page(files):
    """Writes the table of docs/GATE.md from the tables in these files."""
    seconds, memory = {}, {}
    for path in files:
        with open(path, encoding="utf-8") as file:
            for crate, part, _, cpu, _, _, most in re.findall(r"^(\w+) +(proof|tests|edits)" + r" +(\d+)" * 5, file.read(), re.M):
                seconds[crate, part], memory[crate, part] = int(cpu), int(most)
    libraries = library_names()
    cost = {name: sum(seconds.get((name, part), 0) for part in ("proof", "tests", "edits")) for name in libraries}
    rows, sums = [], [0, 0, 0]
    for name in libraries:
        if name.endswith("_tests") and name.removesuffix("_tests") in libraries:
            continue
        tests = f"{name}_tests"
        parts = [
            seconds.get((name, "proof"), 0),
            seconds.get((name, "tests"), 0) + cost.get(tests, 0),
            seconds.get((name, "edits"), 0),
        ]
        sums = [one + other for one, other in zip(sums, parts)]
        most = max(memory.get((it, part), 0) for it in (name, tests) for part in ("proof", "tests", "edits"))
        edits = len([it for it in os.listdir(f"crates/{name}/must-fail")]) if os.path.isdir(f"crates/{name}/must-fail") else 0
        change = cost[name] + sum(cost[it] for it in standing_on(name, libraries))
        cells = [f"`{name}`", parts[0], parts[1] or "", edits or "", parts[2] or "", f"{most:,}", round(change / 60)]
        rows.append("| " + " | ".join(str(it) for it in cells) + " |")
    told = "So proofs are {} minutes of processor, tests {}, and wrong bodies {}: {} in all.".format(
        *(round(it / 60) for it in sums), round(sum(sums) / 60)
    )
    with open("docs/GATE.md", encoding="utf-8") as file:
        page = file.read()
    page = PAGE_TABLE.sub(lambda _: "\n".join(rows).replace("|  |", "| |") + f"\n\n{told}\n", page, count=1)
    with open("docs/GATE.md", "w", encoding="utf-8") as file:
        file.write(page)


def main(words):
    if words[:1] == ["--page"]:
        write_page(words[1:])
        return 0
    table, ended = Table(), threading.Event()
    run = subprocess.Popen(words or ["rt", "ci"])

    def watch():
        while not ended.wait(1):
            table.look(str(run.pid))

    watcher = threading.Thread(target=watch)
    watcher.start()
    # a run that is told to stop has its table, too
    signal.signal(signal.SIGTERM, lambda *_: run.terminate())
    try:
        status = run.wait()
    finally:
        ended.set()
        watcher.join()
        table.print()
    return status


if __name__ == "__main__":
    sys.exit(main(sys.argv[1:]))
