#!/usr/bin/env python3
"""Says where the processor's time goes in the cells with long segments that are slow, and writes a section of docs/SPEED.md.

    tools/speed/profile.py [--seconds S] [--write] [PROGRAM]

It takes an idle machine and perf. A cell is slow where `serve --at-once` has less than nine tenths of the floor's commands
and, from 64 KiB up, less than one and a half times tgt's. It reads both ratios in the page: in the tables that run.py and
targets.py wrote, for libiscsi and for client.c, with 1 and 8 outstanding. Then it runs each of these cells once more, for S
seconds (2), and samples the target. With --write the section takes the place of the one in the page, or comes last. The
last line is 'N cells, M failed'.
"""
import argparse
import re
import shutil
import subprocess
import sys
import tempfile
import time

import run
import targets

TITLE = "Where the time goes"
# The tables that are read: a heading, the client, and how the ratios to the floor and to tgt are named in the first line.
TABLES = [
    ("Commands a second with long segments", "libiscsi", "`serve` / floor", "`serve` / tgt"),
    ("Targets side by side", "client.c", "`serve --at-once` / floor", "`serve --at-once` / tgt"),
]
CELL = re.compile(r"^(\d+) KiB, ([18]) outstanding: (read|write)s$")
LINE = re.compile(r"^\s*([\d.]+)%\s+(\S+)\s+\[([.k])\]\s+(\S+)")
COPIES = re.compile(r"copy|rep_movs|memcpy|memmove|clear_page|memset")


def rows(text, heading, wanted):
    """The lines of the last table of a section that has these titles, each as a dictionary by its titles."""
    section = re.search(rf"^## {re.escape(heading)}\n(.*?)(?=^## |\Z)", text, re.M | re.S)
    found = []
    for table in re.findall(r"(?:^\|.*\n)+", section.group(1) if section else "", re.M):
        titles, _, *lines = [[cell.strip() for cell in line.split("|")[1:-1]] for line in table.splitlines()]
        if set(wanted) <= set(titles):
            found = [dict(zip(titles, line)) for line in lines]
    return found


def slow_cells(text):
    """A client, size, depth, kind and the two ratios of each slow cell."""
    for heading, client, floor, tgt in TABLES:
        for row in rows(text, heading, (floor, tgt)):
            cell = CELL.match(row[""])
            if cell and row[floor] and row[tgt]:
                size, depth, kind = int(cell[1]) << 10, int(cell[2]), cell[3]
                if float(row[floor]) < 0.9 and (size < 65536 or float(row[tgt]) < 1.5):
                    yield client, size, depth, kind, row[floor], row[tgt]


def sampled(pid, seconds, room):
    """The shares of a process's time, by library and function, in the next seconds."""
    path = f"{room}/samples"
    subprocess.run(["perf", "record", "-q", "-e", "cpu-clock", "-F", "5000", "-p", str(pid), "-o", path, "--", "sleep", str(seconds)],
                   check=True, stdout=subprocess.DEVNULL, stderr=subprocess.DEVNULL)
    words = ["perf", "report", "-i", path, "--stdio", "--sort", "dso,symbol", "-F", "overhead,dso,symbol"]
    report = subprocess.run(words, check=True, capture_output=True, text=True).stdout
    return [(float(m[1]), m[2], m[3], m[4]) for m in map(LINE.match, report.splitlines()) if m]


def shares(samples):
    """Copies of the system, copies in the C library, the program, the rest; and the functions that have most."""
    sums = [0.0] * 4
    for share, library, ring, name in samples:
        is_copy = bool(COPIES.search(name))
        sums[0 if ring == "k" and is_copy else 1 if ring != "k" and is_copy else 2 if library.startswith("lanthovur") else 3] += share
    most = [f"`{name}` {share:.0f}" for share, _, _, name in sorted(samples, reverse=True)[:4]]
    return [f"{number:.0f}" for number in sums], ", ".join(most)


def by_libiscsi(room, words, size, depth, kind):
    """Samples a cell by the client of run.py, whose reads come first and whose writes follow."""
    target = run.Lanthovur(room, 1, True)
    try:
        client = subprocess.Popen(["stdbuf", "-oL", f"{room}/speed", target.url, str(size), str(2 * words.seconds), str(depth)], stdout=subprocess.PIPE,
                                  text=True)
        # It fills the disk, reads, and then writes, and says how each of the two went.
        time.sleep(run.DISK / size / 20000 + 0.3 * words.seconds)
        if kind == "write":
            client.stdout.readline()
            time.sleep(0.3 * words.seconds)
        samples = sampled(target.pid, words.seconds, room)
        client.communicate()
        return samples
    finally:
        target.end()


def by_our_client(room, words, size, depth, kind):
    """Samples a cell by the client of targets.py."""
    target = targets.AtOnce(room, words.program, targets.BLOCKS, is_long=True)
    try:
        fill = ["--size", size, "--depth", depth, "--places", (16 << 20) // size]
        subprocess.run(target.client("--do", "f", *fill), check=True, stdout=subprocess.DEVNULL)
        client = subprocess.Popen(target.client("--do", kind[0], *fill, "--seconds", 2 * words.seconds), stdout=subprocess.DEVNULL)
        time.sleep(0.3 * words.seconds)
        samples = sampled(target.process.pid, words.seconds, room)
        client.wait()
        return samples
    finally:
        target.end()


def main():
    parser = argparse.ArgumentParser(description=__doc__, formatter_class=argparse.RawDescriptionHelpFormatter)
    parser.add_argument("program", nargs="?", default=str(targets.PROGRAM), help="the program that serves")
    parser.add_argument("--seconds", type=float, default=2, help="how long each cell is sampled")
    parser.add_argument("--write", action="store_true", help="put the section into docs/SPEED.md")
    words = parser.parse_args()
    if run.missing("perf"):
        sys.exit("perf is not installed")
    room, lines, failed = tempfile.mkdtemp(prefix="profile-"), [], 0
    try:
        if not run.compiled(room, "speed", "-liscsi") or not run.compiled(room, "client"):
            sys.exit("libiscsi-dev or cc is not installed")
        for client, size, depth, kind, floor, tgt in slow_cells(targets.PAGE.read_text()):
            sample = by_libiscsi if client == "libiscsi" else by_our_client
            try:
                sums, most = shares(sample(room, words, size, depth, kind))
            except (subprocess.CalledProcessError, OSError) as error:
                print(f"{client}, {size}, {depth}, {kind}: {error}", file=sys.stderr)
                failed += 1
                continue
            lines.append([f"{size // 1024} KiB, {depth} outstanding: {kind}s", client, floor, tgt, *sums, most])
    finally:
        shutil.rmtree(room, ignore_errors=True)
    head = ["", "Client", "/ floor", "/ tgt", "copies of the system", "copies in the C library", "`lanthovur`", "the rest", "functions with most"]
    text = [f"## {TITLE}", "",
            f"These are by `tools/speed/profile.py`: the cells with long segments that have less than 0.9 of the floor's commands and, from "
            f"64 KiB up, less than 1.5 times tgt's. The shares are percent of the target's processor time, in {words.seconds:g} seconds of perf.",
            "", *targets.table(head, lines)]
    print("\n".join(text))
    if words.write:
        targets.write(TITLE, text)
    print(f"{len(lines)} cells, {failed} failed")
    return 1 if failed else 0


if __name__ == "__main__":
    sys.exit(main())
