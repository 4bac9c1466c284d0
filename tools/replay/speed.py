#!/usr/bin/env python3
"""Measures how many requests a second `replay` does again one at a time, beside libiscsi at the same target.

    tools/replay/speed.py [--requests N] [--rounds N] [--only WORD] [PROGRAM]

The client of libiscsi is again.c. A round has a run of each at one target, in turn: 100,000 requests if no other number is
said, five rounds if not said. `reads` are READs of one block, `mix` is a TEST UNIT READY, a WRITE of one block and a READ of it
in turn. Both clients look at what comes of each request. WORD is a part of a row's name.

The time of `replay` is that of the whole process. Another run of it only reads the job, and is refused before it connects:
its time is told too. The time of the client is that from its first request to its last. The table has the median of each, and
the least and the most. It takes tgt and an idle machine. PROGRAM is crates/lanthovur/out/lanthovur if none is named.
"""
import argparse
import os
import resource
import statistics
import subprocess
import sys
import tempfile
import time
from pathlib import Path

sys.dont_write_bytecode = True
HERE = Path(__file__).resolve().parent
TOP = HERE.parents[1]
sys.path.insert(0, str(TOP / "tools/captures"))
from taps import Serve, Tgt, missing

sys.path.pop(0)
PROGRAM = TOP / "crates/lanthovur/out/lanthovur"
SIZE = 8 << 20
NAME = "iqn.2026-01.example:disk"
# As in again.c.
BLOCKS = 4096
WRITTEN = 0x5A


def lines_of(kind, count):
    """The job of a kind, as again.c does it."""
    zero, written = "00" * 512, f"{WRITTEN:02x}" * 512
    for i in range(count):
        if kind == "reads":
            yield f"read {i % BLOCKS} 1\n  was good data {zero}\n"
        else:
            block = i // 3 % BLOCKS
            rows = ("tur 0\n  was good\n", f"write {block} 1 {WRITTEN:02x}\n  was good\n", f"read {block} 1\n  was good data {written}\n")
            yield rows[i % 3]


def median(values, digits=0):
    return f"{statistics.median(values):,.{digits}f} ({min(values):,.{digits}f} to {max(values):,.{digits}f})"


def processor():
    spent = resource.getrusage(resource.RUSAGE_CHILDREN)
    return spent.ru_utime + spent.ru_stime


def timed(words, status):
    """Seconds of a run, and its seconds of processor."""
    before, began = processor(), time.monotonic()
    ran = subprocess.run([str(word) for word in words], capture_output=True, text=True, stdin=subprocess.DEVNULL)
    took = time.monotonic() - began
    if ran.returncode != status:
        sys.exit(f"status {ran.returncode}, not {status}: {ran.stdout[:300]}{ran.stderr[:300]}")
    return took, processor() - before, ran.stdout


class Runs:
    def __init__(self, asked, room):
        self.asked, self.room = asked, Path(room)
        self.client = self.room / "again"
        subprocess.run(["cc", "-O2", "-o", self.client, HERE / "again.c", "-liscsi"], check=True)

    def row(self, kind, target):
        """One row of the table, of a kind of requests at a target."""
        count = self.asked.requests
        job = self.room / f"{kind}.job"
        with open(job, "w") as file:
            file.writelines(lines_of(kind, count))
            # A job that writes is refused behind its reading, without `--writes`.
            end = file.tell()
            file.write("write 0 1 00\n")
        to = ["--to", f"127.0.0.1:{target.port}", "--lun", target.unit]
        reading = [timed([self.asked.program, "replay", *to, job], 1)[0] for _ in range(3)]
        os.truncate(job, end)
        url = f"iscsi://127.0.0.1:{target.port}/{NAME}/{target.unit}"
        byte = WRITTEN if kind == "mix" else 0
        ours, theirs, own, their = [], [], [], []
        for _ in range(self.asked.rounds):
            _, spent, told = timed([self.client, url, kind, count, byte], 0)
            theirs.append(count / float(told))
            their.append(1e6 * spent / count)
            took, spent, _ = timed([self.asked.program, "replay", *to, *(["--writes"] if kind == "mix" else []), job], 0)
            ours.append(count / took)
            own.append(1e6 * spent / count)
        ratio = statistics.median(ours) / statistics.median(theirs)
        cells = [f"{target.title}: {kind}", median(ours), median(theirs), f"{ratio:.2f}", median(own, 1), median(their, 1), median(reading, 2)]
        print("| " + " | ".join(cells) + " |", flush=True)


def main():
    parser = argparse.ArgumentParser(description=__doc__, formatter_class=argparse.RawDescriptionHelpFormatter)
    parser.add_argument("--requests", type=int, default=100_000)
    parser.add_argument("--rounds", type=int, default=5)
    parser.add_argument("--only", default="")
    parser.add_argument("program", nargs="?", default=PROGRAM)
    asked = parser.parse_args()
    if lacking := missing("cc", "tgtd", "tgtadm"):
        sys.exit(f"{lacking[0]} is not installed")
    head = ["", "`replay`", "libiscsi", "Ratio", "µs of `replay`", "µs of libiscsi", "seconds of reading the job"]
    print("| " + " | ".join(head) + " |\n" + "|---" * len(head) + "|")
    with tempfile.TemporaryDirectory(prefix="again-", dir="/dev/shm") as room:
        runs = Runs(asked, room)
        for kind in ("reads", "mix"):
            for made in (Tgt, Serve):
                if asked.only not in f"{made.title}: {kind}":
                    continue
                # A fresh disk of zeros for each row.
                target = made(asked.program, room, SIZE)
                try:
                    runs.row(kind, target)
                finally:
                    target.close()


main()
