#!/usr/bin/env python3
"""Tells which functions are dear to prove, by what their last check kept.

    tools/gate_times/dear_functions.py [--most N] [--by-time] [CRATE ..]

Half of a proof's time goes into tables that the prover makes of each function: its locals, with their types written
out, at each point of it (the modules called `Lts`). They stand in out/incremental of a crate that `rt check` was run
in, and their sizes tell what a function costs, whatever else the machine does: a megabyte takes one to three seconds.
It takes more where the function is long, or names long texts. So the second number is the seconds since the file before
it was written: with one job (`rt check --jobs 1`) these went into that table. The N largest are listed (30 if not said),
or the N slowest (--by-time), of the crates that are named, or of all: megabytes, seconds, crate, function. What is kept
of a function that is gone, or that has another name now, is listed too.
"""
import argparse
import os
import re
from pathlib import Path

TOP = Path(__file__).resolve().parents[2]


def tables_of(crate):
    """The bytes of the tables of each function of a crate, and the seconds that were spent on them."""
    kept = []
    for folder, _, files in os.walk(TOP / "crates" / crate / "out/incremental"):
        for file in files:
            state = os.stat(f"{folder}/{file}")
            kept.append((state.st_mtime, file, state.st_size))
    found, before = {}, None
    table = re.compile(rf"Rattle-{crate}-proofs\.(.+?)\.Lts(\.\w+)?\.oantt")
    for time, file, size in sorted(kept):
        if of := table.fullmatch(file):
            bytes_, seconds = found.get(of[1], (0, 0))
            found[of[1]] = bytes_ + size, seconds + (time - before if before else 0)
        before = time
    return found


def main():
    parser = argparse.ArgumentParser(description="Which functions are dear to prove.")
    parser.add_argument("--most", type=int, default=30, metavar="N")
    parser.add_argument("--by-time", action="store_true", help="the slowest first")
    parser.add_argument("crates", nargs="*", metavar="CRATE")
    asked = parser.parse_args()
    crates = asked.crates or sorted(it.name for it in (TOP / "crates").iterdir() if it.is_dir())
    tables = {crate: tables_of(crate) for crate in crates}
    rows = [(size, time, crate, name) for crate, found in tables.items() for name, (size, time) in found.items()]
    for size, time, crate, name in sorted(rows, key=lambda row: row[asked.by_time], reverse=True)[: asked.most]:
        print(f"{size / 1e6:7.2f} {time:6.1f} {crate} {name}")
    for crate, found in tables.items():
        print(f"{sum(size for size, _ in found.values()) / 1e6:7.1f} {crate}: all of its functions")


if __name__ == "__main__":
    main()
