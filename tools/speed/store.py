#!/usr/bin/env python3
"""Measures reads and writes of 8,192 blocks of a sparse store alone, in turn with those of an earlier commit.

    tools/speed/store.py [COMMIT]

The program is store.txt, in Rattle (the gate wants each .rt file in a crate). It is proved and built in a folder of its
own, over scsi_disk as it is and as it was at the commit: some minutes each from nothing. What a process takes that does
nothing is taken off. The figures are medians of ROUNDS runs, in microseconds of processor time for 8,192 blocks.
"""
import os
import resource
import shutil
import statistics
import subprocess
import sys
import tempfile

HERE = os.path.dirname(os.path.abspath(__file__))
TOP = os.path.dirname(os.path.dirname(HERE))
CRATES = ["scsi_cdb", "scsi_disk"]
WORDS = ["reads", "unread", "writes"]
ROUNDS = 15
# How many times 8,192 blocks are read or written in a run.
TIMES = 300


def build(room, commit):
    """The program over the crates of a commit, or over those that stand here."""
    if commit:
        names = [f"crates/{name}" for name in CRATES] + ["crates.txt", "HANDLES"]
        archive = subprocess.run(["git", "archive", commit, *names], cwd=TOP, check=True, capture_output=True).stdout
        subprocess.run(["tar", "x", "-C", room], input=archive, check=True)
    else:
        for name in CRATES:
            shutil.copytree(f"{TOP}/crates/{name}", f"{room}/crates/{name}", copy_function=shutil.copy2)
        for name in ("crates.txt", "HANDLES"):
            shutil.copy(f"{TOP}/{name}", room)
    lines = [line for line in open(f"{room}/crates.txt") if line.split(":")[0] in CRATES]
    with open(f"{room}/crates.txt", "w") as file:
        file.writelines([*lines, f"store: {' '.join(CRATES)}\n"])
    os.makedirs(f"{room}/crates/store/src")
    shutil.copy(f"{HERE}/store.txt", f"{room}/crates/store/src/main.rt")
    subprocess.run(["git", "init", "-q", room], check=True)
    subprocess.run(["rt", "run", "store", "--", "nothing", "0"], cwd=f"{room}/crates/store", check=True, stdout=subprocess.DEVNULL)
    return f"{room}/crates/store/out/store"


def seconds(program, word, times):
    """The processor time of a run."""
    before = resource.getrusage(resource.RUSAGE_CHILDREN)
    subprocess.run([program, word, str(times)], check=True)
    after = resource.getrusage(resource.RUSAGE_CHILDREN)
    return after.ru_utime + after.ru_stime - before.ru_utime - before.ru_stime


def main(words):
    with tempfile.TemporaryDirectory() as now, tempfile.TemporaryDirectory() as then:
        programs = {"now": build(now, None)}
        if words:
            programs[words[0]] = build(then, words[0])
        taken = {(word, name): [] for word in WORDS for name in programs}
        for word, name in list(taken) * ROUNDS:
            idle = seconds(programs[name], "unread" if word == "unread" else "nothing", 1)
            # A run of `unread` reads once at least.
            times = TIMES + 1 if word == "unread" else TIMES
            taken[word, name].append((seconds(programs[name], word, times) - idle) / TIMES)
    for (word, name), found in taken.items():
        micros = [1e6 * second for second in found]
        print(f"{word}, {name}: {statistics.median(micros):.0f} ({min(micros):.0f} to {max(micros):.0f})")


if __name__ == "__main__":
    main(sys.argv[1:])
