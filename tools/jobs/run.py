#!/usr/bin/env python3
"""Records iscsi-test-cu's whole run at tgt, makes its jobs, and does them again at tgt, istgt and `serve`.

    tools/jobs/run.py [--family NAME].. [--keep FOLDER] [PROGRAM]

The run is recorded by tcpdump on the loopback device, family by family, each with a fresh tgt. It has aborts, resets, several
sessions at once, and commands that few targets have. Each connection is a job, by `job --capture`. The jobs of a family are done
again at a fresh target of each kind, one after another, by `replay --all --writes`.

A kind of difference is a command, its outcome at tgt, and its outcome now. Each kind is counted. The table in reasons.py has a reason
for each one: a kind without a reason fails the script, and so does a row that no difference has any more.

It wants root for tcpdump, and libiscsi-bin, tgt, istgt and tcpdump of Debian. What is not installed is skipped, with a word. PROGRAM is
crates/lanthovur/out/lanthovur if none is named. With --family only these families are done, and rows without a difference are no
fault. The last line is 'N passed, M failed, K skipped'. With --keep captures and jobs stay in FOLDER.
"""
import argparse
import re
import subprocess
import sys
import tempfile
import time
from collections import Counter
from pathlib import Path

sys.dont_write_bytecode = True
TOP = Path(__file__).resolve().parents[2]
sys.path[:0] = [str(TOP / "tools/captures"), str(TOP / "tools/initiators"), str(TOP / "tools/replay")]
import conformance
import kinds
import reasons
from istgt import Istgt
from taps import SETTLES, Recorder, Serve, Tgt, missing

PROGRAM = TOP / "crates/lanthovur/out/lanthovur"
NAME = "iqn.2026-01.example:disk"
SIZE = 64 << 20
SECONDS = 1800
TARGETS = [Tgt, Istgt, Serve]


class Counts:
    """How many cases passed, failed and were skipped; each kind of difference with how often it came; requests of each target."""

    def __init__(self):
        self.ended, self.found, self.done, self.passed_over = Counter(), Counter(), Counter(), Counter()

    def say(self, title, faults):
        outcome = "failed" if faults else "passed"
        self.ended[outcome] += 1
        print(f"{outcome:8} {title}" + "".join(f"\n         {fault}" for fault in faults), flush=True)

    def skip(self, title, why):
        self.ended["skipped"] += 1
        print(f"skipped  {title}: {why}", flush=True)


def run(program, *words):
    return subprocess.run([str(program), *map(str, words)], capture_output=True, text=True, timeout=SECONDS, stdin=subprocess.DEVNULL)


def recorded(program, room, family):
    """The capture of a family at a fresh tgt, its port, and how many packets were lost."""
    target = Tgt(program, room, SIZE)
    try:
        recorder = Recorder("tcpdump-deep", room, target.port)
        try:
            url = f"iscsi://127.0.0.1:{target.port}/{NAME}/{target.unit}"
            words = conformance.words_of(family, url)
            subprocess.run(words, stdin=subprocess.DEVNULL, stdout=subprocess.DEVNULL, stderr=subprocess.DEVNULL, timeout=SECONDS)
            time.sleep(SETTLES)
        finally:
            lost = recorder.close()
    finally:
        target.close()
        Path(room, "tgt.img").unlink()
    return recorder.path, target.port, lost


def jobs_of(program, room, family):
    """The jobs of a family's connections, how many requests they have, and the faults of `job`."""
    capture, port, lost = recorded(program, room, family)
    jobs, requests, faults = [], 0, [f"{lost} packets were lost"] if lost else []
    for line in run(program, "connections", capture).stdout.splitlines():
        if f":{port} " in line and line.endswith("login"):
            made = run(program, "job", "--capture", capture, "--connection", line.split()[0])
            jobs.append(Path(room) / f"job{len(jobs)}")
            jobs[-1].write_text(made.stdout)
            requests += len(re.findall(kinds.REQUEST, made.stdout, re.M))
            if made.returncode:
                faults.append(f"job of connection {line.split()[0]}: status {made.returncode}: {made.stderr.strip()}")
    return jobs, requests, faults or ([] if jobs else ["no session was recorded"])


def again(counts, program, family, kind, jobs):
    """Does jobs again in turn at one fresh target, and counts the kinds of their differences, and of what ended a replay."""
    with tempfile.TemporaryDirectory() as room:
        target = kind(program, room, SIZE)
        try:
            for job in jobs:
                where = ["--to", f"127.0.0.1:{target.port}", "--lun", target.unit]
                ran = run(program, "replay", *where, "--writes", "--all", "--wait", 60, "--attentions", 10, job)
                found = kinds.differences(ran.stdout)
                summary = re.search(r"^[0-9]+ of ([0-9]+) differ, ([0-9]+) passed over$", ran.stdout, re.M)
                if summary:
                    counts.done[kind.title] += int(summary[1])
                    counts.passed_over[kind.title] += int(summary[2])
                else:
                    found.append(kinds.ending(job.read_text(), ran.stderr))
                counts.found.update((kind.title, family, difference) for difference in found)
        finally:
            target.close()


def tell(counts, stale):
    """Tells each kind of difference with its reason; those without one fail."""
    used = set()
    for target in counts.done:
        told, unknown = Counter(), []
        for (at, family, kind), count in counts.found.items():
            if at == target:
                row, reason = reasons.reason_for(target, family, kind)
                used.add(row)
                told[kind, reason or "NO REASON"] += count
                unknown += [] if reason else [f"{family}: no reason for {kind}"]
        for (kind, reason), count in sorted(told.items(), key=lambda item: (-item[1], item[0])):
            print(f"         {target}: {count} times {kind}: {reason}", flush=True)
        kinds_told = len({kind for kind, _ in told})
        of = f"{counts.done[target]} requests, {counts.passed_over[target]} passed over, {sum(told.values())} differences of {kinds_told} kinds"
        counts.say(f"{target}: {of}", unknown)
    if stale:
        counts.say("each row has a difference", [f"no difference is of the row {row}" for row in reasons.ROWS if row not in used])


def main():
    parser = argparse.ArgumentParser(description=__doc__, formatter_class=argparse.RawDescriptionHelpFormatter)
    parser.add_argument("--family", action="append", help="a family of iscsi-test-cu, such as Read10")
    parser.add_argument("--keep", help="a folder for the captures and jobs")
    parser.add_argument("program", nargs="?", default=PROGRAM)
    asked = parser.parse_args()
    counts = Counts()
    if lacking := missing("iscsi-test-cu", "tcpdump", *Tgt.wants):
        counts.skip("all", f"no {lacking[0]}")
    else:
        with tempfile.TemporaryDirectory(prefix="jobs-") as room:
            for family in asked.family or conformance.families():
                folder = Path(asked.keep or room) / family
                folder.mkdir(parents=True, exist_ok=True)
                jobs, requests, faults = jobs_of(asked.program, folder, family)
                counts.say(f"{family}: {len(jobs)} jobs of {requests} requests", faults)
                for kind in TARGETS:
                    if lacking := missing(*kind.wants):
                        counts.skip(f"{family} at {kind.title}", f"no {lacking[0]}")
                    else:
                        again(counts, asked.program, family, kind, jobs)
                if not asked.keep:
                    for file in folder.iterdir():
                        file.unlink()
        tell(counts, not asked.family)
    print(", ".join(f"{counts.ended[outcome]} {outcome}" for outcome in ("passed", "failed", "skipped")))
    return 1 if counts.ended["failed"] else 0


if __name__ == "__main__":
    sys.exit(main())
