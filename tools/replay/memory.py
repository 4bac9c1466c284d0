#!/usr/bin/env python3
"""Refuses each allocation in turn of `job` and of `replay`, and looks at what they write and how they end.

    tools/replay/memory.py [PROGRAM]

`job` reads each connection of the captured session (docs/session), out of the capture and out of two files. `replay` does a job
with each kind of request again, some of which differ, at `serve`. A run in which memory is refused ends with status 3, and wrote
the first lines of what is due, where an outcome that was not read is `was unanswered`; or it ends as without that. The refusals are
those of tools/refused_memory/refuse.c, which wants `gcc`. PROGRAM is crates/lanthovur/out/lanthovur if none is named. The last
line says how many runs ended wrongly.
"""
import os
import re
import subprocess
import sys
import tempfile
from pathlib import Path

sys.dont_write_bytecode = True
TOP = Path(__file__).resolve().parents[2]
sys.path.insert(0, str(TOP / "tools/captures"))
from taps import Serve

sys.path.pop(0)
CAPTURE = TOP / "docs/session/session.pcapng"
SECONDS = 60
# No run asks for memory so often.
MOST = 10_000

JOB = f"""tur 0
  was good
inquiry 0 255
  was good data 00
capacity16
write 0 16 5a
  was good
read 0 16
  was good data {"5a" * 8192}
command 0 2a000000001000000100 out {"a5" * 512}
  was good
read 16384 1
  was status 02 sense 700005000000000a000000002100000000 under 512
ping 616263
  was ping 616263
text 53656e64546172676574733d416c6c00
luns
sync 0 0
  was good
task 01
  was done 00
logout
  was closed
"""


def is_front(written, due):
    """Whether the lines are the first ones that are due, but for outcomes that were not read."""
    lines, others = written.splitlines(), due.splitlines()
    if len(lines) > len(others):
        return False
    return all(line in (other, "  was unanswered") if other.startswith("  was ") else line == other for line, other in zip(lines, others))


class Sweep:
    def __init__(self, program, room):
        self.program, self.room = str(program), Path(room)
        self.refuse = self.room / "refuse.so"
        subprocess.run(["gcc", "-shared", "-fPIC", "-O1", "-o", self.refuse, TOP / "tools/refused_memory/refuse.c"], check=True)
        self.failed = self.refused = 0

    def run(self, words, at):
        """The status and what was written, and whether an allocation was refused."""
        env = {**os.environ, "LD_PRELOAD": str(self.refuse), "FAIL_LOG": str(self.room / "log"), "FAIL_AT": str(at)}
        ran = subprocess.run([self.program, *map(str, words)], env=env, capture_output=True, text=True, stdin=subprocess.DEVNULL, timeout=SECONDS)
        _, was_refused = (self.room / "log").read_text().split()
        return ran.returncode, ran.stdout, was_refused == "1"

    def case(self, title, words):
        """Refuses each allocation of a run in turn."""
        status, due, _ = self.run(words, 0)
        refused = 0
        for at in range(1, MOST):
            ended, written, was_refused = self.run(words, at)
            if not was_refused:
                break
            refused += 1
            if (ended, written) != (status, due) and not (ended == 3 and is_front(written, due)):
                self.failed += 1
                print(f"{title} at {at}: status {ended}, {len(written)} of {len(due)} characters")
        self.failed += refused == 0
        self.refused += refused
        print(f"{title}: {refused} allocations refused in turn, status {status} without", flush=True)


def cases(sweep):
    listed = subprocess.run([sweep.program, "connections", CAPTURE], capture_output=True, text=True, check=True).stdout
    for number in re.findall(r"^(\d+) .* login$", listed, re.M):
        place = ["--capture", CAPTURE, "--connection", number]
        sweep.case(f"job of connection {number}", ["job", *place])
        streams = []
        for end in ("initiator", "target"):
            streams.append(sweep.room / end)
            read = subprocess.run([sweep.program, "normalise", *map(str, place), "--from", end], capture_output=True, check=True)
            streams[-1].write_bytes(read.stdout)
        sweep.case(f"job of its streams {number}", ["job", *streams])
    job = sweep.room / "job"
    job.write_text(JOB)
    target = Serve(sweep.program, sweep.room, 8 << 20)
    try:
        words = ["replay", "--to", f"127.0.0.1:{target.port}", "--writes", "--all", job]
        # The blocks are those of the job from then on.
        sweep.run(words, 0)
        sweep.case("replay", words)
    finally:
        target.close()


def main():
    program = sys.argv[1] if len(sys.argv) > 1 else TOP / "crates/lanthovur/out/lanthovur"
    with tempfile.TemporaryDirectory(prefix="memory-") as room:
        sweep = Sweep(program, room)
        cases(sweep)
    print(f"{sweep.refused} allocations refused, {sweep.failed} runs ended wrongly")
    sys.exit(sweep.failed != 0)


main()
