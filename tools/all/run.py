#!/usr/bin/env python3
"""Runs every script that the gate does not run, the cheapest first.

    tools/all/run.py [--unproved] [--from NAME] [--without NAME]..

Each script has a line with how it ended, its seconds, and its own last line; what a failed one wrote follows. The last
line is 'N passed, M failed'. The scripts want the built program: `./lanthovur </dev/null` makes it. A script that takes
longer than its limit fails; it and the processes that it started are ended. So does one whose last line is not of its form.

With --unproved the program is the one that `./lanthovur --unproved </dev/null` keeps. The scripts that measure memory or
speed, and those that prove something, are left out then.

If this machine lacks a program (QEMU, libiscsi, tgt, tshark), most scripts fail with their own words. Eight leave out what
they can't do and go on: door, access, guest, many_sessions, lasting, nbd, ceph and targets. And pages leaves out the blocks that no script can run. Their parts that were left out are counted, and the last line is
then 'N passed, M failed, S parts skipped': those parts were not seen.
"""
import argparse
import os
import re
import signal
import subprocess
import sys
import time
from dataclasses import dataclass

TOP = os.path.dirname(os.path.dirname(os.path.dirname(os.path.abspath(__file__))))
PROVED = "crates/lanthovur/out/lanthovur"
UNPROVED = ["crates/lanthovur/out/unproved/lanthovur"]
# Forms of a last line.
PASSED = r"[0-9]+ passed, 0 failed(, [0-9]+ skipped)?"
MEASURED = r".*[0-9].*"


@dataclass
class Script:
    """A script, below tools/."""

    name: str
    path: str
    # How long it took on four cores, in words, and the most minutes that it may take.
    takes: str
    minutes: int
    # The form of its last line.
    ends: str = PASSED
    # Its words for a program that was built without proofs, or None if it wants a proved one.
    unproved: list = None
    # Other words, always.
    words: tuple = ()

    def command(self, is_unproved):
        return [f"tools/{self.path}", *self.words, *(self.unproved if is_unproved else [])]


# The cheapest first.
SCRIPTS = [
    Script("check_docs", "check_docs/check_docs.py", "seconds", 2, r"[0-9]+ looked at, 0 not so", []),
    Script("process", "process/run.py", "seconds", 5, unproved=UNPROVED),
    Script("speed, client", "speed/check_client.py", "seconds", 5, unproved=[]),
    Script("strangers", "strangers/run.py", "three minutes", 20, unproved=UNPROVED),
    Script("door", "door/run.py", "a minute", 20, unproved=[]),
    Script("access", "access/run.py", "a minute", 20),
    Script("guest", "guest/run.py", "six minutes", 30, unproved=UNPROVED),
    Script("pages", "pages/run.py", "two minutes", 30, unproved=[]),
    Script("captures", "captures/run.py", "a minute", 40, unproved=[]),
    Script("captures, piped", "captures/piped.py", "a minute", 10, unproved=UNPROVED),
    Script("captures, changes", "captures/changes.py", "minutes", 60),
    Script("captures, live", "captures/live.py", "minutes", 60, unproved=["--quick", *UNPROVED]),
    Script("initiators", "initiators/run.py", "minutes", 90, unproved=UNPROVED),
    Script("fields", "fields/run.py", "a minute", 20, unproved=["--program", *UNPROVED]),
    Script("memory, reads", "memory/reads.py", "minutes", 30, MEASURED),
    Script("memory, writes", "memory/writes.py", "minutes", 30, MEASURED),
    Script("captures, long", "captures/long.py", "a minute", 30, MEASURED),
    Script("floods", "strangers/floods.py", "a minute", 20),
    Script("replay", "replay/run.py", "minutes", 30, unproved=UNPROVED),
    Script("jobs", "jobs/run.py", "an hour", 180),
    Script("jobs, long", "jobs/long.py", "minutes", 30, unproved=UNPROVED),
    Script("replay, memory", "replay/memory.py", "minutes", 30, r"[0-9]+ allocations refused, 0 runs ended wrongly", UNPROVED),
    Script("many_sessions", "many_sessions/run.py", "minutes", 30, unproved=UNPROVED),
    Script("lasting", "lasting/run.py", "minutes", 60, unproved=UNPROVED),
    Script("nbd", "nbd/run.py", "minutes", 60, unproved=UNPROVED),
    Script("ceph", "ceph/run.py", "ten minutes", 60, unproved=UNPROVED),
    Script("refused_memory", "refused_memory/run.py", "15 minutes", 90, r"0 runs ended wrongly, [0-9]+ seconds", ["--unproved"]),
    Script("captures, speed", "captures/speed.py", "a minute", 30, MEASURED),
    # These want an idle machine.
    Script("targets", "speed/targets.py", "a quarter of an hour", 60),
    Script("growth", "speed/targets.py", "a quarter of an hour", 60, words=("--grow",)),
    Script("replay, speed", "replay/speed.py", "minutes", 60, MEASURED),
    Script("store", "speed/store.py", "minutes", 60, MEASURED),
    Script("speed", "speed/run.py", "half an hour", 120, MEASURED),
    Script("wrong_bodies", "wrong_bodies/try", "hours", 1440, r"[0-9]+ well, 0 not"),
]


def last_line(text):
    """The last line that has something on it."""
    lines = [line for line in text.decode(errors="replace").splitlines() if line.strip()]
    return lines[-1].strip()[:160] if lines else ""


def output_of(command, seconds):
    """What a script wrote, and why it failed, or nothing. It has a session of its own, which ends with it."""
    streams = {"stdin": subprocess.DEVNULL, "stdout": subprocess.PIPE, "stderr": subprocess.STDOUT}
    with subprocess.Popen(command, cwd=TOP, start_new_session=True, **streams) as script:
        try:
            written, _ = script.communicate(timeout=seconds)
        except subprocess.TimeoutExpired:
            return interrupted(script), f"not done in {seconds / 60:g} minutes"
    return written, f"status {script.returncode}" if script.returncode else ""


def interrupted(script):
    """Ends a script, with half a minute to put its things away, and returns what it wrote."""
    os.killpg(script.pid, signal.SIGINT)
    try:
        return script.communicate(timeout=30)[0]
    except subprocess.TimeoutExpired:
        os.killpg(script.pid, signal.SIGKILL)
        return script.communicate()[0]


def run(script, is_unproved):
    """Runs a script, tells how it ended, and returns whether it ended well and how many of its parts it left out."""
    began = time.monotonic()
    written, fault = output_of(script.command(is_unproved), 60 * script.minutes)
    last = last_line(written)
    if not fault and not re.fullmatch(script.ends, last):
        fault = "another last line than is due"
    skipped = sum(line.startswith(b"skipped ") for line in written.splitlines())
    how = f"FAILED, {fault}" if fault else f"ok, but {skipped} skipped" if skipped else "ok"
    print(f"{script.name}: {how}, {time.monotonic() - began:.0f} s: {last}", flush=True)
    if fault:
        for line in written.decode(errors="replace").splitlines()[-40:]:
            print(f"    {line}", flush=True)
    return not fault, skipped


def main():
    parser = argparse.ArgumentParser(description=__doc__, formatter_class=argparse.RawDescriptionHelpFormatter)
    names = [script.name for script in SCRIPTS]
    parser.add_argument("--unproved", action="store_true", help="the program that was built without proofs")
    parser.add_argument("--from", dest="first", choices=names, default=names[0], help="the first script to run")
    parser.add_argument("--without", action="append", choices=names, default=[], help="a script to leave out")
    words = parser.parse_args()
    # A shell that starts this in the background has it ignore interrupts, and so would the scripts.
    signal.signal(signal.SIGINT, signal.default_int_handler)
    chosen = [script for script in SCRIPTS[names.index(words.first):] if script.name not in words.without]
    program, how = (UNPROVED[0], "--unproved ") if words.unproved else (PROVED, "")
    if not os.path.isfile(f"{TOP}/{program}"):
        sys.exit(f"there is no program {program}: `./lanthovur {how}</dev/null` builds it")
    if words.unproved:
        chosen = [script for script in chosen if script.unproved is not None]
    ended = [run(script, words.unproved) for script in chosen]
    passed, skipped = sum(is_well for is_well, _ in ended), sum(parts for _, parts in ended)
    print(f"{passed} passed, {len(ended) - passed} failed" + (f", {skipped} parts skipped" if skipped else ""))
    return 0 if passed == len(ended) else 1


if __name__ == "__main__":
    sys.exit(main())
