#!/usr/bin/env python3
"""The most memory that the program takes for a long capture from standard input.

    tools/captures/long.py [--size BYTES] [PROGRAM]

generate.py makes a capture of one connection whose initiator sends BYTES (8G, if not said), and the program reads it from a
pipe: `show --capture - --connection 0 --from initiator`, `show --capture -` and `connections -`. Each line has the number of
lines that it wrote and of those that are due, the seconds, and the most resident memory, which may be 32 MiB. The exit status
is 1 if it was more, or if lines are missing. PROGRAM is crates/lanthovur/out/lanthovur if none is named; `./lanthovur
</dev/null` builds it.
"""
import argparse
import os
import re
import subprocess
import sys
import time
from pathlib import Path

HERE = Path(__file__).resolve().parent
PROGRAM = HERE.parents[1] / "crates/lanthovur/out/lanthovur"
MOST = 32


def resident(process):
    """The most memory of a process so far, in MiB."""
    try:
        found = re.search(r"VmHWM:\s+(\d+) kB", Path(f"/proc/{process.pid}/status").read_text())
    except OSError:
        return 0
    return int(found[1]) / 1024 if found else 0


def read(program, words, size):
    """Has the program read a generated capture. Gives what the generator says, and the status, lines, last line, seconds and
    memory of the program."""
    began = time.monotonic()
    with subprocess.Popen([HERE / "generate.py", size], stdout=subprocess.PIPE, stderr=subprocess.PIPE, text=True) as source, \
            subprocess.Popen([program, *words], stdin=source.stdout, stdout=subprocess.PIPE) as reader:
        source.stdout.close()
        lines, last, most, looked = 0, b"", 0, 0
        while piece := reader.stdout.read1(1 << 16):
            lines += piece.count(b"\n")
            last = (last + piece)[-1000:]
            if time.monotonic() - looked > 0.05:
                most, looked = max(most, resident(reader)), time.monotonic()
        status = reader.wait()
        told = source.stderr.read()
    return [int(word) for word in told.split()], status, lines, last.decode().splitlines()[-1:], time.monotonic() - began, most


def main():
    parser = argparse.ArgumentParser(description=__doc__, formatter_class=argparse.RawDescriptionHelpFormatter)
    parser.add_argument("program", nargs="?", default=str(PROGRAM), help="the program that reads captures")
    parser.add_argument("--size", default="8G", help="how many bytes the initiator sends")
    words = parser.parse_args()
    if not os.path.isfile(words.program):
        sys.exit(f"there is no program {words.program}")
    failed = 0
    for name, asked in (
            ("show of one direction", ["show", "--capture", "-", "--connection", "0", "--from", "initiator"]),
            ("show of both", ["show", "--capture", "-"]), ("connections", ["connections", "-"])):
        told, status, lines, last, seconds, most = read(words.program, asked, words.size)
        due = {"show of one direction": told[0], "show of both": told[0] + told[1], "connections": 1}[name]
        is_well = status == 0 and lines == due and most <= MOST
        if name == "connections":
            is_well &= last == [f"0 127.0.0.1:40000 127.0.0.1:3260 {told[2]} {told[3]} login"]
        failed += not is_well
        print(f"{'' if is_well else 'FAILED '}{name}, {told[2]:,} bytes: status {status}, {lines:,} lines of {due:,}, "
              f"{seconds:.1f} s ({told[2] / seconds / 1e6:,.0f} MB/s), {most:.1f} MiB of {MOST}", flush=True)
    sys.exit(1 if failed else 0)


if __name__ == "__main__":
    main()
