#!/usr/bin/env python3
"""Measures the built program on captures, beside tshark, and writes a section of docs/SPEED.md.

    tools/captures/speed.py [--rounds N] [--write] [PROGRAM]

generate.py makes three captures of one connection: with packets of 64 KiB, of 1,514 bytes and of 614. Each program reads them
in turn, N rounds of it (3, if not said). The table has megabytes of capture a second, the median, the least and the most:

- `show --capture FILE --connection 0 --from initiator`, whose end sends all but some bytes;
- `show --capture FILE`, both directions;
- `connections FILE`;
- `tshark -n -r FILE -Y iscsi -T fields -e frame.number -e iscsi.opcode -e iscsi.initiatortasktag`.

With --write the section takes the place of the one in docs/SPEED.md, or comes last. It takes an idle machine: the load stands
below the table. PROGRAM is crates/lanthovur/out/lanthovur if none is named; `./lanthovur </dev/null` builds it.
"""
import argparse
import os
import re
import shutil
import statistics
import subprocess
import sys
import tempfile
import time
from pathlib import Path

HERE = Path(__file__).resolve().parent
PAGE = HERE.parents[1] / "docs/SPEED.md"
PROGRAM = HERE.parents[1] / "crates/lanthovur/out/lanthovur"
TITLE = "Captures"
# A name, and the words of generate.py.
CAPTURES = [
    ("packets of 64 KiB", ["512M"]), ("packets of 1,514 bytes", ["64M", "--segment", "1460", "--data", "8192"]),
    ("packets of 614 bytes", ["16M", "--segment", "560", "--data", "512"]),
]
FIELDS = ["-Y", "iscsi", "-T", "fields", "-e", "frame.number", "-e", "iscsi.opcode", "-e", "iscsi.initiatortasktag"]


def seconds_of(words):
    """How long a program takes, with its output to nowhere."""
    began = time.monotonic()
    ran = subprocess.run(words, stdin=subprocess.DEVNULL, stdout=subprocess.DEVNULL, stderr=subprocess.DEVNULL)
    if ran.returncode:
        sys.exit(f"{words} ended with status {ran.returncode}")
    return time.monotonic() - began


def commands(program, path):
    """The name and the words of each column."""
    show = [program, "show", "--capture", path]
    found = [("`show --from`", [*show, "--connection", "0", "--from", "initiator"]), ("`show`, both", show),
             ("`connections`", [program, "connections", path])]
    if shutil.which("tshark"):
        found.append(("tshark", ["tshark", "-n", "-r", path, *FIELDS]))
    return found


def text(values):
    low, middle, high = min(values), statistics.median(values), max(values)
    return f"{middle:,.0f} ({low:,.0f} to {high:,.0f})" if middle >= 100 else f"{middle:,.1f} ({low:,.1f} to {high:,.1f})"


def measured(program, room, name, words, rounds):
    """A row of the table."""
    path = f"{room}/capture"
    with open(path, "wb") as file:
        subprocess.run([HERE / "generate.py", *words], stdout=file, stderr=subprocess.DEVNULL, check=True)
    size, columns = os.path.getsize(path) / 1e6, commands(program, path)
    rates = {title: [] for title, _ in columns}
    for _ in range(rounds):
        for title, command in columns:
            rates[title].append(size / seconds_of(command))
    first = statistics.median(rates["`show --from`"])
    ratio = f"{first / statistics.median(rates['tshark']):.0f}" if "tshark" in rates else "tshark is not installed"
    return [f"{name} ({size:,.0f} MB)", *map(text, rates.values()), ratio], list(rates)


def section(program, rounds):
    """The section's lines."""
    load, rows = os.getloadavg()[0], []
    with tempfile.TemporaryDirectory(prefix="captures-") as room:
        for name, words in CAPTURES:
            row, titles = measured(program, room, name, words, rounds)
            rows.append(row)
    load = max(load, os.getloadavg()[0])
    lines = [f"## {TITLE}", "", f"Megabytes of capture a second, by `tools/captures/speed.py`: the median of {rounds} rounds, the least and the most. "
             f"Files are in the page cache. The load was {load:.0f} on {os.cpu_count()} processors. The ratio is that of `show --from` to tshark."]
    lines += ["", "|  | " + " | ".join([*titles, "Ratio"]) + " |", "|---" * (len(titles) + 2) + "|"]
    lines += ["| " + " | ".join(row) + " |" for row in rows]
    lines += ["", f"`show --from` is `show --capture FILE --connection 0 --from initiator`. tshark is run as `tshark -n -r FILE {' '.join(FIELDS)}`."]
    return lines


def write(lines):
    """Puts the section into the page."""
    page = PAGE.read_text()
    found = re.search(rf"^## {TITLE}\n.*?(?=^## |\Z)", page, re.M | re.S)
    text = "\n".join(lines) + "\n"
    page = page[:found.start()] + text + ("\n" if page[found.end():] else "") + page[found.end():] if found else page.rstrip("\n") + "\n\n" + text
    PAGE.write_text(page)


def main():
    parser = argparse.ArgumentParser(description=__doc__, formatter_class=argparse.RawDescriptionHelpFormatter)
    parser.add_argument("program", nargs="?", default=str(PROGRAM), help="the program that reads captures")
    parser.add_argument("--rounds", type=int, default=3, help="how often each is measured")
    parser.add_argument("--write", action="store_true", help="put the section into docs/SPEED.md")
    words = parser.parse_args()
    if not os.path.isfile(words.program):
        sys.exit(f"there is no program {words.program}: `./lanthovur </dev/null` builds it")
    lines = section(words.program, words.rounds)
    print("\n".join(lines))
    if words.write:
        write(lines)


if __name__ == "__main__":
    main()
