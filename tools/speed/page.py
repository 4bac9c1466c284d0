#!/usr/bin/env python3
"""Measures all that docs/SPEED.md tells, and puts the figures into it.

    tools/speed/page.py [--only WORD] [--list]

It runs the tools of TOOLS one after another, with the program that `./lanthovur </dev/null` builds, and takes an
hour of an idle machine. A tool that writes its own section does so. Of another each table takes the place of one in the
page: that of the section that is named beside the tool, with the same first line. The first paragraph of the page says what
machine it was, and how busy it was before. The words of the sections stay: read them again. WORD is a part of a tool's
command; --list says the commands. What a tool prints goes to standard error. The last line is 'N tables, M not placed'; a
tool that fails counts as one that is not placed.
"""
import argparse
import os
import re
import subprocess
import sys
import time
from pathlib import Path

TOP = Path(__file__).resolve().parents[2]
PAGE = TOP / "docs/SPEED.md"
# A command, and the sections of its tables in their order; none where it writes its own, and "" where each table has the
# section of its heading.
TOOLS = [
    ("tools/speed/run.py --seconds 0.3", ""),
    ("tools/speed/targets.py --deep --seconds 0.2 --range 16M --write", None),
    ("tools/speed/profile.py --write", None),
    ("tools/speed/lengths.py --write", None),
    ("tools/speed/targets.py --grow --seconds 0.2 --write", None),
    ("tools/replay/speed.py", ["Jobs done again"]),
    ("tools/many_sessions/run.py --figures", ["Several sessions at a time"]),
    ("tools/lasting/run.py --costs --seconds 0.5", ["A disk that lasts"]),
    ("tools/nbd/run.py --costs", ["A disk on an NBD server"]),
    ("tools/captures/speed.py --rounds 5 --write", None),
]
TABLE = re.compile(r"(?:^\|.*\n)+", re.M)


def tables_of(text):
    """The tables that a tool printed, each with the heading before it."""
    heading, found = "", []
    for part in re.split(r"^(## .*)$", text, flags=re.M):
        if part.startswith("## "):
            heading = part[3:].strip()
        else:
            found += [(heading, table.group(0)) for table in TABLE.finditer(part)]
    return found


def placed(page, section, table):
    """The page with a table in place of the first one of a section, or nothing where there is none."""
    of = re.search(rf"^## {re.escape(section)}\n.*?(?=^## |\Z)", page, re.M | re.S)
    if not of:
        return None
    old = TABLE.search(page, of.start(), of.end())
    return page[:old.start()] + table + page[old.end():] if old else None


def machine():
    """What is said of the machine."""
    model = next((line.split(":")[1].strip() for line in open("/proc/cpuinfo") if line.startswith("model name")), "")
    return (f"This page is a reference: what `tools/speed/page.py` measured, which runs each tool that is named below. The machine had "
            f"{os.cpu_count()} processors ({model}), and its load before was {os.getloadavg()[0]:.1f}. What is measured side by side goes "
            "in turn, and a cell has the median, and the least and the most.")


def main():
    parser = argparse.ArgumentParser(description=__doc__, formatter_class=argparse.RawDescriptionHelpFormatter)
    parser.add_argument("--only", default="", help="the tools whose command has this word")
    parser.add_argument("--list", action="store_true", help="say the commands")
    words = parser.parse_args()
    tools = [tool for tool in TOOLS if words.only in tool[0]]
    if words.list:
        print("\n".join(command for command, _ in tools))
        return 0
    done, missed, said = 0, 0, machine()
    for command, sections in tools:
        began = time.monotonic()
        ran = subprocess.run([sys.executable, *command.split()], cwd=TOP, stdout=subprocess.PIPE, text=True)
        print(ran.stdout, file=sys.stderr, flush=True)
        print(f"{time.monotonic() - began:6.0f} s  {command}", flush=True)
        if ran.returncode:
            missed += 1
        if sections is None:
            done += 1 - bool(ran.returncode)
            continue
        found = tables_of(ran.stdout)
        due = [heading for heading, _ in found] if sections == "" else sections
        for section, (_, table) in zip(due, found):
            page = placed(PAGE.read_text(), section, table)
            if page is None:
                print(f"no table of the section {section}", flush=True)
                missed += 1
            else:
                PAGE.write_text(page)
                done += 1
    if not words.only:
        PAGE.write_text(re.sub(r"\A(# .*\n\n).*?\n\n", lambda m: m.group(1) + said + "\n\n", PAGE.read_text(), count=1, flags=re.S))
    print(f"{done} tables, {missed} not placed")
    return 1 if missed else 0


if __name__ == "__main__":
    sys.exit(main())
