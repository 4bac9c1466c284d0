#!/usr/bin/env python3
"""Runs the commands of the pages, and compares what they print with what the pages say.

    tools/pages/run.py [--proved] [--texts] [PAGE]..

PAGE is such as README.md or docs/RECIPES.md; each one that has commands if none is named. Each section of a page is run in a
folder of its own, by one shell, and so is each part of a section that begins with a name in bold, such as `**Two services.**`.
A line `$ command` of a block marked `console` has to print the lines behind it, and nothing else; each command of a block
marked `sh` has to end well. Files that a section takes as given are made first. `./lanthovur` is run with `--unproved`, whose
one line on standard error is left out; with --proved it is run as the page says. Blocks and commands that no script can run
have a reason in SKIPPED, those that want a program which is not installed are in WANTED, and each has a line 'skipped'.

Commands that stand in the text of any page, between backquotes, are not run here. Each has to be of a form in ELSEWHERE, which
says why, and the script, the word or the flag that it names has to be there. --texts lists them, and runs nothing.

It wants QEMU, libiscsi, nbdkit, xxd, jq, as root tcpdump, and ports 3260, 3261 and 10809. `unshare -n` gives it ports of its own, once `ip link set
lo up` was said there. The last line is 'N passed, M failed, K skipped'.
"""
import argparse
import os
import re
import shutil
import signal
import subprocess
import sys
import tempfile
from dataclasses import dataclass
from pathlib import Path

TOP = os.path.dirname(os.path.dirname(os.path.dirname(os.path.abspath(__file__))))
PAGES = [
    "README.md", "docs/RECIPES.md", "docs/FORMATS.md", "crates/lanthovur/README.md", "crates/capture_vectors/README.md",
    "crates/format_tables/README.md", "crates/tool_rows/README.md", "docs/session/README.md",
]
# Pages whose commands in the text are looked at.
TEXTS = ["*.md", "docs/**/*.md", "crates/*/README.md", "crates/*/proofs/README.md", "tools/**/*.md"]
# A section that takes longer hangs.
SECONDS = 900
# Lines that no page has: of the launcher, of a service's sessions, of `rt try`, and of the shell.
OTHERS = re.compile(r"lanthovur: nothing is proved of this run|session [0-9]+ .*|two initiators may write this disk: .*|lines left out: [0-9]+|(interpreter|checked): .*|run=ended .*|\[[0-9]+\].*")
# What stands before the output of the command with this number, and its status behind it.
MARK = "\x01"
# Why a section is not run, or a page, or a command of a section.
SKIPPED = {
    ("docs/RECIPES.md", "A service that a supervisor starts"): "it is the script of a supervisor",
    ("crates/format_tables/README.md", ""): "it changes the tree",
    "crates/tool_rows/README.md": "the gate runs it, and without proofs it takes minutes",
    "docs/session/README.md": "it captures a session of tgt, which wants root, and makes other numbers each time",
}
# The programs without which a section is skipped.
WANTED = {
    ("docs/RECIPES.md", "A disk on an NBD server, A qcow2 image, with a snapshot taken while it is served"): ["qemu-storage-daemon", "socat"],
    ("docs/RECIPES.md", "A disk on an NBD server, A plugin and a filter of nbdkit"): ["nbdkit", "qemu-io"],
    ("docs/RECIPES.md", "A disk on an NBD server, Two services"): ["qemu-nbd"],
    ("docs/RECIPES.md", "A disk that outgrows one machine"): ["ceph-mon", "ceph-osd", "rbd", "qemu-nbd"],
}
# The files that a section takes as given, each with its size in MiB, or with the file of the tree that it is a copy of.
GIVEN = {
    ("README.md", "A served disk"): {"source.img": 8},
    ("docs/RECIPES.md", "A disk for other initiators"): {"disk.img": 4},
    ("docs/RECIPES.md", "A disk that lasts"): {"source.img": 32},
    ("docs/RECIPES.md", "A disk that nobody changes"): {"source.img": 4},
    ("docs/RECIPES.md", "A disk on an NBD server, A plugin and a filter of nbdkit"): {"base.img": 4},
    ("docs/RECIPES.md", "A disk on an NBD server, Two services"): {"disk.img": 4},
    ("docs/RECIPES.md", "A disk that outgrows one machine"): {"source.img": 8},
    ("docs/RECIPES.md", "Two streams compared"): {
        "initiator.bin": "crates/capture_vectors/data/inq-lo.0.initiator",
        "stream.bin": "crates/capture_vectors/data/inq-lo.0.target",
        "first.bin": "crates/capture_vectors/data/inq-lo.0.initiator",
        "second.bin": "crates/capture_vectors/data/inq-lo.0.initiator",
    },
}
# Folders of the tree in which a section writes: it gets a copy.
COPIED = {("docs/RECIPES.md", "A capture, from recording to comparison"): "crates/capture_vectors/data"}
# Commands that a section needs first, as the page says in words.
BEFORE = {
    ("crates/capture_vectors/README.md", ""): "cd crates/capture_vectors",
    ("docs/RECIPES.md", "A disk that nobody changes"): "cp source.img disk.img",
    ("docs/RECIPES.md", "A disk on an NBD server, A plugin and a filter of nbdkit"):
    "disk=iscsi://127.0.0.1:3260/iqn.2026-01.example:disk/0",
    ("docs/RECIPES.md", "A disk that outgrows one machine"):
    "trap 'tools/ceph/cluster.py stop ceph' EXIT; tools/ceph/cluster.py start ceph; export CEPH_CONF=$PWD/ceph/ceph.conf",
}
ALL = "tools/all/run.py runs it"
# Why the commands of the text are not run here, by what they begin with. The first form that fits is taken.
ELSEWHERE = {
    r"tools/(pages|all)/run\.py": "it would run itself",
    r"tools/gate_changed/": "it proves",
    r"tools/gate_times/": "it reads a run of the gate, or the work that proofs keep",
    r"tools/(captures/mangle|ceph/cluster|refused_memory/(calls|sweep))\.py": "the run.py beside it runs it",
    r"tools/reach/": "tools/check_docs/check_docs.py runs it",
    r"tools/speed/(builds|lengths|page|profile|trim)\.py": "it measures, on an idle machine",
    r"tools/captures/cuts\.py": "it wants captures to cut",
    r"tools/(initiators/conformance|jobs/reasons)\.py|tools/lanes/lanes|tools/wrong_bodies/answers": "another script reads it, or it is of the gate",
    r"tools/[a-z_]+/[a-z_]+(\.py)?( |$)": ALL,
    r"tools/[a-z_]+": "it is a folder",
    r"rt (ci|check|must-fail|plant|tidy|run)\b": "it proves",
    r"rt (doc|version|lemma|fmt|try)\b": "it is the toolchain's",
    r"\./lanthovur": "tools/door/run.py runs the launcher",
    r"(show|normalise|compare|connections|answer|serve|loop)\b": "tools/process/run.py runs the words of the program",
    r"qemu-(img|io)\b": "the blocks of RECIPES run it",
}
# A command between backquotes, or one that stands apart.
IN_TEXT = re.compile(r"`((?:tools/\w|rt |\./lanthovur|(?:show|normalise|compare|connections|answer|serve|loop) |qemu-(?:img|io)\b)[^`]*)`|^    (tools/\w.*|rt .*)$", re.M)


@dataclass
class Command:
    """A command of a page, and the lines that it has to print, or None if the page has none."""

    page: str
    section: str
    text: str
    due: list = None


def blocks_of(page):
    """The section, the mark and the lines of each block of a page."""
    section, heading, mark, lines = "", "", None, []
    for line in open(f"{TOP}/{page}", encoding="utf-8"):
        line = line.rstrip("\n")
        if mark is None and line.startswith("## "):
            section = heading = line[3:]
        elif mark is None and (part := re.match(r"\*\*([^*]+)\.\*\* ", line)):
            section = f"{heading}, {part[1]}"
        elif mark is None and line.startswith("```"):
            mark, lines = line[3:], []
        elif line == "```":
            yield section, mark, lines
            mark = None
        elif mark is not None:
            lines.append(line)


def commands_of(page):
    """The commands of each section of a page, by its name."""
    found = {}
    for section, mark, lines in blocks_of(page):
        if mark == "console":
            for line in lines:
                if line.startswith("$ "):
                    found.setdefault(section, []).append(Command(page, section, line[2:], []))
                else:
                    found[section][-1].due.append(line)
        elif mark == "sh":
            found.setdefault(section, []).extend(Command(page, section, text) for text in whole_commands(lines))
    return found


def whole_commands(lines):
    """The commands of a block, each with the lines in which it goes on."""
    command = []
    for line in lines:
        command.append(line)
        if not line.endswith(("\\", "|")):
            yield "\n".join(command)
            command = []


def reason_of(command):
    """Why a command of a section is not run, or nothing."""
    return SKIPPED.get((command.page, command.section, command.text.split()[0]))


# ---- commands in the text


def commands_in_text(page):
    """The commands that stand in the text of a page, without those of its blocks."""
    text = re.sub(r"^```.*?^```$", "", page.read_text(encoding="utf-8"), flags=re.M | re.S)
    return sorted({one or other for one, other in IN_TEXT.findall(text)})


def missing_in(command, reason, words_of_program):
    """The script or the flag of a command of the text that is not there, or nothing."""
    script = command.split()[0].rstrip("/")
    is_script = script.startswith("tools/")
    if is_script and not os.path.exists(f"{TOP}/{script.replace('/NAME', '').split('/*')[0]}"):
        return script
    if reason is ALL and f'"{script.removeprefix("tools/")}"' not in open(f"{TOP}/tools/all/run.py", encoding="utf-8").read():
        return f"{script} among those of tools/all/run.py"
    flags = re.findall(r"(?<![\w-])--[a-z-]+", command)
    if is_script and os.path.isfile(f"{TOP}/{script}"):
        known = open(f"{TOP}/{script}", encoding="utf-8").read()
    elif command.startswith("rt "):
        return None
    else:
        known = words_of_program
    return next((flag for flag in flags if not re.search(rf"\b{flag[2:]}\b", known)), None)


def look_at_texts(is_told):
    """Looks at the commands in the text of all pages, and returns how many have no reason or name what is not there."""
    sources = ["lanthovur", *(str(path.relative_to(TOP)) for path in Path(TOP).glob("crates/iscsi_*words/src/*.rt"))]
    words_of_program = "\n".join(open(f"{TOP}/{path}", encoding="utf-8").read().replace("_", "-") for path in sources)
    failed, count = 0, 0
    for page in sorted({path for pattern in TEXTS for path in Path(TOP).glob(pattern)}):
        for command in commands_in_text(page):
            reason = next((why for form, why in ELSEWHERE.items() if re.match(form, command)), None)
            fault = "no form of ELSEWHERE fits" if reason is None else None
            if missing := missing_in(command, reason, words_of_program):
                fault = f"there is no {missing}"
            failed, count = failed + bool(fault), count + 1
            if fault:
                print(f"FAILED {page.relative_to(TOP)}, its text: {command}\n    {fault}", flush=True)
            elif is_told:
                print(f"{page.relative_to(TOP)}: {command}: {reason}", flush=True)
    print(f"{count} commands in texts: {count - failed} are run elsewhere, or have a reason", flush=True)
    return failed


def stale_names():
    """The sections that a table names and no page has, and the pages with commands that PAGES lacks."""
    pages = {str(path.relative_to(TOP)) for pattern in TEXTS for path in Path(TOP).glob(pattern)}
    yield from (f"{page}, which has commands, in PAGES" for page in sorted(pages - set(PAGES)) if commands_of(page))
    tables = {key for table in (SKIPPED, WANTED, GIVEN, COPIED, BEFORE) for key in table if isinstance(key, tuple)}
    known = {page: commands_of(page) for page in PAGES}
    for key in sorted(tables):
        commands = known[key[0]].get(key[1])
        if commands is None or len(key) > 2 and not any(reason_of(command) for command in commands):
            yield f"section {' | '.join(key)}"


def shell_text(before, commands, program):
    """A shell script that runs commands one after another. Behind each it prints its number and its status."""
    lines = ["set -m", before]
    for number, command in enumerate(commands):
        lines.append(command.text)
        # What is served has to listen before it is asked.
        lines.append(f"status=$?; {'sleep 3; ' if command.text.endswith('&') else ''}printf '{MARK}%s %s{MARK}' {number} $status")
    return re.sub(r"\./lanthovur( --unproved)?(?=\s)", program, "\n".join(lines) + "\n")


def make_given(folder, given, copied):
    """Makes a folder in which a section runs as at the top of the tree, with a copy of one folder in place of crates/."""
    if copied:
        shutil.copytree(f"{TOP}/{copied}", f"{folder}/{copied}")
    for name in ("lanthovur", "docs", "crates", "tools"):
        if not os.path.exists(f"{folder}/{name}"):
            os.symlink(f"{TOP}/{name}", f"{folder}/{name}")
    for name, what in given.items():
        if isinstance(what, str):
            shutil.copy(f"{TOP}/{what}", f"{folder}/{name}")
        else:
            with open(f"{folder}/{name}", "wb") as file:
                file.write(os.urandom(1 << 20) * what)


def outputs_of(text, folder):
    """What the commands of a shell script printed, with their statuses, by their numbers. What they started is ended."""
    streams = {"stdin": subprocess.DEVNULL, "stdout": subprocess.PIPE, "stderr": subprocess.STDOUT}
    with tempfile.TemporaryFile() as out:
        streams["stdout"] = out
        with subprocess.Popen(["bash", "-c", text + "kill $(jobs -p) 2>/dev/null; wait"], cwd=folder, start_new_session=True, **streams) as shell:
            try:
                shell.wait(SECONDS)
            except subprocess.TimeoutExpired:
                os.killpg(shell.pid, signal.SIGKILL)
        out.seek(0)
        written = out.read().decode(errors="replace")
    parts = re.split(f"{MARK}([0-9]+) ([0-9]+){MARK}", written)
    return {int(parts[at + 1]): (parts[at], int(parts[at + 2])) for at in range(0, len(parts) - 1, 3)}


def fault_of(command, seen):
    """What is wrong with a command that printed this and had this status, or nothing."""
    if seen is None:
        return "it was not reached"
    printed, status = seen
    lines = [line for line in printed.splitlines() if not OTHERS.fullmatch(line)]
    if command.due is None:
        return f"status {status}: {lines[-3:]}" if status else None
    return None if lines == command.due else f"it printed {lines}"


def run_section(page, section, commands, program):
    """Runs a section, and returns how many commands were well, not well, and not run."""
    reason = SKIPPED.get((page, section), SKIPPED.get(page))
    if lacking := [name for name in WANTED.get((page, section), []) if not shutil.which(name)]:
        reason = f"not installed: {', '.join(lacking)}"
    if reason:
        print(f"skipped {page}, {section or 'its commands'}: {reason}", flush=True)
        return 0, 0, len(commands)
    left = [command for command in commands if reason_of(command)]
    for command in left:
        print(f"skipped {page}, {section}: {command.text}: {reason_of(command)}", flush=True)
    commands = [command for command in commands if command not in left]
    with tempfile.TemporaryDirectory(prefix="pages-") as folder:
        make_given(folder, GIVEN.get((page, section), {}), COPIED.get((page, section)))
        seen = outputs_of(shell_text(BEFORE.get((page, section), ""), commands, program), folder)
    failed = 0
    for number, command in enumerate(commands):
        if fault := fault_of(command, seen.get(number)):
            failed += 1
            print(f"FAILED {page}, {section}: {command.text}\n    {fault}", flush=True)
    print(f"{page}, {section or 'its commands'}: {len(commands) - failed} of {len(commands)} commands as the page says", flush=True)
    return len(commands) - failed, failed, len(left)


def main():
    parser = argparse.ArgumentParser(description=__doc__, formatter_class=argparse.RawDescriptionHelpFormatter)
    parser.add_argument("--proved", action="store_true", help="run the proved program")
    parser.add_argument("--texts", action="store_true", help="list the commands in the text of pages, and run nothing")
    parser.add_argument("page", nargs="*", help="such as README.md")
    asked = parser.parse_args()
    stale = list(stale_names())
    for name in stale:
        print(f"FAILED there is no {name}", flush=True)
    program = "./lanthovur" if asked.proved else "./lanthovur --unproved"
    passed, failed, skipped = 0, len(stale), 0
    if asked.texts or not asked.page:
        failed += look_at_texts(asked.texts)
    for page in [] if asked.texts else asked.page or PAGES:
        for section, commands in commands_of(page).items():
            well, not_well, left = run_section(page, section, commands, program)
            passed, failed, skipped = passed + well, failed + not_well, skipped + left
    print(f"{passed} passed, {failed} failed, {skipped} skipped")
    sys.exit(1 if failed else 0)


if __name__ == "__main__":
    main()
