#!/usr/bin/env python3
"""A quick look, before the gate, at what changed since a commit. It is no gate: it trusts what out/ keeps.

    tools/gate_changed/gate_changed.py [--since COMMIT] [--lanes N] [--above] [--no-tests] [--no-edits] [--list] [NAME..]

At the top of the repository. In N lanes (2 if not said), each crate that changed since COMMIT (HEAD if not said: what
is not committed), or each NAME, in the order of crates.txt: its check, its tests with those of NAME_tests (or of
the crates of tests that stand on it, where there is no such one), and its wrong bodies, those of the gate and those of
tools/wrong_bodies/NAME. A crate of which only wrong bodies changed has only those tried. First it says which crates
have files that are not as rt fmt writes them. --above also checks, with tests and no wrong bodies, the crates above
those. Each line has the wall seconds. The last line is 'N well, M not', in which each check, each run of tests and each
wrong body counts as one.

Wrong bodies of different functions are tried in one check (tools/wrong_bodies/bodies.py says how), over a copy of what
the crate's check kept. --list says what would be done, and does nothing.
"""
import argparse
import glob
import importlib.machinery
import importlib.util
import os
import shutil
import subprocess
import sys
import tempfile
import threading
import time

sys.dont_write_bytecode = True
sys.path.insert(0, os.path.join(os.path.dirname(os.path.dirname(os.path.abspath(__file__))), "wrong_bodies"))
import bodies

RT = os.path.realpath(shutil.which("rt"))
loader = importlib.machinery.SourceFileLoader("rt_of_kit", RT)
rt = importlib.util.module_from_spec(importlib.util.spec_from_loader("rt_of_kit", loader))
loader.exec_module(rt)
PRINTING, BEGAN = threading.Lock(), time.time()
WELL, FAILED = [], []


def say(text):
    """Prints a line with the seconds since the start."""
    with PRINTING:
        print(f"{time.time() - BEGAN:7.1f}  {text}", flush=True)


def asked():
    """The words of the command line."""
    parser = argparse.ArgumentParser(description="A quick look at what changed since a commit; it is no gate.")
    parser.add_argument("--since", default="HEAD", metavar="COMMIT")
    parser.add_argument("--lanes", type=int, default=2, metavar="N")
    parser.add_argument("--above", action="store_true", help="also the crates above those that changed")
    parser.add_argument("--no-tests", action="store_true")
    parser.add_argument("--no-edits", action="store_true")
    parser.add_argument("--list", action="store_true", help="say what would be done")
    parser.add_argument("names", nargs="*", metavar="NAME")
    return parser.parse_args()


def changed_since(commit):
    """Each path that differs from the commit, those that git does not know yet too."""
    commands = [["git", "diff", "--name-only", commit, "--"], ["git", "ls-files", "--others", "--exclude-standard"]]
    told = [subprocess.run(it, stdout=subprocess.PIPE, text=True, check=True).stdout.split("\n") for it in commands]
    return [it for lines in told for it in lines if it]


def wrong_bodies_of(crate):
    """The crate's wrong bodies, in the gate and beside it."""
    places = f"{crate.folder}/must-fail", f"tools/wrong_bodies/{crate.name}"
    return [os.path.abspath(it) for place in places for it in sorted(glob.glob(f"{place}/*.edit"))]


class Plan:
    """What is to be looked at: the crates that changed, those that are tested alone, and the edits of each."""

    def __init__(self, crates, words):
        paths = [] if words.names else changed_since(words.since)

        def touches(crate, *parts):
            return [it for it in paths if it.startswith(tuple(f"crates/{crate.name}/{part}" for part in parts))]

        made = {it.name for it in crates if it.name in words.names or touches(it, "src/", "specs/", "proofs/")}
        below = {it.name: {dep.name for dep in it.below()} for it in crates}
        names = {it.name for it in crates}
        # a crate without tests of its own is tested by those that stand on it and test others
        apart = {it for it in made if f"{it}_tests" not in names}
        tests = {
            it.name for it in crates if it.name.endswith("_tests")
            and (it.name.removesuffix("_tests") in made or apart & {dep.name for dep in it.deps})
        } - made
        upper = {it.name for it in crates if words.above and made & below[it.name]} - made
        self.looked = made | tests | upper
        self.edits = {}
        for crate in crates:
            _, bad = rt.edits_of(crate)
            FAILED.extend(bad)
            told = {os.path.abspath(it) for it in paths}
            wanted = [it for it in wrong_bodies_of(crate) if crate.name in made or it in told]
            if wanted and not words.no_edits:
                self.edits[crate.name] = wanted
        self.has_tests = not words.no_tests
        self.crates = [it for it in crates if it.name in self.looked or it.name in self.edits]


def command(label, crate, *verb):
    """Runs a command of rt in the crate's folder, and tells how it went."""
    start = time.time()
    streams = {"stdin": subprocess.DEVNULL, "stdout": subprocess.PIPE, "stderr": subprocess.STDOUT}
    ran = subprocess.run([RT, *verb, "--jobs", "1"], cwd=crate.folder, errors="replace", **streams)
    say(f"{'NOT' if ran.returncode else 'ok '} {label} {crate.name}: {time.time() - start:.1f} s")
    if ran.returncode:
        print("\n".join(ran.stdout.split("\n")[-40:]), flush=True)
    (FAILED if ran.returncode else WELL).append(f"{label} {crate.name}")
    return not ran.returncode


def try_edits(crate, edits):
    """Tries wrong bodies over what the crate's check kept."""

    def tell(is_refused, text):
        if is_refused is not None:
            (WELL if is_refused else FAILED).append(text.split(":")[0])
        say(text if is_refused is None else f"{'ok ' if is_refused else 'NOT'} {text}")

    bodies.try_all(rt, crate, edits, tell)


def look_at_layout(crates):
    """Tells which crates have files that are not as rt fmt writes them: the gate refuses those."""
    for crate in crates:
        with tempfile.TemporaryFile("a+", errors="replace") as told:
            is_well = not rt.rtlib.fmt(crate.folder, "--check", told)
            told.seek(0)
            if not is_well:
                say(f"NOT layout {crate.name}: run rt fmt in its folder\n{told.read().strip()}")
        (WELL if is_well else FAILED).append(f"layout {crate.name}")


def tasks_of(crates, plan):
    """The tasks for rt's lanes: what each waits for, its size, the memory that it needs, and the call."""

    def libraries_stand(crate, given):
        return all(given.get((it.name, "lib"), True) for it in crate.below())

    def run(label, crate, *verb):
        return lambda given, jobs: libraries_stand(crate, given) and command(label, crate, *verb)

    def tried(crate, edits):
        return lambda given, jobs: given[crate.name, "check"] and try_edits(crate, edits)

    tasks, below = {}, {dep.name for it in plan.crates for dep in it.below()}
    for crate in crates:
        size = crate.count(rb"\n"), rt.need(crate)
        waits = [(it.name, "lib") for it in crate.below() if it.name in below]
        if crate.name in below:
            # built once, before two crates above would wait for its lock
            tasks[crate.name, "lib"] = (waits, *size, run("lib", crate, "lib"))
            waits = [*waits, (crate.name, "lib")]
        if crate not in plan.crates:
            continue
        tasks[crate.name, "check"] = (waits, *size, run("check", crate, "check"))
        waits = [*waits, (crate.name, "check")]
        if plan.has_tests and crate.name in plan.looked and crate.has_tests():
            tasks[crate.name, "tests"] = (waits, *size, run("tests", crate, "test"))
        edits = plan.edits.get(crate.name, [])
        if edits:
            tasks[crate.name, "edits"] = (waits, *size, tried(crate, edits))
    return tasks


def main():
    words = asked()
    if not os.path.isfile("crates.txt"):
        sys.exit("gate_changed runs at the top of the repository, where crates.txt stands")
    rt.rtlib.guarded()
    crates = sorted(rt.rtlib.crates_below(os.getcwd()), key=lambda it: len(it.below()))
    unknown = {*words.names} - {it.name for it in crates}
    if unknown:
        sys.exit(f"no crate is named {' '.join(sorted(unknown))}")
    plan = Plan(crates, words)
    for crate in plan.crates:
        say(f"{crate.name}: {'check, tests' if crate.name in plan.looked else 'check'}, {len(plan.edits.get(crate.name, []))} wrong bodies")
    if words.list or not plan.crates:
        return 0
    look_at_layout(crates)
    os.environ["RT_JOBS"] = str(words.lanes)
    rt.in_lanes(tasks_of(crates, plan))
    say(f"FAILED: {' '.join(FAILED)}" if FAILED else "all well; rt ci is the gate")
    print(f"{len(WELL)} well, {len(FAILED)} not")
    return 1 if FAILED else 0


if __name__ == "__main__":
    sys.exit(main())
