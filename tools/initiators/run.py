#!/usr/bin/env python3
"""Tries `serve` with the programs that other initiators are: a disk in memory, which is thin, an image, and one with `--plain`.

    tools/initiators/run.py [--family NAME].. [PROGRAM]

PROGRAM is crates/lanthovur/out/lanthovur if none is named; `./lanthovur </dev/null` builds it. All is done on 127.0.0.1. The
programs are iscsi-inq and iscsi-test-cu (Debian: libiscsi-bin), qemu-img and qemu-io (qemu-utils, qemu-block-extra), and tgt; what
isn't installed is skipped, with a word.

Every family of iscsi-test-cu is run with each kind of disk, each time with a fresh service. Its line has how many cases passed, were
skipped and failed, and beside it the same of tgt. A case that leaves out something, or prints nothing, counts as skipped. The tables
in conformance.py have a reason for each case that fails, and for whatever is left out. A case without a reason fails the script, and
so does a row that is true no more. With --family only these families are run, and nothing else.

The last line is 'N passed, M failed, K skipped'. It takes minutes. What Linux itself does is in tools/guest.
"""
import argparse
import contextlib
import os
import re
import shutil
import socket
import subprocess
import sys
import tempfile
import threading
from collections import Counter

sys.dont_write_bytecode = True
import conformance

TOP = os.path.dirname(os.path.dirname(os.path.dirname(os.path.abspath(__file__))))
TARGET = "iqn.2026-01.example:disk"
MIB = 1 << 20
sys.path.insert(0, f"{TOP}/tools/captures")
from taps import Tgt

sys.path.pop(0)
# The words of a disk of the bare profile, of an image, and of a disk in memory.
PLAIN, IMAGE, MEMORY = ["--plain"], ["--file"], []
KINDS = [MEMORY, IMAGE, PLAIN]


class Skipped(Exception):
    """What a case wants is not there."""


def ran(*words, seconds=600):
    """The status of a program, and what it says."""
    if not shutil.which(words[0]):
        raise Skipped(f"{words[0]} is not installed")
    done = subprocess.run(words, stdin=subprocess.DEVNULL, stdout=subprocess.PIPE, stderr=subprocess.STDOUT, timeout=seconds)
    return done.returncode, done.stdout.decode(errors="replace")


class Service:
    """`serve` over 64 MiB with these words, which ends with the block. Behind `--file` comes an image of the room."""

    def __init__(self, program, room, words, image="image"):
        path = f"{room}/{image}"
        words = [*words, *([path] if words == IMAGE else [])]
        size = [] if words[:1] == IMAGE and os.path.exists(path) else ["--size", "64M", *(["--create"] if words[:1] == IMAGE else [])]
        with socket.create_server(("127.0.0.1", 0)) as other:
            port = other.getsockname()[1]
        self.url = f"iscsi://127.0.0.1:{port}/{TARGET}/0"
        words = [program, "serve", "--port", str(port), *size, *words]
        self.process = subprocess.Popen(words, stdin=subprocess.DEVNULL, stdout=subprocess.PIPE, stderr=subprocess.DEVNULL)
        if self.process.stdout.readline() != b"listening\n":
            raise OSError("the service did not start")

    def __enter__(self):
        return self

    def __exit__(self, *_):
        self.process.kill()
        self.process.wait()


class Meter:
    """Stands between a service and its initiators, and counts the bytes that they send."""

    def __init__(self, service):
        self.listener = socket.create_server(("127.0.0.1", 0))
        self.sent = 0
        self.port = int(re.search(r":(\d+)/", service.url).group(1))
        self.url = service.url.replace(f":{self.port}/", f":{self.listener.getsockname()[1]}/")
        threading.Thread(target=self.listen, daemon=True).start()

    def listen(self):
        while True:
            initiator, _ = self.listener.accept()
            target = socket.create_connection(("127.0.0.1", self.port))
            threading.Thread(target=self.pass_on, args=(initiator, target, True), daemon=True).start()
            threading.Thread(target=self.pass_on, args=(target, initiator, False), daemon=True).start()

    def pass_on(self, source, sink, counted):
        # QEMU may reset a connection that it leaves
        with contextlib.suppress(OSError):
            while piece := source.recv(1 << 16):
                self.sent += len(piece) if counted else 0
                sink.sendall(piece)
        with contextlib.suppress(OSError):
            sink.shutdown(socket.SHUT_WR)


def numbers(program, room, words):
    """Two disks have serial numbers and names of their own. An image has them again after a restart, a disk in memory has others."""
    told = []
    for image in ("image", "other", "image"):
        with Service(program, room, words, image) as service:
            told.append(tuple(ran("iscsi-inq", "-e", "1", "-c", page, service.url)[1] for page in ("128", "131")))
    if words == PLAIN:
        return len(set(told)) == 1
    return all(one != other for one, other in zip(told[0], told[1])) and (told[0] == told[2]) == (words == IMAGE)


def holes(program, room, words):
    """qemu-img copies an image that is one hole of 48 MiB between its ends, and finds it the same."""
    image = f"{room}/source"
    with open(image, "wb") as file:
        file.write(os.urandom(4096))
        file.seek(64 * MIB - 4096)
        file.write(os.urandom(4096))
    with Service(program, room, words) as service:
        status, _ = ran("qemu-img", "convert", "-n", "-f", "raw", "-O", "raw", image, service.url)
        same = status == 0 and ran("qemu-img", "compare", "-f", "raw", "-F", "raw", image, service.url)[0] == 0
    return status != 0 if words == PLAIN else same


def zeros(program, room, words):
    """qemu-io writes zeros over 32 MiB of other bytes, and sends less than 64 KiB for them to a thin disk; it reads zeros there, and the others around."""
    with Service(program, room, words) as service:
        fill = ran("qemu-io", "-f", "raw", "-c", "write -P 7 0 64M", service.url)[0]
        counter = Meter(service)
        zero = ran("qemu-io", "-f", "raw", "-c", "write -z 8M 32M", counter.url)[0]
        reads = ("read -P 7 0 8M", "read -P 0 8M 32M", "read -P 7 40M 24M")
        status, text = ran("qemu-io", "-f", "raw", *(word for read in reads for word in ("-c", read)), service.url)
    print(f"         {counter.sent} bytes for 32 MiB of zeros", flush=True)
    same = fill == zero == status == 0 and "verification failed" not in text
    return same and (counter.sent < 1 << 16) == (words == MEMORY)


# Each case, and the kinds of disk that it is done with.
CASES = [
    (numbers, PLAIN, IMAGE, MEMORY),
    (holes, PLAIN, IMAGE, MEMORY),
    (zeros, IMAGE, MEMORY),
]


def outcome_of(case, program, words):
    with tempfile.TemporaryDirectory() as room:
        try:
            return "passed" if case(program, room, words) else "failed", ""
        except Skipped as why:
            return "skipped", str(why)
        except subprocess.TimeoutExpired as late:
            return "failed", str(late)


def title(words):
    return " ".join(words) or "in memory"


def conforms(program, words, family):
    """The cases of a family with a fresh service, and what is not as the tables say."""
    try:
        with tempfile.TemporaryDirectory() as room, Service(program, room, words) as service:
            cases = conformance.cases_of(family, service.url)
    except (ValueError, subprocess.TimeoutExpired) as fault:
        return [], [str(fault)]
    return cases, list(conformance.faults(cases, title(words)))


def beside(family):
    """The cases of a family with a fresh tgt; none if it isn't installed."""
    if not shutil.which("tgtd"):
        return []
    with tempfile.TemporaryDirectory() as room:
        target = Tgt(None, room, 64 * MIB)
        try:
            return conformance.cases_of(family, f"iscsi://127.0.0.1:{target.port}/{target.name}/{target.unit}")
        except (ValueError, subprocess.TimeoutExpired) as fault:
            print(f"         tgt: {fault}", flush=True)
            return []
        finally:
            target.close()


def conformance_of(program, chosen):
    """Runs families with each kind of disk, tells of each, and returns how many ended well and how many not."""
    counts, tried, theirs = Counter(), {}, {family: beside(family) for family in chosen}
    for words in KINDS:
        tried[title(words)] = []
        for family in chosen:
            cases, faults = conforms(program, words, family)
            tried[title(words)] += cases
            outcome = "failed" if faults else "passed"
            counts[outcome] += 1
            than = f"; tgt: {conformance.counted(theirs[family])}" if theirs[family] else ""
            print(f"{outcome:8} {title(words):10} {family}: {conformance.counted(cases)}{than}", flush=True)
            for case in cases:
                if case.failed:
                    print(f"         {case.name} fails: {conformance.KNOWN.get(case.name, ['no reason'])[0]}", flush=True)
            for fault in faults:
                print(f"         {fault}", flush=True)
    for kind, cases in tried.items():
        print(f"         {kind}, in all: {conformance.counted(cases)}", flush=True)
    print(f"         tgt, in all: {conformance.counted(sum(theirs.values(), []))}", flush=True)
    return counts, tried


def main():
    parser = argparse.ArgumentParser(description=__doc__, formatter_class=argparse.RawDescriptionHelpFormatter)
    parser.add_argument("--family", action="append", help="a family of iscsi-test-cu, such as Read10")
    parser.add_argument("program", nargs="?", default=f"{TOP}/crates/lanthovur/out/lanthovur")
    asked = parser.parse_args()
    program, counts = os.path.abspath(asked.program), Counter()
    for case, *kinds in CASES if not asked.family else []:
        for words in kinds:
            outcome, why = outcome_of(case, program, words)
            counts[outcome] += 1
            print(f"{outcome:8} {title(words):10} {case.__doc__} {why}", flush=True)
    if not shutil.which("iscsi-test-cu"):
        counts["skipped"] += 1
        print("skipped  every family of iscsi-test-cu: it is not installed")
    else:
        ended, tried = conformance_of(program, asked.family or conformance.families())
        counts += ended
        for fault in conformance.stale(tried) if not asked.family else []:
            counts["failed"] += 1
            print(f"failed   {fault}", flush=True)
    print(", ".join(f"{counts[outcome]} {outcome}" for outcome in ("passed", "failed", "skipped")))
    return 1 if counts["failed"] else 0


if __name__ == "__main__":
    sys.exit(main())
