#!/usr/bin/env python3
"""Records live sessions, and compares what the program reads of the captures with what went over the sockets.

    tools/captures/live.py [--made N] [--seed S] [--quick] [--only WORD] [--keep FOLDER] [PROGRAM]

Initiators of libiscsi and QEMU talk to tgt and to this program's `serve`, through a relay that keeps the bytes of both
directions at both ends. `loop` and `iscsi-ls -s` run by strace, which shows what their sockets send. tcpdump and dumpcap
record all of it five times: classic files with microseconds and nanoseconds, pcapng, one device and all of them. Of the
classic one N more are made (3, if not said) by mangle.py, of the others one each by shuffle.py: packets are out of order,
repeated and cut. Of each capture:

- `connections` names the ends, and counts the bytes that were sent;
- `show`, `normalise` and `answer` with --capture write for each direction what they write for the bytes that were sent;
- `show --capture` has the same lines of both directions, each PDU with its notes or as an object, too;
- `compare --capture` finds no difference from the first capture.

It wants root, unshare and ip, since it runs in a network of its own, which has a loopback device alone. What is not installed
is skipped, with a word. PROGRAM is crates/lanthovur/out/lanthovur if none is named; `./lanthovur </dev/null` builds it. One
without proofs takes three quarters of a second for each of a few thousand runs. With --quick one capture is made of each
session, two are put out of order, and notes, objects, `answer` and `compare` are looked at in two captures alone. The last
line is 'N passed, M failed, K skipped'. With --keep the captures and streams stay in FOLDER.
"""
import argparse
import ipaddress
import json
import os
import random
import re
import signal
import subprocess
import sys
import tempfile
from concurrent.futures import ThreadPoolExecutor
from functools import lru_cache
from pathlib import Path

sys.dont_write_bytecode = True
from mangle import mangled
from run import kinds_of
from shuffle import shuffled
from taps import RECORDERS, Relay, Serve, Tapped, Tgt, missing, recorded, traced

TOP = Path(__file__).resolve().parents[2]
PROGRAM = TOP / "crates/lanthovur/out/lanthovur"
SIZE = 8 << 20
SECONDS = 300
# The words that begin this script anew in a network of its own.
APART = ["unshare", "--net", "sh", "-c", 'ip link set lo up && exec "$0" "$@"']
ENDS = ("initiator", "target")


# ---- sessions: the programs that each one wants, its command, and the seconds that the relay waits at each piece

def sessions(room):
    data = Path(room) / "source.img"
    data.write_bytes(random.Random(7).randbytes(1 << 19))
    writes = ["-c", "write -P 0x5a 0 300k", "-c", "flush", "-c", "read -P 0x5a 0 300k", "-c", "write -z 1M 64k"]
    at_once = ["-c", "aio_write -P 1 0 64k", "-c", "aio_write -P 2 64k 64k", "-c", "aio_read 0 32k", "-c", "aio_flush"]
    return {
        "iscsi-inq": ("iscsi-inq", ["iscsi-inq", "URL"], 0),
        "iscsi-inq, serial numbers": ("iscsi-inq", ["iscsi-inq", "-e", "1", "-c", "128", "URL"], 0),
        "iscsi-readcapacity16": ("iscsi-readcapacity16", ["iscsi-readcapacity16", "URL"], 0),
        "iscsi-ls": ("iscsi-ls", ["iscsi-ls", "PORTAL"], 0),
        "iscsi-perf": ("iscsi-perf", ["iscsi-perf", "-b", "16", "-m", "4", "-t", "1", "URL"], 0.02),
        "iscsi-test-cu": ("iscsi-test-cu", ["iscsi-test-cu", "--dataloss", "-t", "ALL.Write10.Simple", "URL"], 0),
        "qemu-img convert": ("qemu-img", ["qemu-img", "convert", "-n", "-f", "raw", "-O", "raw", data, "URL"], 0),
        "qemu-img compare": ("qemu-img", ["qemu-img", "compare", "-f", "raw", "-F", "raw", data, "URL"], 0),
        "qemu-io": ("qemu-io", ["qemu-io", "-f", "raw", *writes, "URL"], 0),
        "qemu-io at once": ("qemu-io", ["qemu-io", "-f", "raw", *at_once, "URL"], 0),
    }


SCRIPT = b"tur 0\ninquiry 0 36\ncapacity\nluns\nwrite 0 200 5a\nsync 0 0\nread 0 200\nread 2048 1\nping 6162\nlogout\n"


def tapped_session(target, command, delay):
    """What both ends of a relay saw of a session."""
    relay = Relay(("127.0.0.1", target.port), delay)
    portal = f"iscsi://127.0.0.1:{relay.port}"
    words = {"URL": f"{portal}/{target.name}/{target.unit}", "PORTAL": portal}
    subprocess.run([words.get(word, word) for word in command], stdin=subprocess.DEVNULL, capture_output=True, timeout=SECONDS)
    return relay.close()


def traced_session(command, **how):
    """What the sockets of a program sent and received."""
    return traced(command, **how)[1]


# ---- what the program says

@lru_cache(maxsize=None)
def run(words, data=b""):
    ran = subprocess.run([PROGRAM, *words], input=data, capture_output=True, timeout=SECONDS)
    return ran.returncode, ran.stdout, ran.stderr.decode()


def told(end):
    """An end as `connections` writes it."""
    address, port = end
    return f"[{address}]:{port}" if ":" in address else f"{address}:{port}"


class Checks:
    """Counts what is so and what is not."""

    def __init__(self):
        self.passed = self.failed = 0

    def check(self, what, is_so, seen=""):
        if is_so:
            self.passed += 1
        else:
            self.failed += 1
            print(f"FAILED {what}: {seen}", flush=True)


def listed(checks, name, path, tapped):
    """Compares the lines of `connections`; gives each connection with its number."""
    status, lines, _ = run(("connections", str(path)))
    rows = [line.split(" ") for line in lines.decode().splitlines()]
    due = [[told(one.initiator), told(one.target), str(len(one.sent["initiator"])), str(len(one.sent["target"])), "login"] for one in tapped]
    left, found = list(enumerate(due)), []
    for row in rows:
        at = next((at for at, other in left if other == row[1:]), None)
        if at is not None:
            left = [pair for pair in left if pair[0] != at]
            found.append((int(row[0]), tapped[at]))
    numbers = [row[0] for row in rows] == [str(number) for number in range(len(rows))]
    checks.check(f"{name}: connections", status == 0 and numbers and len(found) == len(rows) == len(due), f"{rows}, due {due}")
    return found


def one_direction(checks, name, path, number, end, stream, in_full):
    """Compares what is written for a direction with what is written for the bytes that were sent."""
    where = ("--capture", str(path), "--connection", str(number))
    for words in (("show",), ("normalise",), ("show", "--explain", "--json"))[:3 if in_full else 2]:
        status, out, err = run(words, stream)
        due = status, out, f"{path}: connection {number}: {err}" if err else ""
        seen = run((words[0], *where, "--from", end, *words[1:]))
        checks.check(f"{name}: {' '.join(words)} of {number} from {end}", seen == due and (out or not stream), f"{seen[::2]}, due {due[::2]}")
    if end == "initiator" and in_full:
        status, out, err = run(("answer", "--size", "8M"), stream)
        seen = run(("answer", *where, "--size", "8M"))
        checks.check(f"{name}: answer to {number}", seen[:2] == (status, out), f"{seen[::2]}, due {status} {err}")


def forms(checks, name, path, lines):
    """Compares the lines with notes, and the objects, with those of `show --capture`."""
    noted = run(("show", "--capture", str(path), "--explain"))[1].decode().splitlines()
    objects = [json.loads(line) for line in run(("show", "--capture", str(path), "--json"))[1].decode().splitlines()]
    checks.check(f"{name}: --explain", [line for line in noted if line[:1] != " "] == lines, "its lines are not those without")
    marks = [(str(each["connection"]), each["time"], ">" if each["from"] == "initiator" else "<", str(each["place"]), each["kind"]) for each in objects]
    due = [(number, float(time), *rest) for number, time, *rest in (line.split(" ")[:5] for line in lines)]
    checks.check(f"{name}: --json", marks == due, "its objects are not those of the lines")


def interleaved(checks, name, path, found, in_order):
    """Compares the lines of both directions with those of each one, and gives them."""
    lines = run(("show", "--capture", str(path)))[1].decode().splitlines()
    for number, one in found:
        own = [line for line in lines if line.startswith(f"{number} ")]
        times = [float(line.split(" ")[1]) for line in own]
        checks.check(f"{name}: times of {number}", times[0] >= 0 and (times == sorted(times) or not in_order), "they go back")
        for end, mark in zip(ENDS, "><"):
            due = run(("show",), one.sent[end])[1].decode().splitlines()
            seen = [line.split(" ", 3)[3] for line in own if line.split(" ")[2] == mark]
            checks.check(f"{name}: show of both, {number} from {end}", seen == due, f"{len(seen)} lines, due {len(due)}")
    checks.check(f"{name}: show of both", len(lines) == sum(line.split(" ")[0] in {str(number) for number, _ in found} for line in lines), "other lines")
    return lines


def same_as(checks, name, path, found, first, first_found):
    """Compares a capture with the first one by `compare`."""
    for number, one in found:
        other = next(other for other, two in first_found if two.sent == one.sent)
        for end in ENDS:
            words = ("compare", "--capture", str(first), str(path), "--connection", f"{other},{number}", "--from", end)
            seen, due = run(words), run(("show",), one.sent[end])[0]
            checks.check(f"{name}: compare {number} from {end}", due or seen == (0, b"", ""), seen)


def look(checks, name, path, tapped, in_order, first=None, in_full=True):
    """All checks of one capture, or those of its directions alone. Gives its connections with their numbers."""
    found = listed(checks, name, path, tapped)
    for number, one in found:
        for end in ENDS:
            one_direction(checks, name, path, number, end, one.sent[end], in_full)
    lines = interleaved(checks, name, path, found, in_order)
    if in_full:
        forms(checks, name, path, lines)
    if first and in_full:
        same_as(checks, name, path, found, *first)
    return found


# ---- captures that are made of others

def moved(tapped, kinds):
    """The connections of a capture that mangle.py made with these kinds."""
    def six(end):
        return str(ipaddress.ip_address(b"\xfd" + bytes(11) + ipaddress.ip_address(end[0]).packed)), end[1]

    if "ipv6" in kinds:
        tapped = [Tapped(six(one.initiator), six(one.target), one.sent) for one in tapped]
    return tapped * (2 if "reuse" in kinds else 1)


def others(room, paths, tapped, chance, words):
    """Captures with packets out of order, each with its name and its connections."""
    classic = next(path for path in paths if path.stem in ("tcpdump", "dumpcap-classic"))
    for number in range(1 if words.quick else words.made):
        kinds = kinds_of(chance) + (",keepalive" if chance.random() < 0.3 else "")
        path = Path(room) / f"mangled-{number}.{'pcapng' if ',ng' in kinds else 'pcap'}"
        path.write_bytes(mangled(classic, chance.randrange(2**31), kinds)[0])
        yield f"made with {kinds}", path, moved(tapped, kinds.split(","))
    for source in paths[1:3] if words.quick else paths:
        path = Path(room) / f"shuffled-{source.name}"
        path.write_bytes(shuffled(source.read_bytes(), random.Random(chance.random())))
        yield f"{source.name} out of order", path, tapped


def trial(checks, name, room, job, words, chance):
    """Records a session and looks at all captures of it."""
    tapped, paths, lost = recorded(room, [name for name, (how, _) in RECORDERS.items() if not missing(how[0])], job)
    for number, one in enumerate(tapped):
        for end in ENDS:
            (Path(room) / f"{number}.{end}").write_bytes(one.sent[end])
    enough = tapped and all(one.sent[end] for one in tapped for end in ENDS)
    checks.check(f"{name}: the taps", enough and lost == 0, f"{len(tapped)} connections, {lost} packets lost")
    if not enough:
        return
    first = (paths[0], look(checks, f"{name}, {paths[0].name}", paths[0], tapped, True))
    rest = [(path.name, path, tapped, True) for path in paths[1:]]
    rest += [(*other, False) for other in others(room, paths, tapped, chance, words)]
    rest = [(*each, first, not words.quick or number == len(paths) - 1) for number, each in enumerate(rest)]
    with ThreadPoolExecutor(3) as pool:
        list(pool.map(lambda each: look(checks, f"{name}, {each[0]}", *each[1:]), rest))
    run.cache_clear()
    counts = ", ".join(f"{len(one.sent['initiator'])} and {len(one.sent['target'])}" for one in tapped)
    print(f"{name}: {1 + len(rest)} captures; bytes {counts}", flush=True)


def run_with(checks, target, words, keep, chance):
    """All sessions with a target. Gives how many were skipped."""
    skipped = 0
    with tempfile.TemporaryDirectory() as room:
        chosen = {name: one for name, one in sessions(room).items() if words.only in f"{target.title}, {name}"}
        lists = target is Tgt and words.only in "tgt, iscsi-ls -s" and not missing("iscsi-ls", "strace")
        if not chosen and not lists:
            return 0
        served = target(PROGRAM, room, SIZE)
        try:
            for name, (wanted, command, delay) in chosen.items():
                if missing(wanted):
                    print(f"skipped {target.title}, {name}: {wanted} is not installed")
                    skipped += 1
                    continue
                trial(checks, f"{target.title}, {name}", keep(f"{target.title}-{name}"), lambda: tapped_session(served, command, delay), words, chance)
            if lists:
                command = ["iscsi-ls", "-s", f"iscsi://127.0.0.1:{served.port}"]
                trial(checks, "tgt, iscsi-ls -s", keep("tgt-iscsi-ls-s"), lambda: traced_session(command), words, chance)
        finally:
            served.close()
    return skipped


def main():
    parser = argparse.ArgumentParser(description=__doc__, formatter_class=argparse.RawDescriptionHelpFormatter)
    parser.add_argument("program", nargs="?", default=str(PROGRAM), help="the program that reads captures")
    parser.add_argument("--made", type=int, default=3, help="how many captures are made of each classic one")
    parser.add_argument("--quick", action="store_true", help="fewer captures and checks of each session")
    parser.add_argument("--seed", type=int, default=1, help="what chance begins with")
    parser.add_argument("--only", default="", metavar="WORD", help="sessions with this word in their name alone")
    parser.add_argument("--keep", metavar="FOLDER", help="where captures and streams stay")
    words = parser.parse_args()
    if "CAPTURES_APART" not in os.environ:
        if os.geteuid() or (left := missing("unshare", "ip")) or len(missing("tcpdump", "dumpcap")) == 2:
            print(f"skipped all: {'it wants root' if os.geteuid() else 'not installed: ' + ', '.join(left or ['tcpdump and dumpcap'])}")
            print("0 passed, 0 failed, 1 skipped")
            return
        os.execvpe(APART[0], [*APART, sys.executable, *sys.argv], {**os.environ, "CAPTURES_APART": "yes"})
    globals()["PROGRAM"] = Path(words.program).resolve()
    if not PROGRAM.is_file():
        sys.exit(f"there is no program {PROGRAM}: `./lanthovur </dev/null` builds it")
    # What was started has to be ended, also if this is ended early.
    signal.signal(signal.SIGTERM, lambda *_: sys.exit(1))
    checks, skipped, chance = Checks(), 0, random.Random(words.seed)
    with tempfile.TemporaryDirectory(prefix="live-") as folder:
        def keep(name):
            room = Path(words.keep or folder) / re.sub("[^a-z0-9-]+", "-", name)
            room.mkdir(parents=True, exist_ok=True)
            return room

        Path(folder).chmod(0o755)
        for name in missing("tcpdump", "dumpcap", "strace"):
            print(f"skipped what {name} does: it is not installed")
            skipped += 1
        for target in (Tgt, Serve):
            if left := missing(*target.wants):
                print(f"skipped {target.title}: {', '.join(left)} not installed")
                skipped += 1
                continue
            skipped += run_with(checks, target, words, keep, chance)
        if words.only in "loop" and not missing("strace"):
            command = [PROGRAM, "loop", "--size", "1M", "--piece", "4000"]
            trial(checks, "loop", keep("loop"), lambda: traced_session(command, input=SCRIPT), words, chance)
    print(f"{checks.passed} passed, {checks.failed} failed, {skipped} skipped")
    sys.exit(1 if checks.failed else 0)


if __name__ == "__main__":
    main()
