#!/usr/bin/env python3
"""Measures iSCSI targets side by side with a client of this project's own, and writes sections of docs/SPEED.md.

    tools/speed/targets.py [--grow] [--deep] [--rounds N] [--seconds S] [--range BYTES] [--only WORDS] [--write] [PROGRAM]

It takes an idle machine. The client is client.c (cc), which stands on sockets alone: it looks at each byte that it reads,
and at the header numbers. The targets are `serve`, `serve --at-once`, tgt, istgt and floor.c, a target without a disk; what
isn't installed is skipped, with a word. --only names some of them: serve,at-once,tgt,istgt,floor.

They are measured in turn, N rounds of it (5 if not said), of S seconds each of reads and of writes (1). The tables have
the median, the least and the most: commands a second, and the microseconds of processor time that the target took for a
command, by /proc, which counts hundredths of a second. A round writes all places first, BYTES of the disk (64 MiB), and reads what it wrote last once more.

Without --grow: reads and writes of 4 KiB to 1 MiB with 1 and 8 outstanding, with --deep also 32; then with segments and
bursts of 131,072 bytes at both ends, and no initial R2T. With --grow, of `serve --at-once` and tgt: 1, 8 and 64 sessions at
once; disks of 2^20 and 2^40 blocks with more and more extents of 64 blocks written (1.6 GB of memory for each target); and 1
to 8 outstanding; each with the resident memory. PROGRAM is crates/lanthovur/out/lanthovur if none is named;
`./lanthovur </dev/null` builds it. One that was built without proofs is slow: it wants `--range 1M` and `--extents 100`.

With --write a section takes the place of the one in docs/SPEED.md, or comes last. The last line is 'N passed, M failed': as
many runs of the client found all as it should be, and as many did not.
"""
import argparse
import functools
import os
import re
import shutil
import signal
import subprocess
import sys
import tempfile
import time
from pathlib import Path

from run import NAME, Row, compiled, free_port, missing

HERE = Path(__file__).resolve().parent
PAGE = HERE.parents[1] / "docs/SPEED.md"
PROGRAM = HERE.parents[1] / "crates/lanthovur/out/lanthovur"
SIDE_BY_SIDE, GROWTH = "Targets side by side", "How cost grows"
SIZES = [4096, 65536, 262144, 1048576]
BLOCK, EXTENT = 512, 64
# The disk of floor.c, and of the others that are measured beside it, in blocks.
BLOCKS = 131072
# Segments and bursts of the second table, in bytes.
LONG = 131072
# Disks and how many of their extents are written.
EXTENTS = [(1 << 20, 1000), (1 << 20, 16384), (1 << 40, 1000), (1 << 40, 50000)]
# Seconds after which a client hangs.
PATIENCE = 600
LINE = re.compile(r"^(fill|read|write): ([\d.]+) commands/s, [\d.]+ MB/s, ([\d.]+) us of the target, ([\d.]+) us of the client, (\d+) kB", re.M)
NEGOTIATED = re.compile(r"^negotiated: (.*)$", re.M)
REMARK = re.compile(r"^against the standard: \d+ (.*)$", re.M)

ISTGT = """
[Global]
  NodeBase "iqn.2026-01.example"
  PidFile ROOM/istgt.pid
  AuthFile ROOM/auth.conf
  MediaDirectory ROOM
  LogFacility "local7"
  Timeout 60
  NopInInterval 60
  DiscoveryAuthMethod None
  MaxSessions 64
  MaxConnections 1
  MaxR2T 32
  MaxOutstandingR2T 1
  DefaultTime2Wait 2
  DefaultTime2Retain 0
  FirstBurstLength 65536
  MaxBurstLength 262144
  MaxRecvDataSegmentLength 262144
  InitialR2T Yes
  ImmediateData Yes
  DataPDUInOrder Yes
  DataSequenceInOrder Yes
  ErrorRecoveryLevel 0
[UnitControl]
  AuthMethod None
  Portal UC1 127.0.0.1:CONTROL
  Netmask 127.0.0.1
[PortalGroup1]
  Portal DA1 127.0.0.1:PORT
[InitiatorGroup1]
  InitiatorName "ALL"
  Netmask 127.0.0.0/8
[LogicalUnit1]
  TargetName "NAME"
  Mapping PortalGroup1 InitiatorGroup1
  AuthMethod None
  UseDigest Auto
  UnitType Disk
  QueueDepth 32
  LUN0 Storage DISK auto
"""


# ---- targets


class Target:
    """A target's process. Its disk has so many blocks, of which so many extents are written."""

    title, lun, wanted, stages = "", 0, (), "frwv"

    def __init__(self, room, program, blocks, extents=BLOCKS // EXTENT, is_long=False):
        self.room, self.program, self.blocks, self.extents, self.is_long = room, program, blocks, extents, is_long
        self.port, self.disk = free_port(), None
        self.process = subprocess.Popen([str(word) for word in self.command()], stdin=subprocess.DEVNULL,
                                        stdout=subprocess.DEVNULL, stderr=subprocess.DEVNULL)
        try:
            self.prepare()
            self.wait_until_ready()
        except BaseException:
            self.end()
            raise

    def prepare(self):
        """What else it wants, once it runs."""

    def wait_until_ready(self):
        """Waits until the client can log in and the disk is ready. istgt listens before that."""
        for _ in range(50):
            if self.process.poll() is not None:
                sys.exit(f"{self.title} ended with status {self.process.returncode} before it was ready")
            ran = subprocess.run(self.client("--do", ""), capture_output=True, text=True, timeout=PATIENCE)
            if not ran.returncode:
                return
            time.sleep(0.1)
        sys.exit(f"{self.title} is not ready: {ran.stderr.strip()}")

    def client(self, *words):
        """The client's command."""
        long = ["--segment", LONG, "--burst", LONG] if self.is_long else []
        command = [f"{self.room}/client", "127.0.0.1", self.port, NAME, self.lun, "--process", self.process.pid]
        return [str(word) for word in (*command, "--do", self.stages, *long, *words)]

    def file(self):
        """A file in memory for its disk."""
        self.disk = tempfile.NamedTemporaryFile(dir="/dev/shm")
        self.disk.truncate(self.blocks * BLOCK)
        return self.disk.name

    def end(self):
        self.process.kill()
        self.process.wait()
        if self.disk:
            self.disk.close()


class Serve(Target):
    """One connection after another, which is what these words alone ask for."""

    title = "`serve`"

    def command(self):
        return [self.program, "serve", "--port", self.port, "--blocks", self.blocks]


@functools.cache
def has_plain(program):
    """Whether a build has the word for the bare profile. Older ones have that profile without a word."""
    ran = subprocess.run([program, "serve", "--help"], capture_output=True)
    return b"--plain" in ran.stdout + ran.stderr


class AtOnce(Serve):
    title = "`serve --at-once`"

    def command(self):
        # Twice what its extents hold, so that the limit is far.
        memory = max(2 * self.extents * EXTENT * BLOCK, 256 << 20)
        # Short segments are those of the bare profile.
        short = ["--plain"] if has_plain(self.program) else []
        lengths = ["--segment", LONG, "--burst", LONG] if self.is_long else short
        return [*super().command(), "--at-once", 64, "--memory", memory, *lengths]


class Tgt(Target):
    title, lun, wanted = "tgt", 1, ("tgtd", "tgtadm")

    def command(self):
        # It names a socket file, and has to be small.
        self.control = self.port % 30000 + 1
        return ["/usr/sbin/tgtd", "-f", "-C", self.control, "--iscsi", f"portal=127.0.0.1:{self.port}"]

    def tell(self, *words, tries=1):
        """A word to the service, which takes none in its first moments."""
        command = ["/usr/sbin/tgtadm", "-C", str(self.control), "--lld", "iscsi", "--tid", "1", *words]
        for _ in range(tries):
            ran = subprocess.run(command, capture_output=True)
            if not ran.returncode:
                return
            time.sleep(0.2)
        sys.exit(f"{command}: {ran.stderr.decode()}")

    def prepare(self):
        self.tell("--mode", "target", "--op", "new", "-T", NAME, tries=50)
        self.tell("--mode", "logicalunit", "--op", "new", "--lun", "1", "-b", self.file())
        self.tell("--mode", "target", "--op", "bind", "-I", "ALL")
        lengths = ("MaxRecvDataSegmentLength", "MaxXmitDataSegmentLength", "MaxBurstLength")
        for name, value in [*((name, LONG) for name in lengths), ("InitialR2T", "No")] if self.is_long else []:
            self.tell("--mode", "target", "--op", "update", "--name", name, "--value", str(value))


    def end(self):
        super().end()
        for path in Path("/var/run/tgtd").glob(f"socket.{self.control}*"):
            path.unlink()


class Istgt(Target):
    title, wanted = "istgt", ("istgt",)

    def command(self):
        Path(f"{self.room}/auth.conf").touch(mode=0o600)
        text = ISTGT.replace("ROOM", self.room).replace("CONTROL", str(free_port())).replace("PORT", str(self.port))
        Path(f"{self.room}/istgt.conf").write_text(text.replace("NAME", NAME).replace("DISK", self.file()))
        return ["/usr/sbin/istgt", "-D", "-c", f"{self.room}/istgt.conf"]


class Floor(Target):
    # It forgets what is written.
    title, stages = "floor", "frw"

    def command(self):
        long = [LONG, LONG, LONG] if self.is_long else []
        return [f"{self.room}/floor", self.port, "client", *long]


TARGETS = {"serve": Serve, "at-once": AtOnce, "tgt": Tgt, "istgt": Istgt, "floor": Floor}


# ---- the client


class Measures:
    """How it is measured, and how the runs of the client ended."""

    def __init__(self, words, room):
        self.words, self.room = words, room
        self.passed, self.failed, self.share, self.remarks, self.negotiated = 0, 0, 0, set(), {}
        self.load = os.getloadavg()[0]

    def kinds(self, names):
        """Those of these targets that are asked for and installed."""
        return [TARGETS[name] for name in names if name in self.words.only and not missing(*TARGETS[name].wanted)]

    def started(self, kinds, *numbers, **more):
        """A process of each kind; all or none."""
        targets = []
        try:
            for kind in kinds:
                targets.append(kind(self.room, self.words.program, *numbers, **more))
        except BaseException:
            end_all(targets)
            raise
        return targets

    def places(self, size, least):
        """How many commands of this size the range has."""
        return max(self.words.range // size, least)

    def run(self, target, *words):
        """Runs the client: for each stage its commands a second, microseconds of the target and resident MB."""
        command = target.client("--seconds", self.words.seconds, *words)
        try:
            ran = subprocess.run(command, capture_output=True, text=True, timeout=PATIENCE)
            fault = "" if ran.returncode == 0 else ran.stderr.strip() or f"status {ran.returncode}"
        except subprocess.TimeoutExpired:
            fault = f"not done in {PATIENCE} seconds"
        if fault:
            self.failed += 1
            print(f"FAILED {target.title}, {' '.join(map(str, words))}: {fault}", flush=True)
            return {}
        self.passed += 1
        self.remarks |= {f"{target.title}: {what}" for what in REMARK.findall(ran.stdout)}
        self.negotiated[target.title + ", long" * target.is_long] = NEGOTIATED.search(ran.stdout)[1]
        found = {}
        for stage, rate, of_target, of_client, kilobytes in LINE.findall(ran.stdout):
            self.share = max(self.share, float(rate) * float(of_client) / 1e6)
            found[stage] = (float(rate), float(of_target), int(kilobytes) / 1000)
        return found


def end_all(targets):
    for target in targets:
        target.end()


class Cells:
    """What one target gives in one line of a table, over the rounds."""

    def __init__(self):
        self.rows = {}

    def add(self, found):
        for stage, numbers in found.items():
            for what, number in zip(("rate", "time", "memory"), numbers):
                self.rows.setdefault((stage, what), Row(stage)).values.append(number)

    def text(self, stage, what):
        digits = {"rate": 0, "time": 1, "memory": 1}[what]
        return self.rows[stage, what].text(digits) if (stage, what) in self.rows else "failed"

    def median(self, stage, what):
        return self.rows[stage, what].median if (stage, what) in self.rows else None


def in_turn(measures, targets, *words):
    """The cells of each target, by interleaved rounds."""
    cells = [Cells() for _ in targets]
    for _ in range(measures.words.rounds):
        for target, cell in zip(targets, cells):
            cell.add(measures.run(target, *words))
    return cells


def table(head, lines):
    return ["| " + " | ".join(head) + " |", "|---" * len(head) + "|", *("| " + " | ".join(line) + " |" for line in lines), ""]


# ---- side by side


def ratio(ours, theirs, stage, what):
    """A number of ours over one of theirs."""
    both = ours.median(stage, what), theirs.median(stage, what)
    return f"{both[0] / both[1]:.2f}" if all(both) else ""


def cells_table(measures, kinds, depths, is_long):
    """A table of all sizes, with a line for each number."""
    targets, lines = measures.started(kinds, BLOCKS, is_long=is_long), []
    titles = [target.title for target in targets]
    beside = [title for title in ("tgt", "floor") if title in titles[1:]]
    try:
        for depth in depths:
            for size in SIZES:
                cells = in_turn(measures, targets, "--size", size, "--depth", depth, "--places", measures.places(size, depth))
                for what, unit in (("rate", "{}s"), ("time", "µs a {}")):
                    for stage in ("read", "write"):
                        name = f"{size // 1024} KiB, {depth} outstanding: {unit.format(stage)}"
                        last = [ratio(cells[0], cells[titles.index(title)], stage, what) for title in beside]
                        lines.append([name, *(cell.text(stage, what) for cell in cells), *last])
    finally:
        end_all(targets)
    return table(["", *titles, *(f"{titles[0]} / {title}" for title in beside)], lines)


def side_by_side(measures):
    depths = (1, 8, 32) if measures.words.deep else (1, 8)
    tables = []
    for names, is_long in (("serve at-once tgt istgt floor", False), ("at-once tgt floor", True)):
        kinds = measures.kinds(names.split())
        if is_long:
            tables += [f"The same with segments and bursts of {LONG:,} bytes at both ends, and no initial R2T (long):", ""]
        tables += cells_table(measures, kinds, depths, is_long) if kinds else ["None of these targets is there.", ""]
    window = ["`serve` and the floor take eight commands at a time; the client holds the others back.", ""] if measures.words.deep else []
    return [f"## {SIDE_BY_SIDE}", "",
            *told(measures, "tools/speed/targets.py"),
            "Lines of reads and writes have commands a second. The others have the microseconds of processor time that the "
            "target took for one.", "", *window, *tables]


# ---- growth


GROWTH_HEAD = ["", "Target", "Reads", "µs a read", "Writes", "µs a write", "Resident MB"]


def growth_lines(measures, kinds, name, blocks, extents, words, fills=()):
    """Lines of one case, over processes of its own. Words for a stage that fills the disk first give one more column."""
    targets, lines = measures.started(kinds, blocks, extents), []
    try:
        filled = [Cells() for _ in targets]
        if fills:
            for target, cell in zip(targets, filled):
                cell.add(measures.run(target, "--do", "f", *fills))
        for target, cell, first in zip(targets, in_turn(measures, targets, *words), filled):
            new = [first.text("fill", "rate").split(" ")[0]] if fills else []
            stages = [cell.text(stage, what) for stage in ("read", "write") for what in ("rate", "time")]
            lines.append([name, target.title, *stages, cell.text("write", "memory"), *new])
    finally:
        end_all(targets)
    return lines


def growth(measures):
    kinds, sessions, extents, queues = measures.kinds(["at-once", "tgt"]), [], [], []
    for depth in (1, 8):
        for count in (1, 8, 64):
            words = ("--sessions", count, "--depth", depth, "--places", measures.places(4096, count * depth))
            sessions += growth_lines(measures, kinds, f"{count} session{'s' * (count > 1)}, {depth} outstanding", BLOCKS, BLOCKS // EXTENT, words)
    for blocks, most in EXTENTS:
        count = min(most, measures.words.extents)
        # Extents lie far from each other, and come in another order than that of their numbers.
        stride = blocks // count // EXTENT * EXTENT
        places = ("--places", count, "--stride", stride, "--step", 7919)
        name = f"2^{blocks.bit_length() - 1} blocks, {count:,} extents"
        extents += growth_lines(measures, kinds, name, blocks, count, places, ("--size", EXTENT * BLOCK, "--depth", 8, *places))
    for size in (4096, 65536):
        for depth in range(1, 9):
            words = ("--size", size, "--depth", depth, "--places", measures.places(size, depth))
            queues += growth_lines(measures, kinds, f"{size // 1024} KiB, {depth} outstanding", BLOCKS, BLOCKS // EXTENT, words)
    return [f"## {GROWTH}", "", *told(measures, "tools/speed/targets.py --grow"),
            "Each line has processes of its own. Reads and writes are commands a second, of 4 KiB if nothing else is said. "
            "The memory of tgt is without its disk, which is a file in memory.", "",
            "Sessions at once, in one process of the client; the outstanding commands are those of each:", "",
            *table(GROWTH_HEAD, sessions),
            "Extents that are written, one command outstanding. The last column has how many new ones were written in a second, "
            "with eight outstanding, one time:", "",
            *table([*GROWTH_HEAD, "New extents"], extents),
            "Outstanding commands of one session:", "",
            *table(GROWTH_HEAD, queues)]


# ---- the page


def told(measures, command):
    """What is said of a section's figures."""
    load = max(measures.load, os.getloadavg()[0])
    lines = [f"These are by `{command}`: the medians of {measures.words.rounds} rounds of {measures.words.seconds:g} seconds in turn, the "
             f"least and the most. The load was {load:.0f} on {os.cpu_count()} processors. The client is `tools/speed/client.c`, which "
             f"looks at all that it reads. It took at most {measures.share:.2f} of a processor."]
    lines += ["", "What was negotiated:", "", *(f"- {title}: {what}." for title, what in measures.negotiated.items())]
    if measures.remarks:
        lines += ["", "Against the standard, and without effect on the figures:", "", *(f"- {what}." for what in sorted(measures.remarks))]
    return [*lines, ""]


def write(title, lines):
    """Puts a section into the page."""
    page, text = PAGE.read_text(), "\n".join(lines).rstrip("\n") + "\n"
    found = re.search(rf"^## {title}\n.*?(?=^## |\Z)", page, re.M | re.S)
    if found:
        page = page[:found.start()] + text + ("\n" if page[found.end():] else "") + page[found.end():]
    else:
        page = page.rstrip("\n") + "\n\n" + text
    PAGE.write_text(page)


def bytes_of(word):
    """A number of bytes, or with K, M or G."""
    return int(word.rstrip("KMG")) << {"K": 10, "M": 20, "G": 30}.get(word[-1], 0)


def read_words():
    parser = argparse.ArgumentParser(description=__doc__, formatter_class=argparse.RawDescriptionHelpFormatter)
    parser.add_argument("program", nargs="?", default=str(PROGRAM), help="the program that serves")
    parser.add_argument("--grow", action="store_true", help="how cost grows with sessions, extents and queues")
    parser.add_argument("--deep", action="store_true", help="also 32 commands outstanding")
    parser.add_argument("--rounds", type=int, default=5, help="how often each is measured")
    parser.add_argument("--seconds", type=float, default=1, help="how long reads and writes last each time")
    parser.add_argument("--range", type=bytes_of, default=BLOCKS * BLOCK, help="how much of the disk is used, at most 64M")
    parser.add_argument("--extents", type=int, default=1 << 40, help="with --grow, at most so many written extents")
    parser.add_argument("--only", type=lambda word: word.split(","), default=list(TARGETS), help="targets, with commas between")
    parser.add_argument("--write", action="store_true", help="put the section into docs/SPEED.md")
    words = parser.parse_args()
    words.range = min(words.range, BLOCKS * BLOCK)
    if not set(words.only) <= set(TARGETS):
        parser.error(f"the targets are {', '.join(TARGETS)}")
    return words


def main():
    words = read_words()
    if set(words.only) & {"serve", "at-once"} and not os.path.isfile(words.program):
        sys.exit(f"there is no program {words.program}: `./lanthovur </dev/null` builds it")
    for name in words.only:
        for lacking in missing(*TARGETS[name].wanted):
            print(f"skipped {name}: {lacking} is not installed")
    # Whoever ends this ends the targets, too.
    signal.signal(signal.SIGTERM, lambda *_: sys.exit(143))
    room = tempfile.mkdtemp(prefix="targets-")
    try:
        if not compiled(room, "client") or not compiled(room, "floor"):
            sys.exit("cc is not installed, or refuses client.c or floor.c")
        measures = Measures(words, room)
        title, lines = (GROWTH, growth(measures)) if words.grow else (SIDE_BY_SIDE, side_by_side(measures))
    finally:
        shutil.rmtree(room, ignore_errors=True)
    print("\n".join(lines))
    if words.write:
        write(title, lines)
    print(f"{measures.passed} passed, {measures.failed} failed")
    return 1 if measures.failed else 0


if __name__ == "__main__":
    sys.exit(main())
