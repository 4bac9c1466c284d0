#!/usr/bin/env python3
"""Serves an image of a Ceph cluster by `serve --nbd` and qemu-nbd, and looks at what is left of it.

    tools/ceph/run.py [--kills N] [--only WORD] [PROGRAM]

PROGRAM is crates/lanthovur/out/lanthovur if none is named; `./lanthovur </dev/null` builds it. All is done on 127.0.0.1 and
in a folder of its own below TMPDIR, with a cluster by tools/ceph/cluster.py: a monitor and three OSDs, each block in three
copies. It wants the Debian packages ceph-mon, ceph-osd, ceph-common, qemu-utils and qemu-block-extra; one case also wants
e2fsprogs, and one libiscsi-bin. What isn't there is skipped, with a word. Each kind of kill is done N times (3 if not said).
--only runs the cases whose name has this word. The last line is 'N passed, M failed, K skipped'.
"""
import argparse
import contextlib
import os
import random
import signal
import subprocess
import sys
import tempfile
import time

import cluster as ceph

TOP = os.path.dirname(os.path.dirname(os.path.dirname(os.path.abspath(__file__))))
sys.path.append(f"{TOP}/tools")

# its servers and services, and those of lasting: initiators, and writers that are interrupted
from nbd import run as nbd

lasting = nbd.lasting
Service, Skipped, want, ran, qemu = nbd.Service, lasting.Skipped, lasting.want, lasting.ran, lasting.qemu
BLOCK, MIB, FAILED = lasting.BLOCK, lasting.MIB, lasting.FAILED
# With four daemons beside it all takes longer, on a busy machine above all.
lasting.SECONDS = 300
SIZE = BLOCK * lasting.BLOCKS
WAIT = nbd.WAIT
GONE = "connection lost: the server does not answer"


class Image:
    """An image of the cluster, of 16 MiB, which is made anew."""

    def __init__(self, cluster):
        self.cluster = cluster
        cluster.ran("rbd", "rm", "--no-progress", "rbd/disk", well=False)
        cluster.ran("rbd", "create", "--size", f"{SIZE}B", "rbd/disk")

    def server(self):
        """qemu-nbd over the image."""
        try:
            return nbd.qemu_nbd(f"rbd:rbd/disk:conf={self.cluster.configuration}")
        except Skipped as reason:
            raise OSError(reason) from None

    def bytes(self):
        """What the cluster holds of it, as its own program tells that."""
        return self.cluster.ran("rbd", "export", "--no-progress", "rbd/disk", "-")


@contextlib.contextmanager
def served(program, image, *words):
    """A qemu-nbd over an image, and `serve` over it: a machine that serves the disk."""
    with image.server() as server, Service(program, f"{server.word}/disk", *words) as service:
        yield server, service


def of_server(service):
    """The lines of a service, once it is killed, that are about its server."""
    return [line.replace(service.word, "X") for line in service.lines() if line.startswith(service.word)]


def same(path, url):
    """Whether a file and a disk are equal."""
    return ran("qemu-img", "compare", "-f", "raw", "-F", "raw", path, url)[0] == 0


class Writer(lasting.Writer):
    """A writer that gives each piece a byte of its own, keeps what the disk has to hold, and notes its longest wait."""

    def __init__(self, url, pieces):
        super().__init__(url)
        self.pieces, self.held, self.longest = pieces, bytearray(SIZE), 0.0

    def listen(self):
        began = time.monotonic()
        super().listen()
        self.longest = max(self.longest, time.monotonic() - began)

    def write_to(self, count):
        """Begins writes until this number of pieces is under way or answered."""
        for number in range(self.sent, count):
            (offset, size), byte = self.pieces[number], number % 255 + 1
            self.held[offset : offset + size] = bytes([byte]) * size
            # with at most eight under way it returns where this piece is the last one
            self.write(self.pieces[: number + 1], byte, max(0, number - 6))

    def finish(self):
        """Waits for all answers. Gives how many there were."""
        self.write_to(len(self.pieces))
        self.write(self.pieces, 0, len(self.pieces))
        return len(self.answered())


def written(service):
    """Writes a whole disk. Gives whether each write was answered, and what the disk has to hold."""
    writer = Writer(service.url, lasting.plan())
    try:
        return writer.finish() == len(writer.pieces), writer.held
    finally:
        writer.end()


def whole(image, service, held, room):
    """Whether a disk is what its writer had, by an initiator and by the cluster."""
    with open(f"{room}/held", "wb") as file:
        file.write(held)
    seen = [same(f"{room}/held", service.url), image.bytes() == held]
    return seen == [True, True] or seen


# ---- cases: each gives True, or what was seen


def file_system(program, room, cluster):
    """A file system is copied onto an image of the cluster, compared on both sides, and read from the cluster."""
    want("mkfs.ext4", "e2fsck")
    os.mkdir(f"{room}/files")
    lasting.noise(f"{room}/files/held", 3 * MIB)
    source, image = f"{room}/source", Image(cluster)
    seen = [ran("mkfs.ext4", "-q", "-d", f"{room}/files", source, f"{SIZE // 1024}k")[0]]
    with served(program, image) as (_, service):
        seen += [ran(*lasting.CONVERT, source, service.url)[0], same(source, service.url), service.lines()]
    with open(f"{room}/out", "wb") as file:
        file.write(image.bytes())
    seen += [lasting.bytes_of(source) == lasting.bytes_of(f"{room}/out"), ran("e2fsck", "-fn", f"{room}/out")[0]]
    return seen == [0, 0, True, [], True, 0] or seen


def interrupted(program, room, image, interrupt):
    """Writes a whole disk, with something done in the middle. Each write has to be answered, and what the disk holds is compared.
    Gives what was seen, and the longest wait for an answer."""
    with served(program, image) as (_, service):
        writer = Writer(service.url, lasting.plan())
        try:
            writer.write_to(random.randint(10, len(writer.pieces) - 10))
            interrupt()
            answered = writer.finish()
        finally:
            writer.end()
        # an initiator that waits for long may leave its session and log in anew, which is a line, too
        seen = [answered == len(writer.pieces), whole(image, service, writer.held, room), of_server(service)]
    return seen == [True, True, []] or seen, writer.longest


def killed_osd(program, room, cluster, kills):
    """An OSD is killed in the middle of writes: each write is answered, and all that was written is there, with two copies and with three."""
    image, longest = Image(cluster), 0.0
    for number in range(kills):
        seen, waited = interrupted(program, room, image, lambda: cluster.kill_osd(number % 3))
        longest = max(longest, waited)
        with_two = image.bytes()
        cluster.mend()
        if seen is not True or image.bytes() != with_two:
            return f"kill {number + 1}: {seen}"
    print(f"          {kills} kills: the longest wait for an answer was {longest:.1f} s")
    return True


def stopped_osd(program, room, cluster):
    """An OSD is stopped in the middle of writes: they wait until the others count it out, and each is answered. It comes back and changes nothing."""
    image = Image(cluster)
    seen, waited = interrupted(program, room, image, lambda: cluster.signal_osd(1, signal.SIGSTOP))
    held = image.bytes()
    cluster.mend()
    print(f"          the longest wait for an answer was {waited:.1f} s, of {WAIT}")
    return (seen is True and image.bytes() == held) or seen


def too_few(program, room, cluster):
    """Two of three OSDs are killed: a write waits, and `serve` gives the server up and says so. With the OSDs it is served again."""
    image = Image(cluster)
    with served(program, image) as (server, service):
        seen = qemu(service.url, "write -P 1 0 1M", "read -P 1 0 1M")
        for number in (0, 1):
            cluster.kill_osd(number)
        seen += qemu(service.url, "write -P 2 1M 64k") + qemu(service.url, "read -P 1 0 4k")
        lines = of_server(service)
        cluster.mend()
        with Service(program, f"{server.word}/disk") as again:
            seen += qemu(again.url, "read -P 1 0 1M", "write -P 3 1M 1M", "read -P 3 1M 1M")
    seen.append(image.bytes()[: 2 * MIB] == b"\1" * MIB + b"\3" * MIB)
    return (seen == [True, True, FAILED, FAILED, True, True, True, True] and lines == [f"X: {GONE}"]) or (seen, lines)


class Victim:
    """What lasting's writers take for a service: a disk, and what ends where it is killed."""

    def __init__(self, service, *ends):
        self.url, self.process, self.ends = service.url, service.process, (service.kill, *ends)

    def kill(self):
        for end in self.ends:
            end()


def killed_in_writes(kills, image, round_of):
    """Writes an image and has something killed in the middle, again and again. `round_of` gives, within a context, a victim; behind it the
    image is at rest. Gives what is wrong, or nothing."""
    tally, done, before = lasting.Tally(), 0, image.bytes()
    while done < kills:
        byte, pieces = lasting.absent(before), lasting.plan()
        with round_of() as victim:
            sent, answered = lasting.written_until_killed(victim, pieces, byte)
        after = image.bytes()
        wrong = tally.judge(before, after, pieces[:sent], answered, byte) or lasting.untouched(before, after, pieces[sent:])
        if wrong:
            return f"kill {done + 1}: {wrong}"
        done += len(answered) < sent
        before = after
    print(f"          {done} kills: {tally.text()}")
    return None


def killed_together(program, room, cluster, kills):
    """`serve`, qemu-nbd and all OSDs are killed at once in the middle of writes: what was answered is there, each other block is old or new."""
    image = Image(cluster)

    @contextlib.contextmanager
    def round_of():
        with served(program, image) as (server, service):
            yield Victim(service, server.kill, *[lambda at=at: cluster.signal_osd(at, signal.SIGKILL) for at in ceph.OSDS])
        for number in ceph.OSDS:
            cluster.kill_osd(number)
        cluster.mend()

    wrong = killed_in_writes(kills, image, round_of)
    return wrong is None or wrong


def other_machine(program, room, cluster):
    """`serve` and qemu-nbd end, and others serve the image at another port, with the same serial number: the disk is the same one."""
    want("iscsi-inq")
    image, serial = Image(cluster), ("--serial", "DISK-7")
    with served(program, image, *serial) as (_, service):
        (answered, held), told = written(service), names(service)
    with served(program, image, *serial) as (_, service):
        seen = [answered, names(service) == told, whole(image, service, held, room)]
        seen += qemu(service.url, "write -P 7 0 1M", "read -P 7 0 1M")
    seen.append(image.bytes() == b"\7" * MIB + held[MIB:])
    return seen == [True] * 6 or (seen, told)


def names(service):
    """What a disk tells of its serial number and its names."""
    return [ran("iscsi-inq", "-e", "1", "-c", page, service.url)[1] for page in ("128", "131")]


def lost_machine(program, room, cluster, kills):
    """`serve` and qemu-nbd are killed in the middle of writes, and others serve the image at another port: what was answered is there."""
    image = Image(cluster)

    @contextlib.contextmanager
    def round_of():
        with served(program, image) as (server, service):
            yield Victim(service, server.kill)

    if wrong := killed_in_writes(kills, image, round_of):
        return wrong
    held = image.bytes()
    with served(program, image) as (_, service):
        began = time.monotonic()
        seen = qemu(service.url, "write -P 7 0 4k", "read -P 7 0 4k")
        print(f"          the first write after a kill took {time.monotonic() - began:.1f} s, of {WAIT}")
        seen.append(whole(image, service, b"\7" * 4096 + held[4096:], room))
    return seen == [True] * 3 or seen


def hung_machine(program, room, cluster):
    """qemu-nbd is stopped in the middle of writes, another one writes the image, and the first one goes on: none of its writes is done any more."""
    image = Image(cluster)
    with served(program, image) as (old, hung):
        first = Writer(hung.url, lasting.plan())
        first.write_to(len(first.pieces) // 2)
        old.process.send_signal(signal.SIGSTOP)
        try:
            with served(program, image) as (_, service):
                answered, held = written(service)
                old.process.send_signal(signal.SIGCONT)
                # the old service has its answer by then, which is an error
                time.sleep(5)
                seen = [answered, qemu(hung.url, "write -P 9 0 64k") == [FAILED], whole(image, service, held, room)]
        finally:
            old.process.send_signal(signal.SIGCONT)
            first.end()
    return seen == [True, True, True] or (seen, of_server(hung))


def two_services(program, room, cluster):
    """Two services share an image with --read-only, and no block changes. Without the word nothing keeps the second one out."""
    image, alone = Image(cluster), "--read-only"
    with served(program, image) as (_, service):
        answered, held = written(service)
    with served(program, image, alone) as (_, one), served(program, image, alone) as (_, other):
        seen = ["write protected" in ran("qemu-io", "-f", "raw", "-c", "write -P 7 0 64k", each.url)[1] for each in (one, other)]
        seen += [whole(image, each, held, room) for each in (one, other)]
    with served(program, image) as (_, one), served(program, image) as (_, other):
        seen += qemu(one.url, "write -P 7 0 4k") + qemu(other.url, "write -P 8 4k 4k", "read -P 7 0 4k")
        seen += qemu(one.url, "write -P 9 8k 4k", "read -P 8 4k 4k")
    return answered and seen == [True] * 9 or (answered, seen)


CASES = [
    file_system,
    other_machine,
    two_services,
    killed_osd,
    stopped_osd,
    too_few,
    killed_together,
    lost_machine,
    hung_machine,
]
KILLS = (killed_osd, killed_together, lost_machine)


def lacking():
    """What this machine lacks, or nothing."""
    missing = [name for name in (*ceph.PROGRAMS, "qemu-img", "qemu-io", "qemu-nbd", "stdbuf") if not lasting.shutil.which(name)]
    if missing:
        return f"not installed: {', '.join(missing)}"
    if "Unknown protocol" in ran("qemu-img", "info", "rbd:rbd/disk:conf=/nowhere")[1]:
        return "QEMU does not have rbd here (Debian: qemu-block-extra)"
    return None


def main():
    parser = argparse.ArgumentParser()
    parser.add_argument("--kills", type=int, default=3)
    parser.add_argument("--only", default="")
    parser.add_argument("program", nargs="?", default=f"{TOP}/crates/lanthovur/out/lanthovur")
    asked = parser.parse_args()
    program = os.path.abspath(asked.program)
    if not os.path.isfile(program):
        sys.exit(f"there is no program {program}: `./lanthovur </dev/null` builds it")
    counts = {"passed": 0, "failed": 0, "skipped": 0}

    def tell(case, outcome, what, began):
        counts[outcome] += 1
        print(f"{outcome:8} {time.monotonic() - began:5.1f} s  {case.__doc__.strip()} {what}", flush=True)

    cases = [case for case in CASES if asked.only in case.__name__]
    if reason := lacking():
        for case in cases:
            tell(case, "skipped", reason, time.monotonic())
    else:
        with tempfile.TemporaryDirectory() as folder, ceph.Cluster(f"{folder}/ceph") as cluster:
            for case in cases:
                began = time.monotonic()
                outcome, what = lasting.outcome_of(case, program, cluster, *([asked.kills] if case in KILLS else []))
                tell(case, outcome, what, began)
                cluster.mend()
            print(f"          the cluster had {cluster.memory() / MIB:.0f} MiB in memory")
    print(", ".join(f"{count} {outcome}" for outcome, count in counts.items()))
    return 1 if counts["failed"] else 0


if __name__ == "__main__":
    sys.exit(main())
