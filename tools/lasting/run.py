#!/usr/bin/env python3
"""Serves images by `serve --file` to real initiators, and looks at what is left of them.

    tools/lasting/run.py [--kills N] [--costs] [PROGRAM]

PROGRAM is crates/lanthovur/out/lanthovur if none is named; `./lanthovur </dev/null` builds it. All is done on 127.0.0.1 and
in a folder of its own below TMPDIR. It wants qemu-img and qemu-io (Debian: qemu-utils, qemu-block-extra); some cases also
want strace, e2fsprogs, or to be root, since they mount a file system in memory or need a loop device. What isn't there is
skipped, with a word. `serve` is killed N times (200 if not said) in the middle of writes. The last line is 'N passed, M
failed, K skipped'.

With --costs it measures instead, on an idle machine, in one run: commands a second and their ratio, of reads and of writes
of 4 KiB and of 64 KiB, with 1 and with 8 outstanding (tgt, libiscsi-dev, cc). It measures `serve --file` beside tgt over a file
that is opened to be written through, and `serve --file --write-back` beside tgt with its write cache. The last line says whether
`serve` was slower anywhere.
"""
import argparse
import contextlib
import importlib.util
import os
import random
import re
import select
import shutil
import signal
import socket
import subprocess
import sys
import tempfile
import time

TOP = os.path.dirname(os.path.dirname(os.path.dirname(os.path.abspath(__file__))))
# A process that takes longer hangs.
SECONDS = 60
NAME = "iqn.2026-01.example:disk"
BLOCK = 512
# How many blocks the images have: 16 MiB.
BLOCKS = 32768
MIB = 1 << 20
# Writes holes too in pieces of 2 MiB: else QEMU writes up to 16 MiB of zeros in a command, and the disk takes 4.
CONVERT = ("qemu-img", "convert", "-n", "-S", "0", "-f", "raw", "-O", "raw")
# How many bytes a write has that may be killed.
SIZES = [BLOCK, 4096, 4096, 65536, 65536, 262144, MIB]


class Skipped(Exception):
    """What a case wants is not there."""


def want(*programs):
    """Skips the case where one of these is not installed."""
    for name in programs:
        if not (shutil.which(name) or shutil.which(name, path="/usr/sbin:/sbin")):
            raise Skipped(f"{name} is not installed")


def free_port():
    with socket.create_server(("127.0.0.1", 0)) as other:
        return other.getsockname()[1]


class Service:
    """`serve --file`, with further words, over an image; `before` are words in front of the program's name."""

    def __init__(self, program, image, *words, before=(), sessions=1000):
        self.port = free_port()
        words = ["--port", str(self.port), "--sessions", str(sessions), "--quiet", "--file", image, *words]
        pipe = subprocess.PIPE
        self.process = subprocess.Popen([*before, program, "serve", *words], stdin=subprocess.DEVNULL, stdout=pipe, stderr=pipe)
        self.told = self.process.stdout.readline()
        self.url = f"iscsi://127.0.0.1:{self.port}/{NAME}/0"

    def __enter__(self):
        return self

    def __exit__(self, *_):
        self.kill()
        self.process.communicate()

    def kill(self):
        """Ends it by signal 9, and what it started: under strace that is the service."""
        if self.process.poll() is None:
            with open(f"/proc/{self.process.pid}/task/{self.process.pid}/children") as children:
                started = [int(pid) for pid in children.read().split()]
            for pid in [*started, self.process.pid]:
                os.kill(pid, signal.SIGKILL)

    def is_there(self):
        return self.process.poll() is None

    def ended(self):
        """How it ended by itself: what it printed, its lines on standard error, its status."""
        out, lines = self.process.communicate(timeout=SECONDS)
        return self.told + out, lines, self.process.returncode

    def half(self, number):
        """A half of its disk, as qemu-img names it."""
        size = BLOCKS * BLOCK // 2
        disk = f"file.driver=iscsi,file.transport=tcp,file.portal=127.0.0.1:{self.port},file.target={NAME},file.lun=0"
        return f"driver=raw,offset={number * size},size={size},{disk}"


def create(blocks=BLOCKS):
    """The words that make an image."""
    return ("--create", "--blocks", str(blocks))


def refused(program, image, *words):
    """How `serve` ends that does not serve an image."""
    words = ["serve", "--port", "0", "--sessions", "0", "--file", image, *words]
    done = subprocess.run([program, *words], stdin=subprocess.DEVNULL, capture_output=True, timeout=SECONDS)
    return done.stdout, done.stderr, done.returncode


def line(image, text):
    """The same, as it is due."""
    return b"", f"{image}: {text}\n".encode(), 4


def ran(*words):
    """What a program says, and its status."""
    done = subprocess.run(words, stdin=subprocess.DEVNULL, stdout=subprocess.PIPE, stderr=subprocess.STDOUT, timeout=SECONDS)
    return done.returncode, done.stdout.decode(errors="replace")


# What QEMU makes of CHECK CONDITION with a medium error.
FAILED = "Input/output error"


def qemu(url, *commands):
    """Commands of qemu-io, and what came of each: True, or why not."""
    said = ran("qemu-io", "-f", "raw", *[word for command in commands for word in ("-c", command)], url)[1]
    answers = re.findall(r"^(?:wrote|read) \d+/\d+ bytes|^(?:write|read) failed: (.*)$|^(Pattern verification failed)", said, re.M)
    return [failed or wrong or True for failed, wrong in answers]


def ends_under(service, command):
    """The status with which a service ends by itself under a command of qemu-io, which would ask again for ever."""
    asking = subprocess.Popen(["qemu-io", "-f", "raw", "-c", command, service.url], stdin=subprocess.DEVNULL, stdout=subprocess.DEVNULL, stderr=subprocess.DEVNULL)
    try:
        return service.process.wait(timeout=SECONDS)
    finally:
        asking.kill()
        asking.wait()


def bytes_of(image):
    with open(image, "rb") as file:
        return file.read()


def noise(path, size):
    with open(path, "wb") as file:
        file.write(os.urandom(size))
    return path


@contextlib.contextmanager
def memory_mounted(room, *options):
    """A file system in memory; it is taken down again."""
    place = f"{room}/mounted"
    os.mkdir(place)
    words = ["mount", "-t", "tmpfs", "-o", ",".join(options), "none", place]
    if not shutil.which("mount") or subprocess.run(words, capture_output=True).returncode:
        raise Skipped("nothing can be mounted")
    try:
        yield place
    finally:
        subprocess.run(["umount", "-l", place], check=True)


# ---- cases: each gives True, or what was seen


def converted(program, room):
    """A file system is copied by qemu-img onto an image, both sides are compared, and other programs read the image."""
    want("mkfs.ext4", "e2fsck", "debugfs")
    os.mkdir(f"{room}/files")
    held = noise(f"{room}/files/held", 3 * MIB)
    source, image = f"{room}/source", f"{room}/image"
    size = ran("mkfs.ext4", "-q", "-d", f"{room}/files", source, f"{BLOCKS // 2}k")
    with Service(program, image, *create()) as service:
        raw = ("-f", "raw")
        seen = [
            size,
            ran(*CONVERT, source, service.url),
            ran("qemu-img", "compare", *raw, "-F", "raw", source, service.url),
            ran("qemu-img", "compare", *raw, "-F", "raw", image, service.url),
        ]
    seen += [ran("cmp", source, image), ran("e2fsck", "-fn", image)]
    seen.append(ran("debugfs", "-R", f"dump /held {room}/again", image))
    return (all(status == 0 for status, _ in seen) and bytes_of(f"{room}/again") == bytes_of(held)) or seen


def opened_again(program, room):
    """An image is made, with its size and its name, written, closed, and served again with and without its number of blocks."""
    image = f"{room}/image"
    with Service(program, image, *create(), sessions=1) as service:
        seen = [os.stat(image).st_size == BLOCK * BLOCKS, qemu(service.url, "write -P 7 0 1M", "write -P 9 15M 1M")]
        seen.append(service.ended())
    for words in ((), ("--blocks", str(BLOCKS))):
        with Service(program, image, *words, sessions=1) as service:
            seen += [qemu(service.url, "read -P 7 0 1M", "read -P 0 12M 3M", "read -P 9 15M 1M"), service.ended()]
    end = (b"listening\n", b"", 0)
    return seen == [True, [True] * 2, end, [True] * 3, end, [True] * 3, end] or seen


def one_owner(program, room):
    """A second `serve` over the same image is refused while the first one has it, and whoever locked it keeps both out."""
    image = f"{room}/image"
    with Service(program, image, *create()):
        seen = [refused(program, image)]
    seen.append(ran("flock", "-x", image, program, "serve", "--port", "0", "--sessions", "0", "--file", image))
    seen.append(refused(program, image))
    return seen == [line(image, "is in use"), (4, f"{image}: is in use\n"), (b"listening\n", b"", 0)] or seen


def read_only(program, room):
    """An image on a file system that is mounted to be read alone; it is served with --read-only."""
    with memory_mounted(room, "size=1m") as place:
        image = f"{place}/image"
        made = refused(program, image, *create(8))
        subprocess.run(["mount", "-o", "remount,ro", place], check=True)
        seen = [made, refused(program, image), refused(program, f"{place}/other", *create(8)), refused(program, image, "--read-only")]
        due = [(b"listening\n", b"", 0), line(image, "may not be written"), line(f"{place}/other", "may not be written"), (b"listening\n", b"", 0)]
    return seen == due or seen


def read_alone(program, room):
    """Two services share an image with --read-only: no write is done, and the image stays. Who would write it is refused."""
    image = noise(f"{room}/image", BLOCKS * BLOCK)
    held = bytes_of(image)
    alone = "--read-only"
    # The bare profile says nothing of it before a write comes.
    with Service(program, image, alone, "--plain") as one, Service(program, image, alone) as other:
        seen = [qemu(one.url, "write -P 7 0 64k")]
        seen.append("LUN is write protected" in ran("qemu-io", "-f", "raw", "-c", "write -P 7 0 64k", other.url)[1])
        seen += [ran("qemu-img", "compare", "-f", "raw", "-F", "raw", image, service.url)[0] for service in (one, other)]
        seen.append(refused(program, image))
    seen.append(bytes_of(image) == held)
    return seen == [["Permission denied"], True, 0, 0, line(image, "is in use"), True] or seen


def at_once(program, room):
    """Two writers at once, each of its half of an image; then the image is what both had."""
    halves = [noise(f"{room}/half{number}", BLOCKS * BLOCK // 2) for number in range(2)]
    image = f"{room}/image"
    with Service(program, image, *create()) as service:
        convert = ("qemu-img", "convert", "-n", "-f", "raw", "--target-image-opts")
        writers = [subprocess.Popen([*convert, half, service.half(n)], stderr=subprocess.DEVNULL) for n, half in enumerate(halves)]
        seen = [writer.wait(timeout=SECONDS) for writer in writers]
    return (seen == [0, 0] and bytes_of(image) == b"".join(map(bytes_of, halves))) or seen


def large(program, room):
    """An image of 2^33 blocks takes no room where nobody wrote; its last blocks are written and read back."""
    image, last = f"{room}/image", ((1 << 33) - 8) * BLOCK
    with Service(program, image, *create(1 << 33)) as service:
        if service.told == b"":
            raise Skipped("no file may be so long here")
        seen = qemu(service.url, f"write -P 5 {last} 4k", f"read -P 5 {last} 4k", f"read -P 0 {last - MIB} 1M")
        seen.append(os.stat(image).st_blocks * BLOCK < MIB)
    return seen == [True] * 4 or seen


def taken(image):
    """How many KiB of the disk an image takes."""
    return os.stat(image).st_blocks // 2


def holes(program, room):
    """Zeros over a hole leave it a hole, by WRITE and by WRITE SAME. Where there are data, zeros take their place and the room stays."""
    seen = []
    for words in ((), ("--thin",)):
        image = f"{room}/image{len(words)}"
        with Service(program, image, *create(), *words) as service:
            made = taken(image)
            seen += [*qemu(service.url, "write -z 0 1M"), taken(image) == made]
            seen += [*qemu(service.url, "write -P 5 256k 64k", "write -z 0 1M", "read -P 0 0 1M"), taken(image) - made <= 64]
    return seen == [True] * 12 or seen


def sparse_file_system(program, room):
    """A file system that is made through `serve --thin`, on a sparse image, takes a small part of it; e2fsck likes it."""
    want("mkfs.ext4", "e2fsck")
    image, source, size = f"{room}/image", f"{room}/source", BLOCK * BLOCKS
    with open(source, "wb") as file:
        file.truncate(size)
    seen = [ran("mkfs.ext4", "-q", "-E", "lazy_itable_init=0", source)]
    with Service(program, image, *create(size // BLOCK), "--thin") as service:
        seen.append(ran("qemu-img", "convert", "-n", "-f", "raw", "-O", "raw", source, service.url))
        seen.append(ran("qemu-img", "compare", "-f", "raw", "-F", "raw", source, service.url))
        room_taken = taken(image)
    seen.append(ran("e2fsck", "-fn", image))
    return (all(status == 0 for status, _ in seen) and room_taken < size // 4096) or (seen, room_taken)


def capacity(service):
    """How many blocks a disk says it has."""
    said = ran("iscsi-readcapacity16", service.url)[1]
    found = re.search(r"RETURNED LOGICAL BLOCK ADDRESS:(\d+)", said)
    return int(found[1]) + 1 if found else said


def grown(image, size):
    """Lets an image have so many bytes, as another program would."""
    with open(image, "r+b") as file:
        file.truncate(size)


def grows(program, room):
    """An image that grows while nobody is connected has its new size at the next login; while somebody is, the old one, with a line."""
    want("iscsi-readcapacity16")
    seen, lines = [], []
    for number, words in enumerate(((), ("--write-back",), ("--read-only",))):
        image = noise(f"{room}/image{number}", MIB)
        with Service(program, image, *words) as service:
            seen.append(capacity(service))
            grown(image, 2 * MIB)
            seen.append(capacity(service))
            with open(f"{room}/held", "wb") as held:
                session = subprocess.Popen(["qemu-io", "-r", "-f", "raw", service.url], stdin=subprocess.PIPE, stdout=held, stderr=held)
            time.sleep(0.5)
            grown(image, 3 * MIB)
            seen.append(capacity(service))
            session.communicate(b"read -P 0 1M 64k\nquit\n", timeout=SECONDS)
            with open(f"{room}/held") as held:
                seen.append("read 65536/65536" in held.read())
            seen.append(capacity(service))
            grown(image, 3 * MIB + 100)
            seen.append(capacity(service))
            if words != ("--read-only",):
                seen.append(qemu(service.url, f"write -P 5 {3 * MIB - 4096} 4k", f"read -P 5 {3 * MIB - 4096} 4k"))
            service.kill()
            lines.append(service.process.communicate()[1].decode(errors="replace").splitlines())
    due = [2048, 4096, 4096, True, 6144, 6144]
    told = [[line for line in some if "has grown" in line] for some in lines]
    ends = "the image has grown to 6144 blocks, and 4096 are served until nobody is connected"
    is_told = all(len(some) == 1 and some[0].endswith(ends) for some in told)
    return (seen == [*due, [True, True], *due, [True, True], *due] and is_told) or (seen, lines)


def block_device(program, room):
    """A block device in place of a file."""
    want("losetup")
    backing, source = noise(f"{room}/backing", BLOCKS * BLOCK), noise(f"{room}/source", BLOCKS * BLOCK)
    status, said = ran("losetup", "-f", "--show", backing)
    if status:
        raise Skipped("there is no loop device")
    device = said.strip()
    try:
        with Service(program, device, "--blocks", str(BLOCKS)) as service:
            seen = [
                ran("qemu-img", "compare", "-f", "raw", "-F", "raw", backing, service.url),
                ran(*CONVERT, source, service.url),
                ran("qemu-img", "compare", "-f", "raw", "-F", "raw", source, service.url),
            ]
    finally:
        subprocess.run(["losetup", "-d", device], check=True)
    return (all(status == 0 for status, _ in seen) and bytes_of(backing) == bytes_of(source)) or seen


# ---- writes that are cut off


def plan():
    """The whole disk in pieces of several sizes, in any order: the offset and the length of each."""
    pieces, at = [], 0
    while at < BLOCKS * BLOCK:
        size = min(random.choice(SIZES), BLOCKS * BLOCK - at)
        pieces.append((at, size))
        at += size
    random.shuffle(pieces)
    return pieces


class Writer:
    """qemu-io with a disk, and up to eight writes that are under way."""

    def __init__(self, url):
        words = ["stdbuf", "-oL", "qemu-io", "-f", "raw", url]
        pipe = subprocess.PIPE
        self.process = subprocess.Popen(words, bufsize=0, stdin=pipe, stdout=pipe, stderr=subprocess.DEVNULL)
        self.said, self.sent = b"", 0

    def answered(self):
        """The offsets of the writes that were answered."""
        return {int(at) for at in re.findall(rb"wrote \d+/\d+ bytes at offset (\d+)\n", self.said)}

    def listen(self):
        """Waits for more of what it says."""
        if not select.select([self.process.stdout], [], [], SECONDS)[0]:
            raise OSError("qemu-io says no more")
        self.said += os.read(self.process.stdout.fileno(), 65536)

    def write(self, pieces, byte, due):
        """Writes pieces, each byte of them this one, until so many are answered and eight, or all others, are under way."""
        while True:
            under_way = self.sent - len(self.answered())
            if under_way < 8 and self.sent < len(pieces):
                # it reads a command where it has prompted for one
                if self.said.count(b"qemu-io> ") > self.sent:
                    offset, size = pieces[self.sent]
                    self.process.stdin.write(f"aio_write -P {byte} {offset} {size}\n".encode())
                    self.sent += 1
                    continue
            elif self.sent - under_way >= due:
                return
            self.listen()

    def end(self):
        self.process.kill()
        self.said += self.process.stdout.read()
        self.process.stdin.close()
        self.process.wait()


def written_until_killed(service, pieces, byte):
    """Writes pieces until the service is killed in the middle. Gives how many writes began, and the offsets of those that were
    answered."""
    writer = Writer(service.url)
    try:
        writer.write(pieces, byte, random.randint(1, 16))
        time.sleep(random.choice((0, 0.01)) * random.random())
        service.kill()
        service.process.wait()
        # the answers that were on their way are still read
        time.sleep(0.02)
    finally:
        writer.end()
    return writer.sent, writer.answered()


class Tally:
    """What became of the writes of all rounds."""

    def __init__(self):
        self.answered = self.whole = self.none = self.torn = 0

    def judge(self, before, after, pieces, answered, byte):
        """Notes what a kill left. Gives what is wrong."""
        new = bytes([byte]) * BLOCK
        for offset, size in pieces:
            blocks = range(offset, offset + size, BLOCK)
            is_new = [after[at : at + BLOCK] == new for at in blocks]
            if offset in answered:
                self.answered += 1
                if not all(is_new):
                    return f"an answered write of {size} bytes at {offset} is not there"
                continue
            for at, new_here in zip(blocks, is_new):
                if not new_here and after[at : at + BLOCK] != before[at : at + BLOCK]:
                    return f"block {at // BLOCK} is neither old nor new"
            self.whole += all(is_new)
            self.none += not any(is_new)
            self.torn += any(is_new) and not all(is_new)
        return None

    def text(self):
        return f"{self.answered} writes were answered; of the others {self.none} left nothing, {self.torn} a part, {self.whole} all"


def absent(held):
    """A byte that an image has nowhere."""
    return next(byte for byte in random.sample(range(256), 256) if held.find(byte) < 0)


def untouched(before, after, pieces):
    """What is wrong with pieces that nobody wrote."""
    changed = [offset for offset, size in pieces if before[offset : offset + size] != after[offset : offset + size]]
    return f"something else was written at {changed}" if changed else None


def killed(program, room, kills):
    """`serve` is killed in the middle of writes, again and again: what was answered is there, each other block is old or new."""
    want("stdbuf")
    image, tally, rounds = f"{room}/image", Tally(), 0
    words, before = create(), bytes(BLOCKS * BLOCK)
    while rounds < kills:
        byte, pieces = absent(before), plan()
        with Service(program, image, *words) as service:
            if service.told != b"listening\n":
                return service.ended()
            sent, answered = written_until_killed(service, pieces, byte)
        after, words = bytes_of(image), ()
        wrong = tally.judge(before, after, pieces[:sent], answered, byte) or untouched(before, after, pieces[sent:])
        if wrong:
            return f"kill {rounds + 1}: {wrong}"
        # a kill counts where writes were under way
        rounds += len(answered) < sent
        before = after
    with Service(program, image) as service:
        seen = ran("qemu-img", "compare", "-f", "raw", "-F", "raw", image, service.url)
    print(f"          {rounds} kills: {tally.text()}")
    return seen[0] == 0 or seen


# ---- a medium that fails


def full(program, room):
    """The file system is full: a write fails, what was answered is there, and the service goes on, also with writes once there is room."""
    with memory_mounted(room, "size=4m") as place:
        image, filler = f"{place}/image", noise(f"{place}/filler", MIB)
        with Service(program, image, *create()) as service:
            # there is room for 3 MiB of it
            seen = qemu(service.url, "write -P 1 0 1M", "write -P 2 1M 3M", "read -P 1 0 1M")
            os.unlink(filler)
            seen += qemu(service.url, "write -P 3 0 512K", "write -P 3 3M 1M", "read -P 3 3M 1M", "read -P 1 512K 512K")
            seen.append(service.is_there())
        held = bytes_of(image)
    is_whole = all(held[at : at + BLOCK] in (bytes(BLOCK), b"\2" * BLOCK) for at in range(MIB, 3 * MIB, BLOCK))
    return (seen == [True, FAILED] + [True] * 6 and is_whole) or (seen, is_whole)


def taken_away(program, room):
    """The file's name is taken away: the session goes on, and no other `serve` finds it."""
    image = f"{room}/image"
    with Service(program, image, *create()) as service:
        seen = qemu(service.url, "write -P 1 0 1M")
        os.unlink(image)
        seen += qemu(service.url, "read -P 1 0 1M", "write -P 2 1M 1M", "read -P 2 1M 1M")
        seen.append(refused(program, image))
    return seen == [True] * 4 + [line(image, "cannot be opened")] or seen


def cut(program, room):
    """The file is cut by someone else: reads behind its end fail, and so does each write. Other reads don't, and the service goes on."""
    image = f"{room}/image"
    with Service(program, image, *create()) as service:
        seen = qemu(service.url, "write -P 1 6M 4M")
        os.truncate(image, 8 * MIB + 100)
        seen += qemu(service.url, "read -P 1 6M 2M", "read 8M 512", "read 7M 2M", "read 12M 1M", "read -P 1 7M 1M", "write 9M 512")
        seen.append(service.is_there())
    return seen == [True, True, FAILED, FAILED, FAILED, True, FAILED, True] or seen


def calls_of(program, room, commands, count):
    """The writes (w), syncs (s) and sends (a) of `serve` while qemu-io writes so, in their order, from the first write on; and whether
    all that qemu-io was told was well."""
    want("strace")
    log = f"{room}/log"
    before = ("strace", "-f", "-qq", "-o", log, "-e", "trace=pwrite64,fdatasync,sendto")
    with Service(program, f"{room}/image", *create(), before=before, sessions=1) as service:
        if service.told == b"":
            raise Skipped("strace may not trace")
        seen = qemu(service.url, *commands)
        service.ended()
    with open(log) as file:
        calls = "".join({"pwrite64": "w", "fdatasync": "s", "sendto": "a"}[name] for name in re.findall(r"^\d+ +(\w+)\(.*= \d", file.read(), re.M))
    body = calls[calls.find("w") :]
    return body, seen == [True] * len(seen) and body.count("w") == count


def synced_first(program, room):
    """Each write is followed by a sync before its answer leaves."""
    body, well = calls_of(program, room, [f"write -P {n + 1} {n}M 64k" for n in range(8)], 8)
    return (well and re.fullmatch(r"(ws(a+|$))+", body) is not None) or body


def synced_together(program, room):
    """Of writes that are under way together no answer leaves before they are synced, and some share a sync."""
    writes = [f"aio_write -P {n % 255 + 1} {4 * n}k 4k" for n in range(512)]
    body, well = calls_of(program, room, [*writes, "aio_flush"], 512)
    print(f"          {body.count('w')} writes had {body.count('s')} syncs")
    return (well and re.search("w[^s]*a", body) is None and body.count("s") < body.count("w")) or body


def not_synced_at_first(program, room):
    """An image that is made, and whose sync fails, is taken away again."""
    want("strace")
    image, log = f"{room}/image", f"{room}/log"
    for call in ("fsync", "fdatasync"):
        before = ["strace", "-f", "-qq", "-o", log, "-e", f"trace={call}", "-e", f"inject={call}:error=EIO"]
        words = ["serve", "--port", "0", "--sessions", "0", "--file", image, *create(8)]
        done = subprocess.run([*before, program, *words], stdin=subprocess.DEVNULL, capture_output=True, timeout=SECONDS)
        if not os.path.exists(log) or os.path.getsize(log) == 0:
            raise Skipped("strace may not trace")
        seen = (done.stdout, done.stderr, done.returncode)
        if seen != line(image, "cannot be synced") or os.path.exists(image):
            return call, seen, os.path.exists(image)
    return True


def sync_that_fails(program, room):
    """A sync fails: its write isn't answered, and the service ends with status 4, so that nothing behind it is; served anew, what was
    answered before is there."""
    want("strace")
    image = f"{room}/image"
    # the first sync is that of opening, the second that of the first write
    before = ("strace", "-f", "-qq", "-o", f"{room}/log", "-e", "trace=fdatasync", "-e", "inject=fdatasync:error=EIO:when=3")
    with Service(program, image, *create(), before=before) as service:
        if service.told == b"":
            raise Skipped("strace may not trace")
        seen = qemu(service.url, "write -P 1 0 4k") + qemu(service.url, "read -P 1 0 4k")
        seen.append(ends_under(service, "write -P 2 4k 4k"))
    with Service(program, image) as service:
        seen += qemu(service.url, "read -P 1 0 4k", "write -P 4 8k 4k", "read -P 4 8k 4k")
    return seen == [True, True, 4, True, True, True] or seen


def module_of(tool):
    """The module of another tool's run.py."""
    spec = importlib.util.spec_from_file_location(f"{tool}_run", f"{TOP}/tools/{tool}/run.py")
    module = importlib.util.module_from_spec(spec)
    sys.modules[f"{tool}_run"] = module
    spec.loader.exec_module(module)
    return module


def at_a_failed_sync(program, room, write):
    """What is seen where one session rests and another writes, as `write` does, and its sync fails: the login's answer, what came of the
    write, what the session that rests receives, the status with which the service ends, and its lines."""
    want("strace")
    many = module_of("many_sessions")
    # the first sync is that of opening, the second that of the first write
    before = ("strace", "-f", "-qq", "-o", f"{room}/log", "-e", "trace=fdatasync", "-e", "inject=fdatasync:error=EIO:when=2")
    with Service(program, f"{room}/image", *create(), before=before) as service:
        if service.told == b"":
            raise Skipped("strace may not trace")
        with socket.create_connection(("127.0.0.1", service.port), timeout=SECONDS) as beside:
            answer = many.log_in(beside, 1)
            seen = [len(answer), write(many, service), beside.recv(1)]
        told, lines, status = service.ended()
        return [*seen, status, many.reasons(lines)]


def sync_that_fails_for_all(program, room):
    """A sync that fails ends the session that met it and the one beside it, and the service."""
    seen = at_a_failed_sync(program, room, lambda many, service: ends_under(service, "write -P 1 0 4k"))
    return seen == [48 + 56, 4, b"", 4, b"sync failed\n" * 3] or seen


# WRITE(10) of block 0 behind a login, and a header of no kind.
WRITE = bytes.fromhex("01a10000 00000200 00000000 00000000 00000002 00000200 00000001 00000002 2a000000 00000000 01000000 00000000")
NO_KIND = bytes.fromhex("3f") + bytes(47)


def sync_that_fails_at_the_end(program, room):
    """So it does where the session that met it was to end for what came behind its write."""

    def write(many, service):
        with socket.create_connection(("127.0.0.1", service.port), timeout=SECONDS) as peer:
            many.log_in(peer, 2)
            peer.sendall(WRITE + bytes(BLOCK) + NO_KIND)
            return peer.recv(1)

    seen = at_a_failed_sync(program, room, write)
    return seen == [48 + 56, b"", b"", 4, b"sync failed\n" * 3] or seen


CASES = [
    converted,
    opened_again,
    one_owner,
    read_only,
    read_alone,
    at_once,
    large,
    holes,
    sparse_file_system,
    grows,
    block_device,
    full,
    taken_away,
    cut,
    synced_first,
    synced_together,
    not_synced_at_first,
    sync_that_fails,
    sync_that_fails_for_all,
    sync_that_fails_at_the_end,
    killed,
]


# ---- costs


def costs(program, room, rounds, seconds):
    """Commands a second over an image, beside tgt over a file, each written through and with a write cache."""
    # its client and tables
    speed = module_of("speed")
    speed.DISK = BLOCK * BLOCKS
    client = f"{room}/speed"
    if speed.missing("cc", "tgtd", "tgtadm"):
        sys.exit("tgt or cc is not installed")
    subprocess.run(["cc", "-O2", "-o", client, f"{TOP}/tools/speed/speed.c", "-liscsi"], check=True)

    class Image(speed.Lanthovur):
        """`serve --file`, with further words."""

        def __init__(self, name, *words):
            # noise, so that the file has no holes; likewise below
            service = Service(program, noise(f"{room}/{name}", BLOCK * BLOCKS), *words)
            self.process, self.url, self.pid = service.process, service.url, service.process.pid

    class Tgt(speed.Tgt):
        """tgtd, over a file that it opens with these flags."""

        def __init__(self, name, *flags):
            self.name, self.flags = name, flags
            super().__init__(room, 1000)

        def backing(self):
            self.disk = open(noise(f"{room}/{self.name}", BLOCK * BLOCKS), "rb")
            return ["-b", self.disk.name, *self.flags]

    # the lengths of the bare profile, in which it has always been measured
    short = ["--segment", "8192", "--data-in", "262144"]
    targets = [Image("ours", *short), Tgt("theirs", "--bsoflags", "sync"), Image("cached", *short, "--write-back"), Tgt("their_cache")]
    lines, slower = [], []
    try:
        for size in (4096, 65536):
            for depth in (1, 8):
                rows = [[speed.Row(what) for what in ("reads", "writes")] for _ in targets]
                for _ in range(rounds):
                    for target, row in zip(targets, rows):
                        for cell, value in zip(row, speed.serve_once(client, target, size, depth, seconds)):
                            cell.values.append(value)
                for cells in zip(*rows):
                    name, line = f"{cells[0].name} of {size // 1024} KiB, {depth} outstanding", []
                    for ours, theirs, words in ((*cells[:2], ""), (*cells[2:], " with --write-back")):
                        ratio = ours.median / theirs.median
                        line += [ours.text(), theirs.text(), f"{ratio:.2f}"]
                        slower += [name + words] if ratio < 1 else []
                    lines.append([name, *line])
    finally:
        for target in targets:
            target.end()
    head = ["", "`serve --file`", "tgt, `bsoflags sync`", "Ratio", "`--write-back`", "tgt, its cache", "Ratio"]
    speed.table("Commands a second that last, and with a write cache", head, lines)
    print(f"\nslower: {', '.join(slower) or 'none'}")
    return 1 if slower else 0


def outcome_of(case, *given):
    """How a case ended, and what was seen where it failed."""
    try:
        with tempfile.TemporaryDirectory() as room:
            seen = case(*given[:1], room, *given[1:])
    except Skipped as reason:
        return "skipped", reason
    except (OSError, subprocess.SubprocessError) as error:
        return "failed", error
    return ("passed", "") if seen is True else ("failed", seen)


def main():
    parser = argparse.ArgumentParser()
    parser.add_argument("--kills", type=int, default=200)
    parser.add_argument("--costs", action="store_true")
    parser.add_argument("--rounds", type=int, default=5)
    parser.add_argument("--seconds", type=float, default=2)
    parser.add_argument("program", nargs="?", default=f"{TOP}/crates/lanthovur/out/lanthovur")
    asked = parser.parse_args()
    program = os.path.abspath(asked.program)
    if not os.path.isfile(program):
        sys.exit(f"there is no program {program}: `./lanthovur </dev/null` builds it")
    if asked.costs:
        with tempfile.TemporaryDirectory() as room:
            return costs(program, room, asked.rounds, asked.seconds)
    if not (shutil.which("qemu-img") and shutil.which("qemu-io")):
        sys.exit("qemu-img and qemu-io are not installed")
    counts = {"passed": 0, "failed": 0, "skipped": 0}
    for case in CASES:
        began = time.monotonic()
        outcome, what = outcome_of(case, program, *([asked.kills] if case is killed else []))
        counts[outcome] += 1
        print(f"{outcome:8} {time.monotonic() - began:5.1f} s  {case.__doc__.strip()} {what}", flush=True)
    print(", ".join(f"{count} {outcome}" for outcome, count in counts.items()))
    return 1 if counts["failed"] else 0


if __name__ == "__main__":
    sys.exit(main())
