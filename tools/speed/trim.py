#!/usr/bin/env python3
"""How long reads of 4 KiB take beside a session that trims 10 GiB, as Linux does for fstrim: by UNMAP of 4 MiB each.

    tools/speed/trim.py [--gib N] [--outstanding N] [PROGRAM]

PROGRAM is crates/lanthovur/out/lanthovur if none is named. The disks have 2 GiB more than are trimmed: one in memory, a sparse
image, and a sparse image whose first GiB has data. The reader is a process of its own, with one read outstanding, of places over
the whole disk. The trimmer has N commands outstanding, 8 at most. All is done on 127.0.0.1, in a folder of its own below
TMPDIR. Times are milliseconds: the median read, the 99th of a hundred, and the slowest, alone and beside the trimmer.
"""
import argparse
import importlib.util
import multiprocessing
import os
import random
import statistics
import sys
import tempfile
import time

TOP = os.path.dirname(os.path.dirname(os.path.dirname(os.path.abspath(__file__))))
GIB, MIB = 1 << 30, 1 << 20
# How many seconds the reader reads alone.
ALONE = 3


def module_of(tool):
    spec = importlib.util.spec_from_file_location(f"{tool}_run", f"{TOP}/tools/{tool}/run.py")
    module = importlib.util.module_from_spec(spec)
    sys.modules[f"{tool}_run"] = module
    spec.loader.exec_module(module)
    return module


lasting, strangers = module_of("lasting"), module_of("strangers")


class Session:
    """A session that has commands outstanding."""

    def __init__(self, port, initiator):
        self.peer = strangers.login(port, initiator)
        self.peer.settimeout(600)
        self.number, self.status, self.rest = 1, 1, b""

    def ask(self, flags, expected, block, data=b""):
        fields = {"p1": flags, "p16": strangers.number(self.number), "p20": strangers.number(expected), "p24": strangers.number(self.number)}
        self.peer.sendall(strangers.pdu(0x01, data, p28=strangers.number(self.status), p32=block, **fields))
        self.number += 1

    def take(self, size):
        while len(self.rest) < size:
            got = self.peer.recv(1 << 18)
            if not got:
                raise OSError("the service closed the connection")
            self.rest += got
        taken, self.rest = self.rest[:size], self.rest[size:]
        return taken

    def answer(self):
        """Waits for the end of one command, which has to be well."""
        while True:
            head = self.take(48)
            self.take((int.from_bytes(head[5:8], "big") + 3) // 4 * 4)
            is_end = head[0] & 0x3F == 0x21 or head[0] & 0x3F == 0x25 and head[1] & 1
            if not is_end:
                continue
            if head[3] != 0:
                raise OSError(f"status {head[3]:02x}")
            self.status = int.from_bytes(head[24:28], "big") + 1
            return


def read(port, size, stop, times):
    """Reads 4 KiB after 4 KiB until it is stopped, and hands over how long each took."""
    session, places, taken = Session(port, "iqn.2026-01.example:reader"), random.Random(7), []
    while not stop.is_set():
        lba = places.randrange(size // 4096) * 8
        began = time.perf_counter()
        session.ask(b"\xc1", 4096, b"\x88\0" + lba.to_bytes(8, "big") + (8).to_bytes(4, "big") + b"\0\0")
        session.answer()
        taken.append(1000 * (time.perf_counter() - began))
    times.put(taken)


def reading(port, size, during):
    """How long reads took while this was done."""
    stop, times = multiprocessing.Event(), multiprocessing.Queue()
    reader = multiprocessing.Process(target=read, args=(port, size, stop, times))
    reader.start()
    time.sleep(0.2)
    during()
    stop.set()
    taken = sorted(times.get())
    reader.join()
    return f"{len(taken)} reads, median {statistics.median(taken):.2f}, 99th {taken[len(taken) * 99 // 100]:.2f}, slowest {taken[-1]:.1f}"


def trim(port, size, outstanding):
    """Gives back the first bytes of a disk."""
    session, began = Session(port, "iqn.2026-01.example:trimmer"), time.monotonic()
    count = size // (4 * MIB)
    for n in range(count + outstanding):
        if n >= outstanding:
            session.answer()
        if n < count:
            lba = n * 8192
            ranges = (22).to_bytes(2, "big") + (16).to_bytes(2, "big") + bytes(4) + lba.to_bytes(8, "big") + (8192).to_bytes(4, "big") + bytes(4)
            session.ask(b"\xa1", len(ranges), b"\x42" + bytes(6) + len(ranges).to_bytes(2, "big") + bytes(7), ranges)
    print(f"  trimmed {count * 4} MiB in {time.monotonic() - began:.1f} s")


def measure(name, program, words, size, outstanding):
    before = ("nice", "-n", "0")
    service = lasting.Service.__new__(lasting.Service)
    service.port = lasting.free_port()
    words = ["--port", str(service.port), "--sessions", "1000", "--quiet", *words]
    service.process = lasting.subprocess.Popen([*before, program, "serve", *words], stdin=lasting.subprocess.DEVNULL, stdout=lasting.subprocess.PIPE)
    service.process.stdout.readline()
    try:
        print(name)
        print("  alone:", reading(service.port, size, lambda: time.sleep(ALONE)))
        print("  beside:", reading(service.port, size, lambda: trim(service.port, size - 2 * GIB, outstanding)), flush=True)
    finally:
        service.process.kill()
        service.process.wait()


def main():
    words = argparse.ArgumentParser(description=__doc__, formatter_class=argparse.RawDescriptionHelpFormatter)
    words.add_argument("--gib", type=int, default=10)
    words.add_argument("--outstanding", type=int, default=8, choices=range(1, 9))
    words.add_argument("program", nargs="?", default=f"{TOP}/crates/lanthovur/out/lanthovur")
    given = words.parse_args()
    size = (given.gib + 2) * GIB
    with tempfile.TemporaryDirectory() as room:
        measure("in memory", given.program, ("--size", str(size)), size, given.outstanding)
        for full in (0, 1):
            image = f"{room}/image{full}"
            with open(image, "wb") as file:
                for _ in range(full * 256):
                    file.write(os.urandom(4 * MIB))
                file.truncate(size)
            name = "a sparse image with a GiB of data" if full else "a sparse image"
            measure(name, given.program, ("--file", image, "--thin"), size, given.outstanding)
            os.unlink(image)


if __name__ == "__main__":
    main()
