#!/usr/bin/env python3
"""Measures the built program beside what is installed of tgt, tshark and dd, and writes a table.

    tools/speed/run.py [--rounds N] [--seconds S] [--only WORD]

It takes an idle machine. What is measured side by side goes in turn, N rounds of it (5 if not said); the table has the
median of each, and the least and the most. WORD is one of serve, normalise, show, texts, compare.

serve      commands a second of speed.c (libiscsi) over `serve`, over tgtd on a file in memory and over floor.c, a target
           without a disk that keeps to the same rules of the protocol, by size, with 1 and 8 outstanding; and
           microseconds of processor time that the target and the client take for a command; then the same with segments
           and bursts of 131,072 bytes
normalise  megabytes a second of 64 MiB from a file, in segments of 8 KiB and in PDUs of 48 bytes, beside `dd` with reads
           of as many bytes as the program's
show       lines a second, beside those of tshark for as many packets of the same PDUs
texts      texts a second of one login PDU each, whose keys ascend and descend
compare    seconds of two equal streams over seconds of normalise for one
What isn't installed is left out, with a word.
"""
import argparse
import os
import re
import resource
import shutil
import socket
import statistics
import struct
import subprocess
import sys
import tempfile
import time

HERE = os.path.dirname(os.path.abspath(__file__))
TOP = os.path.dirname(os.path.dirname(HERE))
PROGRAM = f"{TOP}/crates/lanthovur/out/lanthovur"
NAME = "iqn.2026-01.example:disk"
SIZES = [4096, 16384, 65536, 262144, 1048576]
# The disk that is served: in blocks, and of as many bytes.
BLOCKS = 131072
DISK = 512 * BLOCKS
STREAM = 64 << 20
# How many bytes the program reads at a time.
READ = 4096
# Bytes of segments and bursts of the second table.
LONG = 131072
TICK = os.sysconf("SC_CLK_TCK")


def missing(*programs):
    """Those of these programs that are not installed."""
    return [name for name in programs if not (shutil.which(name) or shutil.which(name, path="/usr/sbin"))]


def free_port():
    with socket.create_server(("127.0.0.1", 0)) as listener:
        return listener.getsockname()[1]


def processor(pid):
    """Seconds of processor time that a process has taken."""
    fields = open(f"/proc/{pid}/stat").read().rsplit(")", 1)[1].split()
    return (int(fields[11]) + int(fields[12])) / TICK


class Row:
    """What is measured of one thing, round by round."""

    def __init__(self, name):
        self.name, self.values = name, []

    def text(self, digits=0):
        low, middle, high = min(self.values), statistics.median(self.values), max(self.values)
        return f"{middle:,.{digits}f} ({low:,.{digits}f} to {high:,.{digits}f})"

    @property
    def median(self):
        return statistics.median(self.values)


def table(title, head, lines):
    print(f"\n## {title}\n")
    print("| " + " | ".join(head) + " |")
    print("|---" * len(head) + "|")
    for line in lines:
        print("| " + " | ".join(line) + " |", flush=True)


# ---- serve


class Lanthovur:
    """`serve`, for so many connections: one after another, or with long segments, which its other service takes."""

    title = "`serve`"

    def __init__(self, room, sessions, is_long=False):
        port = free_port()
        long = ["--quiet", "--segment", str(LONG), "--burst", str(LONG)] if is_long else []
        words = ["serve", "--port", str(port), "--blocks", str(BLOCKS), "--sessions", str(sessions), *long]
        self.process = subprocess.Popen([PROGRAM, *words], stdout=subprocess.PIPE)
        assert self.process.stdout.readline() == b"listening\n"
        self.url = f"iscsi://127.0.0.1:{port}/{NAME}/0"
        self.pid = self.process.pid

    def end(self):
        self.process.kill()
        self.process.wait()


class Floor:
    """floor.c: what the system, the client and the protocol take."""

    title = "floor"

    def __init__(self, room, sessions, is_long=False):
        port = free_port()
        long = ["libiscsi", str(LONG), str(LONG), str(LONG)] if is_long else []
        self.process = subprocess.Popen([compiled(room, "floor"), str(port), *long], stdout=subprocess.PIPE)
        assert self.process.stdout.readline() == b"listening\n"
        self.url = f"iscsi://127.0.0.1:{port}/{NAME}/0"
        self.pid = self.process.pid

    def end(self):
        self.process.kill()
        self.process.wait()


class Tgt:
    """tgtd, over a file in memory."""

    title = "tgt"

    def __init__(self, room, sessions, is_long=False):
        port = free_port()
        control = str(port % 30000)
        portal = f"portal=127.0.0.1:{port}"
        self.process = subprocess.Popen(["/usr/sbin/tgtd", "-f", "-C", control, "--iscsi", portal], stderr=subprocess.DEVNULL)
        self.pid = self.process.pid
        time.sleep(1)
        steps = [
            ["--mode", "target", "--op", "new", "--tid", "1", "-T", NAME],
            ["--mode", "logicalunit", "--op", "new", "--tid", "1", "--lun", "1", *self.backing()],
            ["--mode", "target", "--op", "bind", "--tid", "1", "-I", "ALL"],
        ]
        lengths = ("MaxRecvDataSegmentLength", "MaxXmitDataSegmentLength", "MaxBurstLength")
        for name, value in [*((name, LONG) for name in lengths), ("InitialR2T", "No")] if is_long else []:
            steps.append(["--mode", "target", "--op", "update", "--tid", "1", "--name", name, "--value", str(value)])
        for step in steps:
            subprocess.run(["/usr/sbin/tgtadm", "-C", control, "--lld", "iscsi", *step], check=True)
        self.url = f"iscsi://127.0.0.1:{port}/{NAME}/1"

    def backing(self):
        """The words for its disk."""
        self.disk = tempfile.NamedTemporaryFile(dir="/dev/shm")
        self.disk.truncate(DISK)
        return ["-b", self.disk.name]

    def end(self):
        self.process.kill()
        self.process.wait()
        self.disk.close()


def serve_once(client, target, size, depth, seconds):
    """Commands a second of reads and of writes, and microseconds of processor time for a command, of the target's and of
    the client's."""
    before, spent = processor(target.pid), resource.getrusage(resource.RUSAGE_CHILDREN)
    ran = subprocess.run([client, target.url, str(size), str(seconds), str(depth)], check=True, capture_output=True, text=True)
    after, rates = resource.getrusage(resource.RUSAGE_CHILDREN), {}
    for kind, rate in re.findall(r"^(read|write) .*: (\d+) IOPS", ran.stdout, re.M):
        rates[kind] = float(rate)
    each = 1e6 / (DISK / size + (rates["read"] + rates["write"]) * seconds)
    own = after.ru_utime + after.ru_stime - spent.ru_utime - spent.ru_stime
    return rates["read"], rates["write"], (processor(target.pid) - before) * each, own * each


def compiled(room, name, *libraries):
    """A program of this folder, or nothing where it can't be compiled."""
    words = ["cc", "-O2", "-o", f"{room}/{name}", f"{HERE}/{name}.c", *libraries]
    if missing("cc") or subprocess.run(words, capture_output=True).returncode:
        return None
    return f"{room}/{name}"


def serve(room, rounds, seconds):
    client = compiled(room, "speed", "-liscsi")
    if not client:
        return print("\nserve: left out, since libiscsi-dev or cc is not installed")
    kinds = [Lanthovur, Floor] + ([] if missing("tgtd", "tgtadm") else [Tgt])
    if len(kinds) == 2:
        print("\nserve: tgt is not installed")
    serve_table("Commands a second over a socket", client, kinds, room, rounds, seconds, False)
    serve_table("Commands a second with long segments", client, kinds, room, rounds, seconds, True)


def serve_table(title, client, kinds, room, rounds, seconds, is_long):
    """A table of these targets, with the standard preferences or with long segments and bursts."""
    targets = [kind(room, rounds * len(SIZES) * 2, is_long) for kind in kinds]
    measured = (("reads", 0), ("writes", 0), ("µs a command", 1), ("µs of the client", 1))
    lines = []
    try:
        for depth in (1, 8):
            for size in SIZES:
                rows = [[Row(what) for what, _ in measured] for _ in targets]
                for _ in range(rounds):
                    for target, row in zip(targets, rows):
                        for cell, value in zip(row, serve_once(client, target, size, depth, seconds)):
                            cell.values.append(value)
                for place, (what, digits) in enumerate(measured):
                    cells = [row[place] for row in rows]
                    ratios = [f"{cells[0].median / cell.median:.2f}" for cell in cells[1:]]
                    name = f"{size // 1024} KiB, {depth} outstanding: {what}"
                    lines.append([name, *(cell.text(digits) for cell in cells), *ratios])
    finally:
        for target in targets:
            target.end()
    titles = [kind.title for kind in kinds]
    table(title, ["", *titles, *(f"{titles[0]} / {title}" for title in titles[1:])], lines)


# ---- streams


def nop(segment=b"", tag=0xFFFFFFFF):
    """A NOP-Out with this segment, canonical."""
    head = bytearray(48)
    head[0], head[1] = 0x40, 0x80
    head[5:8] = len(segment).to_bytes(3, "big")
    head[16:20] = tag.to_bytes(4, "big")
    head[20:24] = b"\xff" * 4
    return bytes(head) + segment + bytes(-len(segment) % 4)


def login_pdu(keys):
    """A Login Request with these keys, whose segment is a text."""
    segment = b"".join(key + b"=1\0" for key in keys)
    head = bytearray(48)
    head[0], head[1] = 0x43, 0x81
    head[5:8] = len(segment).to_bytes(3, "big")
    return bytes(head) + segment + bytes(-len(segment) % 4)


def seconds_of(words, path):
    """How long a program takes from a file to nowhere."""
    with open(path, "rb") as source:
        began = time.monotonic()
        ran = subprocess.run(words, stdin=source, stdout=subprocess.DEVNULL, stderr=subprocess.DEVNULL)
        took = time.monotonic() - began
    if ran.returncode:
        sys.exit(f"{words} ended with status {ran.returncode}")
    return took


def in_turn(rounds, jobs):
    """The seconds of each of these jobs, in turn."""
    rows = [Row(name) for name, _ in jobs]
    for _ in range(rounds):
        for row, (_, job) in zip(rows, jobs):
            row.values.append(job())
    return rows


def rates(rows, amount):
    """The rows as amounts a second."""
    for row in rows:
        row.values = [amount / value for value in row.values]
    return rows


def normalise(room, rounds, seconds):
    lines = []
    for name, pdu in (("segments of 8 KiB", nop(bytes(8192))), ("PDUs of 48 bytes", nop())):
        path = f"{room}/stream"
        count = STREAM // len(pdu)
        with open(path, "wb") as file:
            file.write(pdu * count)
        jobs = [("normalise", lambda: seconds_of([PROGRAM, "normalise"], path))]
        if not missing("dd"):
            jobs.append(("dd", lambda: seconds_of(["dd", f"bs={READ}", "status=none"], path)))
        size = count * len(pdu)
        rows = rates(in_turn(rounds, jobs), size / 1e6)
        million = f"{rows[0].median * 1e6 / len(pdu) / 1e6:.2f}"
        lines.append([name, *(row.text() for row in rows), million, f"{rows[0].median / rows[-1].median:.2f}"])
    table("64 MiB through `normalise`", ["", "`normalise`, MB/s", "`dd`, MB/s", "Million PDUs/s", "Ratio"], lines)


def capture(path, pdus):
    """A capture in which each PDU is a packet from an initiator to a target at port 3260."""
    with open(path, "wb") as file:
        file.write(struct.pack("<IHHiIII", 0xA1B2C3D4, 2, 4, 0, 0, 65535, 101))
        number = 1
        for at, pdu in enumerate(pdus):
            tcp = struct.pack(">HHIIBBHHH", 40000, 3260, number, 1, 0x50, 0x18, 65535, 0, 0) + pdu
            ip = struct.pack(">BBHHHBBH4s4s", 0x45, 0, 20 + len(tcp), at & 0xFFFF, 0, 64, 6, 0, bytes([10, 0, 0, 1]), bytes([10, 0, 0, 2]))
            packet = ip + tcp
            file.write(struct.pack("<IIII", at // 1000000, at % 1000000, len(packet), len(packet)) + packet)
            number = (number + len(pdu)) & 0xFFFFFFFF


def show(room, rounds, seconds):
    many, few = 1000000, 50000
    path, packets = f"{room}/stream", f"{room}/packets"
    with open(path, "wb") as file:
        file.write(nop() * many)
    jobs = [("show", lambda: many / seconds_of([PROGRAM, "show"], path))]
    if missing("tshark"):
        print("\nshow: tshark is not installed")
    else:
        capture(packets, [nop()] * few)
        jobs.append(("tshark", lambda: few / seconds_of(["tshark", "-n", "-r", packets], os.devnull)))
    rows = in_turn(rounds, jobs)
    ratio = f"{rows[0].median / rows[-1].median:.1f}" if len(rows) == 2 else ""
    table("Lines a second", ["", "`show`", "tshark", "Ratio"], [["PDUs of 48 bytes", *(row.text() for row in rows), ratio]])


def texts(room, rounds, seconds):
    count = 2000
    keys = [b"X-%04d" % n for n in range(900)]
    jobs = []
    for name, order in (("ascending", keys), ("descending", keys[::-1])):
        path = f"{room}/{name}"
        with open(path, "wb") as file:
            file.write(login_pdu(order) * count)
        jobs.append((name, lambda path=path: count / seconds_of([PROGRAM, "normalise"], path)))
    rows = in_turn(rounds, jobs)
    line = ["900 keys", *(row.text() for row in rows), f"{rows[0].median / rows[1].median:.2f}"]
    table("Texts a second", ["", "keys ascend", "keys descend", "Ratio"], [line])


def compare(room, rounds, seconds):
    lines = []
    for name, pdu in (("segments of 8 KiB", nop(bytes(8192))), ("PDUs of 48 bytes", nop())):
        path = f"{room}/stream"
        with open(path, "wb") as file:
            file.write(pdu * (STREAM // len(pdu)))
        jobs = [
            ("compare", lambda: seconds_of([PROGRAM, "compare", path], path)),
            ("normalise", lambda: seconds_of([PROGRAM, "normalise"], path)),
        ]
        rows = in_turn(rounds, jobs)
        lines.append([name, *(row.text(2) for row in rows), f"{rows[0].median / rows[1].median:.2f}"])
    table("Seconds for two equal streams of 64 MiB", ["", "`compare`", "`normalise` of one", "Ratio"], lines)


JOBS = {"serve": serve, "normalise": normalise, "show": show, "texts": texts, "compare": compare}


def main():
    parser = argparse.ArgumentParser()
    parser.add_argument("--rounds", type=int, default=5)
    parser.add_argument("--seconds", type=float, default=2)
    parser.add_argument("--only", choices=JOBS)
    options = parser.parse_args()
    if not os.path.isfile(PROGRAM):
        sys.exit(f"there is no program {PROGRAM}: `./lanthovur </dev/null` builds it")
    model = next((line.split(":")[1].strip() for line in open("/proc/cpuinfo") if line.startswith("model name")), "")
    load = os.getloadavg()[0]
    print(f"{os.cpu_count()} processors ({model}), load {load:.1f} before; medians of {options.rounds} rounds (least to most).")
    room = tempfile.mkdtemp()
    try:
        for name, job in JOBS.items():
            if options.only in (None, name):
                job(room, options.rounds, options.seconds)
    finally:
        shutil.rmtree(room, ignore_errors=True)


if __name__ == "__main__":
    main()
