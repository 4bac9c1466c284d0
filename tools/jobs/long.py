#!/usr/bin/env python3
"""The memory of `job` and `replay` for 2 GB of recorded writes.

    tools/jobs/long.py [--gigabytes G] [PROGRAM]

It makes the capture of a session as it goes, and gives it to `job --capture - --data FILE` by a pipe: WRITEs of 64 KiB, of which each
1,000th is aborted and never answered, and READs of one block. No file has the capture. Then the job is done again at a target that takes
all and keeps nothing. Both programs may hold MOST MB at most, which is far less than the data. The job is looked at line by line: the
offset and the hash of each write, and the request that was aborted.

It wants no root, and 2 GB of the folder for temporary files. PROGRAM is crates/lanthovur/out/lanthovur if none is named. The last line
is 'N passed, M failed'.
"""
import argparse
import hashlib
import re
import resource
import socket
import struct
import subprocess
import sys
import tempfile
import threading
from pathlib import Path

TOP = Path(__file__).resolve().parents[2]
# The most megabytes that a program may hold.
MOST = 64
LENGTH = 65536
# The largest segment of a packet.
SEGMENT = 60000
LOGIN = (b"InitiatorName=iqn.2026-01.example:host\0TargetName=iqn.2026-01.example:disk\0SessionType=Normal\0AuthMethod=None\0",
         b"TargetPortalGroupTag=1\0AuthMethod=None\0")


def pdu(opcode, flags, head, data=b""):
    """A PDU: its opcode, its flags, bytes 8 to 47, and its segment."""
    return struct.pack(">BBHI", opcode, flags, 0, len(data)) + head + data + bytes(-len(data) % 4)


class Capture:
    """A pcap of one connection, written as it goes."""

    def __init__(self, out):
        self.out, self.sent, self.time = out, [1, 1], 0
        out.write(struct.pack("<IHHiIII", 0xA1B2C3D4, 2, 4, 0, 0, 262144, 101))
        self.packet(0, 2, b"", 0)
        self.packet(1, 0x12, b"", 0)

    def packet(self, end, flags, data, at):
        ports = (40000, 3260) if end == 0 else (3260, 40000)
        hosts = (b"\x7f\0\0\1", b"\x7f\0\0\2") if end == 0 else (b"\x7f\0\0\2", b"\x7f\0\0\1")
        tcp = struct.pack(">HHIIBBHHH", *ports, at, 0, 0x50, flags, 65535, 0, 0) + data
        packet = struct.pack(">BBHHHBBH", 0x45, 0, 20 + len(tcp), 0, 0, 64, 6, 0) + hosts[0] + hosts[1] + tcp
        self.time += 10
        self.out.write(struct.pack("<IIII", self.time // 1000000, self.time % 1000000, len(packet), len(packet)) + packet)

    def say(self, end, data):
        for at in range(0, len(data), SEGMENT):
            piece = data[at:at + SEGMENT]
            self.packet(end, 0x18, piece, self.sent[end] % 2**32)
            self.sent[end] += len(piece)


def data_of(number):
    """The data of a write."""
    return hashlib.sha256(struct.pack(">Q", number)).digest() * (LENGTH // 32)


def session(out, writes):
    """The capture of a session with so many writes."""
    capture = Capture(out)
    capture.say(0, pdu(0x43, 0x87, bytes(8) + struct.pack(">IIII", 0, 0, 1, 0) + bytes(16), LOGIN[0]))
    capture.say(1, pdu(0x23, 0x87, bytes(8) + struct.pack(">IIIII", 0, 0, 1, 1, 64) + bytes(12), LOGIN[1]))
    cmd, stat, tag = 1, 2, 1
    for number in range(writes):
        # A write with immediate data, and a read of one block.
        cdb = struct.pack(">BBIBHB", 0x2A, 0, number * 128 % 2**31, 0, 128, 0) + bytes(6)
        head = bytes(8) + struct.pack(">IIII", tag, LENGTH, cmd, stat) + cdb
        capture.say(0, pdu(0x01, 0xA1, head, data_of(number)))
        cmd, tag = cmd + 1, tag + 1
        if number % 1000 == 999:
            capture.say(0, pdu(0x42, 0x81, bytes(8) + struct.pack(">IIIIII", tag, tag - 1, cmd, stat, cmd - 1, 0) + bytes(8)))
            capture.say(1, pdu(0x22, 0x80, bytes(8) + struct.pack(">IIIII", tag, 0, stat, cmd, cmd + 64) + bytes(12)))
            stat, tag = stat + 1, tag + 1
        else:
            capture.say(1, pdu(0x21, 0x80, bytes(8) + struct.pack(">IIIII", tag - 1, 0, stat, cmd, cmd + 64) + bytes(12)))
            stat += 1
        head = bytes(8) + struct.pack(">IIII", tag, 512, cmd, stat) + struct.pack(">BBIBHB", 0x28, 0, 0, 0, 1, 0) + bytes(6)
        capture.say(0, pdu(0x01, 0xC1, head))
        cmd, tag = cmd + 1, tag + 1
        head = bytes(8) + struct.pack(">IIIIII", tag - 1, 2**32 - 1, stat, cmd, cmd + 64, 0) + bytes(8)
        capture.say(1, pdu(0x25, 0x81, head, bytes(512)))
        stat += 1


def held(program, *words, give=None):
    """What a program writes, its status, and the megabytes that it held."""
    process = subprocess.Popen([str(program), *map(str, words)], stdin=subprocess.PIPE if give else subprocess.DEVNULL, stdout=subprocess.PIPE,
                               stderr=subprocess.PIPE)
    if give:
        def write():
            try:
                with process.stdin as out:
                    give(out)
            except BrokenPipeError:
                pass
        threading.Thread(target=write, daemon=True).start()
    most = [0]

    def look():
        while process.poll() is None:
            found = re.search(r"VmHWM:\s+([0-9]+)", Path(f"/proc/{process.pid}/status").read_text())
            most[0] = max(most[0], int(found[1]) if found else 0)
            threading.Event().wait(0.2)
    looker = threading.Thread(target=look, daemon=True)
    looker.start()
    written = process.stdout.read()
    told = process.stderr.read().decode()
    process.wait()
    return written, told, process.returncode, most[0] / 1024


# What a target says to keys of which it takes one value alone (RFC 7143, section 13). Numbers are taken as they are offered.
ANSWERS = {b"AuthMethod": b"None", b"HeaderDigest": b"None", b"DataDigest": b"None", b"InitialR2T": b"Yes", b"ImmediateData": b"Yes",
           b"DataPDUInOrder": b"Yes", b"DataSequenceInOrder": b"Yes"}
# The keys that say something, and ask nothing.
DECLARED = (b"InitiatorName", b"InitiatorAlias", b"TargetName", b"SessionType", b"MaxRecvDataSegmentLength")


def answers_to(keys, is_operational):
    """What a target answers to the keys of a login."""
    said = [b"MaxRecvDataSegmentLength=262144"] if is_operational else [b"TargetPortalGroupTag=1"]
    for pair in keys.split(b"\0"):
        name, _, value = pair.partition(b"=")
        if name and name not in DECLARED:
            said.append(name + b"=" + ANSWERS.get(name, value))
    return b"".join(it + b"\0" for it in said)


class Taker:
    """A target that says GOOD to each command, and zeros to each read."""

    def __init__(self):
        self.listener = socket.create_server(("127.0.0.1", 0))
        self.port = self.listener.getsockname()[1]
        threading.Thread(target=self.serve, daemon=True).start()

    def serve(self):
        near, _ = self.listener.accept()
        file = near.makefile("rwb")
        stat, open_writes = 1, {}
        while head := file.read(48):
            length = int.from_bytes(head[5:8], "big")
            data = file.read((length + 3) // 4 * 4)[:length]
            opcode, tag, cmd = head[0] & 0x3F, head[16:20], int.from_bytes(head[24:28], "big")
            window = struct.pack(">II", cmd + (0 if opcode in (0x03, 0x05) else 1), cmd + 64)
            if opcode == 0x03:
                text = answers_to(data, head[1] & 0x0C != 0)
                out = pdu(0x23, head[1] & 0x8F, head[8:14] + b"\0\1" + tag + bytes(4) + struct.pack(">I", stat) + window + bytes(12), text)
            elif opcode == 0x01:
                wanted = int.from_bytes(head[20:24], "big")
                window = struct.pack(">II", cmd + 1, cmd + 64)
                if head[1] & 0x40:
                    out = pdu(0x25, 0x81, bytes(8) + tag + b"\xff" * 4 + struct.pack(">I", stat) + window + bytes(12), bytes(wanted))
                elif head[1] & 0x20 and length < wanted:
                    open_writes[tag] = [wanted, length, cmd]
                    out = self.asks(tag, stat, open_writes[tag])
                else:
                    out = pdu(0x21, 0x80, bytes(8) + tag + bytes(4) + struct.pack(">I", stat) + window + bytes(12))
            elif opcode == 0x05:
                write = open_writes[tag]
                write[1] += length
                if not head[1] & 0x80:
                    continue
                window = struct.pack(">II", write[2] + 1, write[2] + 64)
                out = self.asks(tag, stat, write) if write[1] < write[0] else pdu(
                    0x21, 0x80, bytes(8) + tag + bytes(4) + struct.pack(">I", stat) + window + bytes(12))
            elif opcode == 0x06:
                out = pdu(0x26, 0x80, bytes(8) + tag + bytes(4) + struct.pack(">I", stat) + window + bytes(12))
            else:
                return
            if opcode != 0x05 and out[0] != 0x31 or out[0] == 0x21:
                stat += 1
            file.write(out)
            file.flush()

    @staticmethod
    def asks(tag, stat, write):
        wanted, got, cmd = write
        window = struct.pack(">II", cmd + 1, cmd + 64)
        return pdu(0x31, 0x80, bytes(8) + tag + b"\0\0\0\1" + struct.pack(">I", stat) + window + struct.pack(">III", 0, got, min(wanted - got, 262144)))


def main():
    parser = argparse.ArgumentParser(description=__doc__, formatter_class=argparse.RawDescriptionHelpFormatter)
    parser.add_argument("--gigabytes", type=float, default=2)
    parser.add_argument("program", nargs="?", default=TOP / "crates/lanthovur/out/lanthovur")
    asked = parser.parse_args()
    writes = int(asked.gigabytes * 10**9) // LENGTH
    counts = {True: 0, False: 0}

    def say(title, fine, why=""):
        counts[bool(fine)] += 1
        print(f"{'passed' if fine else 'failed'}   {title}" + ("" if fine else f": {why}"), flush=True)

    with tempfile.TemporaryDirectory(prefix="long-") as room:
        data, job = Path(room) / "data", Path(room) / "job"
        written, told, status, most = held(asked.program, "job", "--capture", "-", "--connection", 0, "--data", data, give=lambda out: session(out, writes))
        job.write_bytes(written)
        say(f"job of {writes} writes, {len(written)} bytes of text, {data.stat().st_size} of data: {most:.0f} MB", not status and most < MOST,
            f"status {status}: {told[:200]}")
        found = re.findall(r"^command 0 2a\S+ out at (\d+) (\d+) (\S+)\n  time .*\n  was (\S+)", written.decode(), re.M)
        due = [(str(n * LENGTH), str(LENGTH), hashlib.sha256(data_of(n)).hexdigest(), "unanswered" if n % 1000 == 999 else "good") for n in range(writes)]
        say("each write has its offset, its length, its hash and its outcome", found == due, f"{len(found)} of {len(due)}")
        taker = Taker()
        words = ["replay", "--to", f"127.0.0.1:{taker.port}", "--writes", "--all", "--data", data, job]
        written, told, status, most = held(asked.program, *words)
        first = written.decode().splitlines()[0] if written else ""
        fine = not status and most < MOST and first == f"0 of {2 * writes} differ, {writes // 1000} passed over"
        say(f"replay: {first}: {most:.0f} MB", fine, f"status {status}: {told[:200]}")
    print(f"{counts[True]} passed, {counts[False]} failed")
    return 1 if counts[False] else 0


if __name__ == "__main__":
    resource.setrlimit(resource.RLIMIT_CORE, (0, 0))
    sys.exit(main())
