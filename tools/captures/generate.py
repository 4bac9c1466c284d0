#!/usr/bin/env python3
"""Writes a capture of one connection to standard output, as long as is asked for.

    tools/captures/generate.py BYTES [--segment N] [--data N]

BYTES may end in M or G. The initiator logs in and writes to a disk: its stream is SCSI commands, each behind it two Data-Out
with N bytes of data (65,536, if not said). The target answers each command. The packets are Ethernet, IPv4 and TCP with at
most N bytes of the stream each (65,483, as on a loopback device). Sequence numbers wrap where the stream passes 4 GiB. On
standard error stand the number of PDUs and of bytes from each end.
"""
import argparse
import os
import struct
import sys

# The ends of the connection: address, port, and the sequence number of the SYN.
INITIATOR, TARGET = (b"\x7f\0\0\1", 40_000, 1000), (b"\x7f\0\0\1", 3260, 2_000_000_000)
SYN, ACK, PUSH = 2, 16, 8
# How many bytes are written in one call.
AT_ONCE = 1 << 20


def login():
    """A login request, and its answer."""
    text = b"InitiatorName=iqn.2026-01.example:host\0TargetName=iqn.2026-01.example:disk\0"
    request = bytes.fromhex("43870000 00") + len(text).to_bytes(3, "big")
    request += bytes.fromhex("400000010000 0000 00000001 0000 0000 00000001 00000000") + bytes(16)
    answer = bytes.fromhex("23870000 00000000 400000010000 0001 00000001 00000000 00000001 00000002 00000009") + bytes(12)
    return request + text + bytes(-len(text) % 4), answer


def command(length):
    """A SCSI command that writes, with its data in two Data-Out, and its response."""
    request = bytes.fromhex("01a10000 00000000 0000000000000000 00000005") + (2 * length).to_bytes(4, "big")
    request += bytes.fromhex("00000002 00000002 2a00 00000000 00") + (2 * length // 512 & 0xFFFF).to_bytes(2, "big") + bytes(7)
    data = b""
    for number in range(2):
        head = bytes([5, 0x80 * number, 0, 0, 0]) + length.to_bytes(3, "big") + bytes(8)
        head += bytes.fromhex("00000005 00000001 00000000 00000002 00000000") + number.to_bytes(4, "big")
        data += head + (number * length).to_bytes(4, "big") + bytes(4) + bytes(range(256)) * (length // 256) + bytes(length % 256)
    answer = bytes.fromhex("21800000 00000000 0000000000000000 00000005 00000000 00000002 00000003 0000000a") + bytes(12)
    return request + data, answer


class Capture:
    """A classic capture that goes to standard output in large pieces."""

    def __init__(self, segment):
        self.segment, self.packets, self.parts, self.held = segment, 0, [], 0
        self.sent = {INITIATOR: 0, TARGET: 0}
        self.put(struct.pack("<IHHiIII", 0xA1B2C3D4, 2, 4, 0, 0, 262144, 1))

    def put(self, *parts):
        self.parts += parts
        self.held += sum(map(len, parts))
        if self.held >= AT_ONCE:
            self.flush()

    def flush(self):
        sys.stdout.buffer.write(b"".join(self.parts))
        sys.stdout.buffer.flush()
        self.parts, self.held = [], 0

    def packet(self, source, other, flags, data=b""):
        """A packet of one end, with a microsecond more than the last."""
        number = source[2] + self.sent[source] + (not flags & SYN)
        acknowledged = other[2] + self.sent[other] + 1
        length = 40 + len(data)
        self.put(
            struct.pack("<IIII", self.packets // 10**6, self.packets % 10**6, 14 + length, 14 + length),
            bytes(12) + b"\x08\0" + struct.pack(">BBHHHBBH", 0x45, 0, length, 0, 0, 64, 6, 0) + source[0] + other[0],
            struct.pack(">HHIIBBHHH", source[1], other[1], number % 2**32, acknowledged % 2**32, 0x50, flags, 65_535, 0, 0),
            data)
        self.packets += 1
        self.sent[source] += len(data)

    def open(self):
        self.packet(INITIATOR, TARGET, SYN)
        self.packet(TARGET, INITIATOR, SYN | ACK)

    def send(self, source, other, stream):
        """Bytes of one end, in packets."""
        view = memoryview(stream)
        for at in range(0, len(stream), self.segment):
            self.packet(source, other, ACK | PUSH, view[at:at + self.segment])


def write(size, segment, length):
    """Writes the capture, and gives the number of PDUs from each end."""
    capture = Capture(segment)
    capture.open()
    request, answer = login()
    capture.send(INITIATOR, TARGET, request)
    capture.send(TARGET, INITIATOR, answer)
    stream, answer = command(length)
    # So many commands as one stream fill whole packets.
    group = max(1, (1 << 20) // len(stream))
    sent = answered = 0
    while capture.sent[INITIATOR] < size:
        capture.send(INITIATOR, TARGET, stream * group)
        sent += 3 * group
        for _ in range(group):
            capture.send(TARGET, INITIATOR, answer)
        answered += group
    capture.flush()
    return (1 + sent, 1 + answered), capture


def bytes_of(text):
    unit = {"K": 10, "M": 20, "G": 30}.get(text[-1:], 0)
    return int(text[:-1] if unit else text) << unit


def main():
    parser = argparse.ArgumentParser(description=__doc__, formatter_class=argparse.RawDescriptionHelpFormatter)
    parser.add_argument("bytes", type=bytes_of, help="how long the initiator's stream is at least")
    parser.add_argument("--segment", type=int, default=65_483, help="most bytes of the stream in a packet")
    parser.add_argument("--data", type=int, default=65_536, help="bytes of each Data-Out, a multiple of 4")
    words = parser.parse_args()
    try:
        pdus, capture = write(words.bytes, words.segment, words.data)
    except BrokenPipeError:
        os._exit(1)
    print(f"{pdus[0]} {pdus[1]} {capture.sent[INITIATOR]} {capture.sent[TARGET]}", file=sys.stderr)


if __name__ == "__main__":
    main()
