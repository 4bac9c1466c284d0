#!/usr/bin/env python3
"""Cuts whole captures, and holds what the program shows of the cuts against what it shows of the whole.

    tools/captures/cuts.py [--cuts N] [--seed S] [--carries] [--program PROGRAM] begin|lose|snap FILE ..

Each FILE is a classic capture of Ethernet and IPv4, whole. Of one of its connections each of N cuts (1,000, if not said) has
some packets: with `begin` those from one that chance names on, with `lose` all but one to eight in a row, with `snap` all,
of which each has its first 70 to 400 bytes. A cut is counted for one direction, of which it has ten whole PDUs behind the first
packet that is cut or missing; with `snap`, ten of which the header is whole. Chances that have fewer are told apart. Many cuts
are one file, each with a port of its own. A cut has at most 256 KiB behind that packet.

Each line of a cut has to be one that the whole has at that place, in all members but the packet, the times, `assumed` and
`captured`. The last lines say how many cuts have a line behind their place, how many have none and what was told of them,
and how many have a line that the whole has not. With --carries the captures carry iSCSI as data: such lines are counted, and
are no failure. PROGRAM is crates/lanthovur/out/lanthovur if none is named.
"""
import argparse
import collections
import json
import random
import struct
import subprocess
import sys
import tempfile
from pathlib import Path

TOP = Path(__file__).resolve().parents[2]
LEFT_OUT = {"connection", "packet", "time", "after", "epoch", "assumed", "captured", "place", "explain"}
# What an object has of its command, which a cut may lack, or of a segment of which a cut has a part.
OF_OTHERS = {"command", "lba", "blocks", "page", "lun", "sense_key", "asc", "ascq", "keys"}
MOST = 256 << 10
IN_A_FILE = 100


class Packet:
    """A record of a classic file: its header, its bytes, and what its TCP header says."""

    def __init__(self, order, head, data):
        self.head, self.data = head, data
        self.tcp = None
        at = 14
        if data[12:14] != b"\x08\x00" or data[at] >> 4 != 4 or data[at + 9] != 6:
            return
        ip = 4 * (data[at] & 15)
        length = int.from_bytes(data[at + 2:at + 4], "big") or len(data) - at
        self.tcp = at + ip
        header = 4 * (data[self.tcp + 12] >> 4)
        self.source = (data[at + 12:at + 16], int.from_bytes(data[self.tcp:self.tcp + 2], "big"))
        self.target = (data[at + 16:at + 20], int.from_bytes(data[self.tcp + 2:self.tcp + 4], "big"))
        self.number = int.from_bytes(data[self.tcp + 4:self.tcp + 8], "big")
        self.flags = data[self.tcp + 13]
        self.length = length - ip - header
        if self.flags & 2:
            self.number = (self.number + 1) % 2**32

    def ported(self, client, port):
        """Its bytes, with the client's port changed."""
        at = self.tcp if self.source == client else self.tcp + 2
        return self.data[:at] + port.to_bytes(2, "big") + self.data[at + 2:]


def packets_of(name):
    data = Path(name).read_bytes()
    order = "<" if data[:4] in (b"\xd4\xc3\xb2\xa1", b"\x4d\x3c\xb2\xa1") else ">"
    at, found = 24, []
    while at + 16 <= len(data):
        length = struct.unpack_from(order + "I", data, at + 8)[0]
        found.append(Packet(order, data[at:at + 16], data[at + 16:at + 16 + length]))
        at += 16 + length
    return data[:24], order, found


class Connection:
    """The packets of a connection, whose client sent the first one, and the lines of the whole."""

    def __init__(self, first):
        self.client, self.packets, self.lines = first.source, [], {"initiator": {}, "target": {}}
        self.begun = {}

    def end(self, packet):
        return "initiator" if packet.source == self.client else "target"

    def add(self, packet):
        self.packets.append(packet)
        if packet.flags & 2:
            self.begun.setdefault(self.end(packet), packet.number)

    def offset(self, packet):
        return (packet.number - self.begun[self.end(packet)]) % 2**32


def connections_of(packets):
    """The connections in the order of their first packets; a SYN begins one."""
    last, found = {}, []
    for packet in packets:
        if packet.tcp is None:
            continue
        ends = frozenset([packet.source, packet.target])
        if packet.flags & 18 == 2:
            last[ends] = Connection(packet)
            found.append(last[ends])
        if ends in last:
            last[ends].add(packet)
    return found


def shown(program, name):
    """The objects that the program writes of a capture."""
    run = subprocess.run([*program, "show", "--capture", name, "--json"], capture_output=True, text=True)
    if run.returncode not in (0, 1):
        sys.exit(f"{name}: {run.stderr}")
    return [json.loads(line) for line in run.stdout.splitlines()]


def read_whole(program, name):
    """The connections of a whole capture with their lines by place."""
    head, order, packets = packets_of(name)
    found = connections_of(packets)
    for line in shown(program, name):
        if line["kind"][0].isupper():
            found[line["connection"]].lines[line["from"]][int(line["place"])] = line
        else:
            sys.exit(f"{name} is not whole: {line['text']}")
    return head, order, found


def left_out(line):
    """The members that need not be those of the whole: of a PDU that is no command, what others say of it."""
    return set() if line["kind"] == "SCSI-Command" else OF_OTHERS


class Cut:
    """A cut of a connection: its packets, for which end it counts, and from which offset on."""

    def __init__(self, kind, chance, connection):
        self.connection = connection
        packets = connection.packets
        first = chance.randrange(3, max(4, len(packets) - 1))
        while first < len(packets) and packets[first].length <= 0:
            first += 1
        self.fits = first < len(packets)
        if not self.fits:
            return
        self.end = connection.end(packets[first])
        self.place = connection.offset(packets[first])
        last, size = first, 0
        while last < len(packets) and size < MOST:
            size += len(packets[last].data)
            last += 1
        if kind == "begin":
            self.packets = [(packet, None) for packet in packets[first:last]]
            ends = [connection.offset(packet) for packet, _ in self.packets if packet.length > 0 and connection.end(packet) == self.end]
            self.base = ends[0]
        elif kind == "lose":
            lost = chance.randint(1, 8)
            self.packets = [(packet, None) for packet in packets[:first] + packets[first + lost:last]]
            self.base = 0
        else:
            snap = chance.randint(70, 400)
            self.packets = [(packet, snap) for packet in packets[:last]]
            self.base, self.place = 0, 0
        self.fits = self.whole(kind == "snap") >= 10

    def whole(self, headers_alone):
        """How many PDUs behind the place the cut has whole, or the headers of which it has."""
        runs = sorted((self.connection.offset(packet), self.connection.offset(packet) + self.kept(packet, snap)) for packet, snap in self.packets
                      if packet.length > 0 and self.connection.end(packet) == self.end)
        joined = []
        for first, behind in runs:
            if joined and first <= joined[-1][1]:
                joined[-1][1] = max(joined[-1][1], behind)
            else:
                joined.append([first, behind])
        count = 0
        for place, line in self.connection.lines[self.end].items():
            length = 48 if headers_alone else 48 + (line["data"] + 3) // 4 * 4
            count += place >= self.place and any(first <= place and place + length <= behind for first, behind in joined)
        return count

    @staticmethod
    def kept(packet, snap):
        """How many bytes of a packet's segment are captured."""
        header = len(packet.data) - packet.length
        return packet.length if snap is None else max(0, min(len(packet.data), snap) - header)

    def write(self, order, port):
        parts = []
        for packet, snap in self.packets:
            data = packet.ported(self.connection.client, port)[:snap]
            head = packet.head[:8] + struct.pack(order + "I", len(data)) + packet.head[12:]
            parts += [head, data]
        return b"".join(parts)

    def judge(self, lines):
        """Says how many lines behind the place are so, which one is not, and what was told."""
        good, told = 0, []
        for line in lines:
            if line.get("from", self.end) != self.end:
                continue
            if not line["kind"][0].isupper():
                told.append(line["kind"])
                continue
            place = int(line["place"]) + self.base
            due = self.connection.lines[self.end].get(place)
            if due is None or any(due.get(name) != line.get(name) for name in {*due, *line} - LEFT_OUT - left_out(line)):
                return good, line, told
            good += place >= self.place
        return good, None, told


def run(options, room):
    program = [options.program]
    wholes = [read_whole(program, name) for name in options.files]
    chance = random.Random(options.seed)
    counts, reasons, lines, wrong = collections.Counter(), collections.Counter(), 0, []
    left, few = options.cuts, 0
    while left > 0:
        head, order, connections = chance.choice(wholes)
        cuts = []
        for _ in range(100 * IN_A_FILE):
            if len(cuts) < min(left, IN_A_FILE):
                cut = Cut(options.kind, chance, chance.choice(connections))
                if cut.fits:
                    cuts.append(cut)
                else:
                    few += 1
        if not cuts:
            sys.exit("no cut of these captures has ten PDUs behind it")
        name = room / "cuts.pcap"
        name.write_bytes(head + b"".join(cut.write(order, 20_000 + n) for n, cut in enumerate(cuts)))
        found = collections.defaultdict(list)
        for line in shown(program, name):
            found[line.get("connection")].append(line)
        for number, cut in enumerate(cuts):
            good, bad, told = cut.judge(found[number])
            lines += good
            counts["wrong" if bad else "lines" if good else "none"] += 1
            if bad:
                wrong.append(bad)
            elif not good:
                reasons[" ".join(dict.fromkeys(told)) or "nothing told"] += 1
        left -= len(cuts)
        print(f"{options.cuts - left} cuts: {dict(counts)}", file=sys.stderr, flush=True)
    for bad in wrong[:5]:
        print("not a line of the whole:", json.dumps(bad))
    for reason, count in reasons.most_common():
        print(f"without a line: {count} ({reason})")
    print(f"chances with fewer than ten PDUs behind the place, which are no cuts: {few}")
    print(f"{counts['lines']} cuts of {options.cuts} have lines, {lines} in all; {counts['none']} have none, {counts['wrong']} a wrong one")
    return 0 if options.carries or not wrong and counts["lines"] >= 0.95 * options.cuts else 1


def main():
    words = argparse.ArgumentParser(description=__doc__, formatter_class=argparse.RawDescriptionHelpFormatter)
    words.add_argument("kind", choices=["begin", "lose", "snap"])
    words.add_argument("files", nargs="+", metavar="FILE")
    words.add_argument("--cuts", type=int, default=1000)
    words.add_argument("--seed", type=int, default=1)
    words.add_argument("--carries", action="store_true")
    words.add_argument("--program", default=str(TOP / "crates/lanthovur/out/lanthovur"))
    options = words.parse_args()
    with tempfile.TemporaryDirectory() as room:
        return run(options, Path(room))


if __name__ == "__main__":
    sys.exit(main())
