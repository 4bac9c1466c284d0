#!/usr/bin/env python3
"""Makes a capture of another one, with the same byte streams.

    tools/captures/mangle.py IN.pcap OUT SEED KINDS

IN is a classic capture of Ethernet, IPv4 and TCP. OUT has its packets permuted within a window, repeated, cut into
smaller ones that overlap, or moved to other links. KINDS is a comma list of: reorder, repeat, cut, overlap, vlan, ipv6,
raw, null, sll, sll2, ng, big, nano, wrap, keepalive, reuse, midstream, and of drop=N, conflict=N, fragment, snap=N, which
leave bytes out. The same SEED and KINDS give the same file.
"""
import random
import struct
import sys

SYN, FIN, ACK = 2, 1, 16


class Packet:
    """A TCP segment with its time in nanoseconds."""

    def __init__(self, time, frame):
        ip = frame[14:]
        header, total = (ip[0] & 15) * 4, struct.unpack(">H", ip[2:4])[0]
        tcp = ip[header:total]
        length = (tcp[12] >> 4) * 4
        self.time = time
        self.source, self.destination = ip[12:16], ip[16:20]
        self.source_port, self.destination_port, self.sequence, self.acknowledged = struct.unpack(">HHII", tcp[:12])
        self.flags = tcp[13]
        self.window = struct.unpack(">H", tcp[14:16])[0]
        self.options = tcp[20:length]
        self.data = tcp[length:]

    def copy(self, **changes):
        packet = object.__new__(Packet)
        packet.__dict__.update(self.__dict__)
        packet.__dict__.update(changes)
        return packet


def read(path):
    """The packets of a classic capture of Ethernet."""
    data = open(path, "rb").read()
    order = "<" if data[0] in (0xD4, 0x4D) else ">"
    unit = 1 if data[:4] in (b"\x4d\x3c\xb2\xa1", b"\xa1\xb2\x3c\x4d") else 1000
    if struct.unpack(order + "I", data[20:24])[0] & 0xFFFF != 1:
        sys.exit(f"{path}: not Ethernet")
    at, packets = 24, []
    while at < len(data):
        seconds, units, captured, _ = struct.unpack(order + "IIII", data[at:at + 16])
        packets.append(Packet(seconds * 10**9 + units * unit, data[at + 16:at + 16 + captured]))
        at += 16 + captured
    return packets


def checksum(data):
    data += bytes(len(data) % 2)
    total = sum(struct.unpack(f">{len(data) // 2}H", data))
    while total >> 16:
        total = (total & 0xFFFF) + (total >> 16)
    return ~total & 0xFFFF


def with_sum(data, at, value):
    return data[:at] + struct.pack(">H", value) + data[at + 2:]


def packed(packet, six, fragment=False):
    """The IP packet of a segment."""
    fields = (packet.source_port, packet.destination_port, packet.sequence % 2**32, packet.acknowledged % 2**32,
              (20 + len(packet.options)) // 4 * 16, packet.flags, packet.window, 0, 0)
    tcp = struct.pack(">HHIIBBHHH", *fields) + packet.options + packet.data
    if six:
        ends = b"".join(b"\xfd" + bytes(11) + end for end in (packet.source, packet.destination))
        tcp = with_sum(tcp, 16, checksum(ends + struct.pack(">II", len(tcp), 6) + tcp))
        hops = b"\x06\x00\x01\x04\0\0\0\0"
        return struct.pack(">IHBB", 0x60000000, len(tcp) + 8, 0, 64) + ends + hops + tcp
    ends = packet.source + packet.destination
    tcp = with_sum(tcp, 16, checksum(ends + struct.pack(">HH", 6, len(tcp)) + tcp))
    header = struct.pack(">BBHHHBBH", 0x45, 0, 20 + len(tcp), 1, 0x2000 if fragment else 0x4000, 64, 6, 0) + ends
    return with_sum(header, 10, checksum(header)) + tcp


# ---- what is done to the list of packets

def wrapped(packets):
    """Sequence numbers that wrap behind some 300 bytes."""
    base = {(p.source, p.source_port, p.destination, p.destination_port): p.sequence for p in packets if p.flags & SYN}
    for packet in packets:
        mine = base[packet.source, packet.source_port, packet.destination, packet.destination_port]
        yours = base.get((packet.destination, packet.destination_port, packet.source, packet.source_port), 0)
        packet.sequence = (packet.sequence - mine + 2**32 - 300) % 2**32
        if packet.flags & ACK:
            packet.acknowledged = (packet.acknowledged - yours + 2**32 - 300) % 2**32


def cut(packets, chance, overlap):
    for packet in packets:
        if len(packet.data) <= 8:
            yield packet
            continue
        most = min(len(packet.data) - 1, chance.randint(1, 3))
        at, parts = 0, []
        for end in sorted(chance.sample(range(1, len(packet.data)), most)) + [len(packet.data)]:
            low = max(0, at - chance.randint(0, 5)) if overlap else at
            parts.append(packet.copy(sequence=packet.sequence + low, data=packet.data[low:end], flags=packet.flags & ~FIN))
            at = end
        parts[-1].flags |= packet.flags & FIN
        yield from parts


def repeated(packets, chance):
    seen = []
    for packet in packets:
        seen.append(packet)
        if packet.data and chance.random() < 0.3:
            seen.append(chance.choice([other for other in seen if other.data]))
    return seen


def kept_alive(packets, chance):
    """A keepalive repeats the last byte as a zero. A system sends it only where all bytes up to there have arrived."""
    ends, waiting = {}, {}
    for packet in packets:
        yield packet
        key = packet.source, packet.source_port, packet.destination, packet.destination_port
        if packet.flags & SYN or key not in ends:
            ends[key], waiting[key] = (packet.sequence + bool(packet.flags & SYN)) % 2**32, []
        if not packet.data:
            continue
        waiting[key].append((packet.sequence, len(packet.data)))
        while begun := [it for it in waiting[key] if (ends[key] - it[0]) % 2**32 < 2**31]:
            for at, length in begun:
                ends[key] = (ends[key] + max(0, length - (ends[key] - at) % 2**32)) % 2**32
                waiting[key].remove((at, length))
        if not waiting[key] and (packet.sequence + len(packet.data)) % 2**32 == ends[key] and chance.random() < 0.3:
            yield packet.copy(sequence=ends[key] - 1, data=b"\0")


def reordered(packets, chance):
    keyed = [(n + (chance.randint(0, 6) if p.data else 0), n, p) for n, p in enumerate(packets)]
    return [packet for _, _, packet in sorted(keyed, key=lambda row: row[:2])]


def without(packets, number):
    left = [packet for packet in packets if packet.data][number]
    is_left = lambda p: p.data and p.sequence == left.sequence and p.source_port == left.source_port
    return [packet for packet in packets if not is_left(packet)]


def in_conflict(packets, number):
    at = [n for n, packet in enumerate(packets) if len(packet.data) > 60][number]
    packet = packets[at]
    late = packet.copy(sequence=packet.sequence + 20, data=packet.data[20:])
    other = packet.copy(data=packet.data[:40] + bytes([packet.data[40] ^ 255]) + packet.data[41:])
    return packets[:at] + [late, other] + packets[at + 1:]


def changed(packets, kinds, chance):
    if "wrap" in kinds:
        wrapped(packets)
    if "midstream" in kinds:
        packets = [packet for packet in packets if not packet.flags & SYN]
    if "cut" in kinds:
        packets = list(cut(packets, chance, "overlap" in kinds))
    if "repeat" in kinds:
        packets = repeated(packets, chance)
    if "reorder" in kinds:
        packets = reordered(packets, chance)
    # The byte of a keepalive is not that of the stream, so it comes when that is known.
    if "keepalive" in kinds:
        packets = list(kept_alive(packets, chance))
    if "drop" in kinds:
        packets = without(packets, int(kinds["drop"]))
    if "conflict" in kinds:
        packets = in_conflict(packets, int(kinds["conflict"]))
    if "reuse" in kinds:
        step = 123456
        packets = packets + [p.copy(sequence=p.sequence + step,
                                    acknowledged=p.acknowledged + (step if p.flags & ACK else 0)) for p in packets]
    return packets


# ---- files

def framed(packet, kinds, chance, fragment):
    """The link type of a packet, and the packet with its link's header."""
    six = "ipv6" in kinds
    ip, protocol = packed(packet, six, fragment), b"\x86\xdd" if six else b"\x08\0"
    if "raw" in kinds:
        return 101, ip
    if "null" in kinds:
        return 0, struct.pack("<I", 30 if six else 2) + ip
    if "sll" in kinds:
        return 113, b"\0\0\x03\x04\0\x06" + bytes(8) + protocol + ip
    if "sll2" in kinds:
        return 276, protocol + b"\0\0\0\0\0\x01\x03\x04\0\x06" + bytes(8) + ip
    tags = b"\x81\0\0\x05" * chance.randint(1, 2) if "vlan" in kinds else b""
    frame = bytes(12) + tags + protocol + ip
    return 1, frame + bytes(max(0, 60 - len(frame)))


def classic(order, nano, link, snap, frames):
    magic = 0xA1B23C4D if nano else 0xA1B2C3D4
    yield struct.pack(order + "IHHiIII", magic, 2, 4, 0, 0, 262144, link)
    for time, frame in frames:
        units = time % 10**9 // (1 if nano else 1000)
        yield struct.pack(order + "IIII", time // 10**9, units, min(snap, len(frame)), len(frame)) + frame[:snap]


def pcapng(order, link, snap, frames):
    """Blocks with options, an interface that no packet has, and blocks that are passed over."""
    def block(kind, body):
        body += bytes(-len(body) % 4)
        return struct.pack(order + "II", kind, 12 + len(body)) + body + struct.pack(order + "I", 12 + len(body))

    def option(code, value):
        return struct.pack(order + "HH", code, len(value)) + value + bytes(-len(value) % 4)

    end = option(0, b"")
    yield block(0x0A0D0D0A, struct.pack(order + "IHHq", 0x1A2B3C4D, 1, 0, -1) + option(4, b"mangle.py") + end)
    yield block(1, struct.pack(order + "HHI", 147, 0, 0) + end)
    yield block(1, struct.pack(order + "HHI", link, 0, 0) + option(2, b"lo") + option(9, b"\x09") + end)
    for number, (time, frame) in enumerate(frames):
        data = frame[:snap]
        head = struct.pack(order + "IIIII", 1, time >> 32, time & 0xFFFFFFFF, len(data), len(frame))
        yield block(6, head + data + bytes(-len(data) % 4) + option(2, struct.pack(order + "I", 0)) + end)
        if number % 5 == 0:
            yield block(4, struct.pack(order + "HH", 0, 0))
        if number % 7 == 0:
            yield block(0xBAD, b"own" * 5)
    yield block(5, struct.pack(order + "III", 1, 0, 0) + end)


def mangled(path, seed, words):
    """The bytes of the new capture, and how many packets it has."""
    chance = random.Random(seed)
    kinds = dict((word.split("=") + ["1"])[:2] for word in words.split(","))
    packets = changed(read(path), kinds, chance)
    link, frames = 1, []
    for number, packet in enumerate(packets):
        fragment = "fragment" in kinds and number == len(packets) // 2
        link, frame = framed(packet, kinds, chance, fragment)
        frames.append((packets[0].time + number * 1000000, frame))
    order, snap = ">" if "big" in kinds else "<", int(kinds.get("snap", 262144))
    if "ng" in kinds:
        return b"".join(pcapng(order, link, snap, frames)), len(frames)
    return b"".join(classic(order, "nano" in kinds, link, snap, frames)), len(frames)


if __name__ == "__main__":
    if len(sys.argv) != 5:
        sys.exit(__doc__)
    source, target, seed, words = sys.argv[1:]
    with open(target, "wb") as file:
        file.write(mangled(source, int(seed), words)[0])
