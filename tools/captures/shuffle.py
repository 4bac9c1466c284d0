"""Puts packets of a capture out of order, and repeats some, whatever its format and link are."""
import struct


def records_of(data):
    """What stands before the first packet, and the packets of a classic file, each with its record's head."""
    order = "<" if data[0] in (0xD4, 0x4D) else ">"
    link = struct.unpack(order + "I", data[20:24])[0] & 0xFFFF
    at, found = 24, []
    while at < len(data):
        size = 16 + struct.unpack(order + "I", data[at + 8:at + 12])[0]
        found.append((data[at:at + size], data[at + 16:at + size], link))
        at += size
    return data[:24], found


def blocks_of(data):
    """What stands before the first packet, and the packets of a pcapng file of one section, each with its block."""
    order = "<" if data[8:12] == b"\x4d\x3c\x2b\x1a" else ">"
    at, before, found, links = 0, b"", [], []
    while at < len(data):
        kind, size = struct.unpack(order + "II", data[at:at + 8])
        block = data[at:at + size]
        if kind == 6:
            interface, _, _, captured = struct.unpack(order + "IIII", block[8:24])
            found.append((block, block[28:28 + captured], links[interface]))
        elif not found:
            before += block
        if kind == 1:
            links.append(struct.unpack(order + "H", block[8:10])[0])
        at += size
    return before, found


def has_data(packet, link):
    """Whether an IPv4 packet on Ethernet or Linux cooked is a TCP segment with data."""
    ip = packet[{1: 14, 113: 16, 276: 20}[link]:]
    header, total = (ip[0] & 15) * 4, struct.unpack(">H", ip[2:4])[0]
    return total > header + (ip[header + 12] >> 4) * 4


def shuffled(data, chance):
    """The same packets, those with data up to six places later and three of ten twice."""
    before, found = blocks_of(data) if data[:4] == b"\x0a\x0d\x0d\x0a" else records_of(data)
    keyed = []
    for number, (whole, packet, link) in enumerate(found):
        moves = has_data(packet, link)
        for _ in range(2 if moves and chance.random() < 0.3 else 1):
            keyed.append((number + (chance.randint(0, 6) if moves else 0), len(keyed), whole))
    return before + b"".join(whole for _, _, whole in sorted(keyed))
