#!/usr/bin/env python3
"""Cuts small captures off at every byte, and changes each byte of their headers, and looks at what the program says.

    tools/captures/changes.py [--values N] [PROGRAM]

The captures are a classic one and a pcapng one of libiscsi and tgt, from crates/capture_vectors/data. Each goes to
`connections -` and to `show --capture -` by standard input.

Cut off, a capture has the lines of the packets that are whole before the cut, and the bytes that a walk of this script
counts. If the cut is within a record or block, the fault is `truncated at P`, with its offset. Else a file without a byte is
`empty`, and `show` has `no iSCSI connection` before the initiator's first byte.

With a header byte changed to N other values (8, if not said: each bit turned), the program ends with lines of the form of
docs/FORMATS.md, section 14, and either no fault or one of its faults. If nobody is to look at the byte, such as those of a
checksum, then nothing changes.

PROGRAM is crates/lanthovur/out/lanthovur if none is named; `./lanthovur </dev/null` builds it. One that was built without
proofs takes an hour. The last line is 'N passed, M failed'.
"""
import argparse
import os
import re
import subprocess
import sys
from concurrent.futures import ThreadPoolExecutor
from functools import lru_cache
from pathlib import Path

sys.dont_write_bytecode = True
from shuffle import blocks_of, records_of

TOP = Path(__file__).resolve().parents[2]
PROGRAM = TOP / "crates/lanthovur/out/lanthovur"
FILES = ["inq-lo.pcap", "inq-ng.pcapng"]
SECONDS = 60
# How long the link's header is, and where the bytes stand that nobody is to look at: by the header's first byte.
ETHERNET = 14
FREE = {"ethernet": range(0, 12), "ip": [1, 4, 5, 8, 10, 11], "tcp": [*range(8, 12), *range(14, 20)]}

NUMBER = "[0-9]+"
FAULTS = re.compile(
    rf"standard input: (capture: (unknown format|bad length|truncated|unknown interface) at {NUMBER}|capture: no iSCSI connection"
    rf"|capture: link type {NUMBER} at {NUMBER} \(packet {NUMBER}\)|capture: (fragment|cut) at {NUMBER} \(packet {NUMBER}\)"
    rf"|capture: connection {NUMBER} begins before the capture|connection {NUMBER}: (gap|conflict) at {NUMBER} \(packet {NUMBER}\)"
    rf"|connection {NUMBER}: stream: .*)\n")
END = r"([0-9.]+|\[[0-9a-f:.]+\]):[0-9]+"
LISTED = re.compile(
    rf"{NUMBER} {END} {END} {NUMBER} {NUMBER}( login)?( begun)?( (gap|conflict|cut) (initiator|target) {NUMBER})*")
SHOWN = re.compile(rf"{NUMBER} {NUMBER}\.[0-9]{{6,9}} [<>] {NUMBER} [A-Z][A-Za-z0-9-]+( [a-z0-9]+=[0-9a-f]+)*")


@lru_cache(maxsize=None)
def run(word, data):
    """What the program says of a capture: its status, its lines, and its line on standard error."""
    words = ["connections", "-"] if word == "connections" else ["show", "--capture", "-"]
    ran = subprocess.run([PROGRAM, *words], input=data, capture_output=True, timeout=SECONDS)
    return ran.returncode, ran.stdout.decode().splitlines(), ran.stderr.decode()


def walk(data):
    """The offsets at which records or blocks begin, with the end of the file, and the packets: the offset of each in its
    record, and its end, sending port and number of data bytes."""
    is_classic = data[:4] != b"\x0a\x0d\x0d\x0a"
    _, found = (records_of if is_classic else blocks_of)(data)
    starts, packets, at = [0], [], 0
    if is_classic:
        starts, at = [0, 24], 24
    else:
        while at < len(data):
            at += int.from_bytes(data[at + 4:at + 8], "little")
            starts.append(at)
        at = 0
    for whole, packet, _ in found:
        at = data.index(whole, at)
        ip = packet[ETHERNET:]
        header, total = (ip[0] & 15) * 4, int.from_bytes(ip[2:4], "big")
        port, length = int.from_bytes(ip[header:header + 2], "big"), total - header - (ip[header + 12] >> 4) * 4
        packets.append((at + (16 if is_classic else 28), at + len(whole), port, length, header))
        at += len(whole)
        if is_classic:
            starts.append(at)
    return starts, packets


class Checks:
    """Counts what is so and what is not."""

    def __init__(self):
        self.passed = self.failed = 0

    def check(self, what, is_so, seen):
        if is_so:
            self.passed += 1
        else:
            self.failed += 1
            print(f"FAILED {what}: {seen}", flush=True)


def cut(checks, name, data, starts, packets, length):
    """One cut."""
    within = length not in starts
    start = max(start for start in starts if start <= length)
    fault = f"standard input: capture: truncated at {start}\n" if within else "" if length else "standard input: capture: empty\n"
    first = packets[0][2]
    counts = [sum(one[3] for one in packets if one[1] <= length and (one[2] == first) == mine) for mine in (True, False)]
    status, lines, err = run("connections", data[:length])
    due = [" ".join([*line.split(" ")[:3], *map(str, counts), *(["login"] if counts[0] else [])]) for line in run("connections", data)[1]]
    due = due if any(one[1] <= length for one in packets) else []
    checks.check(f"{name}: connections, {length} bytes", (status, lines, err) == (int(fault != ""), due, fault), (status, lines, err))
    if not fault and not counts[0]:
        fault = "standard input: capture: no iSCSI connection\n"
    status, lines, err = run("show", data[:length])
    whole, at_start = run("show", data)[1], run("show", data[:start])[1]
    is_so = (status, err) == (int(fault != ""), fault) and lines == at_start == whole[:len(lines)]
    checks.check(f"{name}: show, {length} bytes", is_so, (status, len(lines), err))


def free_places(packets):
    """The places in a file of bytes that nobody is to look at."""
    found = set()
    for at, _, _, _, header in packets:
        found |= {at + place for place in FREE["ethernet"]}
        found |= {at + ETHERNET + place for place in FREE["ip"]}
        found |= {at + ETHERNET + header + place for place in FREE["tcp"]}
    return found


def changed(checks, name, data, free, at, value):
    """One byte with another value."""
    other = data[:at] + bytes([value]) + data[at + 1:]
    for word, form in (("connections", LISTED), ("show", SHOWN)):
        status, lines, err = run(word, other)
        if at in free:
            is_so = (status, lines, err) == run(word, data)
        else:
            is_so = (status == 0 and not err or status == 1 and FAULTS.fullmatch(err)) and all(map(form.fullmatch, lines))
        checks.check(f"{name}: {word}, byte {at} is {value:02x}", is_so, (status, lines[-1:], err))


def heads(starts, packets):
    """The places of all header bytes: all but the data of packets."""
    data = {place for _, end, _, length, _ in packets for place in range(end - length, end)}
    return [at for at in range(starts[-1]) if at not in data]


def main():
    parser = argparse.ArgumentParser(description=__doc__, formatter_class=argparse.RawDescriptionHelpFormatter)
    parser.add_argument("program", nargs="?", default=str(PROGRAM), help="the program that reads captures")
    parser.add_argument("--values", type=int, default=8, choices=range(1, 9), help="to how many values each byte is changed")
    words = parser.parse_args()
    globals()["PROGRAM"] = Path(words.program).resolve()
    if not os.path.isfile(PROGRAM):
        sys.exit(f"there is no program {PROGRAM}: `./lanthovur </dev/null` builds it")
    checks = Checks()
    for name in FILES:
        data = (TOP / "crates/capture_vectors/data" / name).read_bytes()
        starts, packets = walk(data)
        free = free_places(packets)
        places = heads(starts, packets)
        with ThreadPoolExecutor(4) as pool:
            list(pool.map(lambda length: cut(checks, name, data, starts, packets, length), range(len(data) + 1)))
            pairs = [(at, data[at] ^ 1 << bit) for at in places for bit in range(words.values)]
            list(pool.map(lambda pair: changed(checks, name, data, free, *pair), pairs))
        print(f"{name}: cut at {len(data) + 1} places, {len(places)} bytes changed to {words.values} values", flush=True)
    print(f"{checks.passed} passed, {checks.failed} failed")
    sys.exit(1 if checks.failed else 0)


if __name__ == "__main__":
    main()
