#!/usr/bin/env python3
"""Compares the fields that `show` prints with those that the iSCSI dissector of tshark reads.

    tools/fields/run.py [--made N] [--seed S] [STREAM ..]

The streams are those of `crates/capture_vectors/data` and `docs/session`, a made one for each direction with N PDUs (40, if
not said) of each kind whose fields chance chooses, and those that are named. Each PDU is put into a TCP packet of a capture,
and both programs read it: `show` the stream, tshark the capture. Each value of a line is compared with tshark's field of the
same name; values for which tshark has no field are counted. The last line is 'N passed, M failed', in values.

It wants tshark and the built program: `./lanthovur </dev/null` makes it. With --program another one is run.
"""
import argparse
import random
import shutil
import struct
import subprocess
import sys
import tempfile
from pathlib import Path

TOP = Path(__file__).resolve().parents[2]
# The kinds by their opcodes, and which end sends them.
KINDS = {
    0x00: ("NOP-Out", "initiator"), 0x01: ("SCSI-Command", "initiator"), 0x02: ("Task-Request", "initiator"),
    0x03: ("Login-Request", "initiator"), 0x04: ("Text-Request", "initiator"), 0x05: ("Data-Out", "initiator"),
    0x06: ("Logout-Request", "initiator"), 0x20: ("NOP-In", "target"), 0x21: ("SCSI-Response", "target"),
    0x22: ("Task-Response", "target"), 0x23: ("Login-Response", "target"), 0x24: ("Text-Response", "target"),
    0x25: ("Data-In", "target"), 0x26: ("Logout-Response", "target"), 0x31: ("R2T", "target"), 0x32: ("Async", "target"),
    0x3f: ("Reject", "target"),
}
# The field of tshark for each name of `show`, in all kinds or in one.
FIELDS = {
    "i": "iscsi.I", "itt": "iscsi.initiatortasktag", "ttt": "iscsi.targettransfertag", "cmdsn": "iscsi.cmdsn",
    "expstatsn": "iscsi.expstatsn", "statsn": "iscsi.statsn", "expcmdsn": "iscsi.expcmdsn", "maxcmdsn": "iscsi.maxcmdsn",
    "data": "iscsi.datasegmentlength", "datasn": "iscsi.datasn", "offset": "iscsi.bufferOffset", "r2tsn": "iscsi.r2tsn",
    "expdatasn": "iscsi.expdatasn", "isid": "iscsi.isid", "tsih": "iscsi.tsih", "cid": "iscsi.cid",
    "vmax": "iscsi.versionmax", "vmin": "iscsi.versionmin", "vactive": "iscsi.versionactive",
    "time2wait": "iscsi.time2wait", "time2retain": "iscsi.time2retain", "refcmdsn": "iscsi.refcmdsn",
    "event": "iscsi.asyncevent", "vcode": "iscsi.eventvendorcode", "p1": "iscsi.parameter1", "p2": "iscsi.parameter2",
    "p3": "iscsi.parameter3", "csg": "iscsi.login.csg", "nsg": "iscsi.login.nsg", "lun": "scsi.lun",
    "SCSI-Command f": "iscsi.scsicommand.F", "r": "iscsi.scsicommand.R", "w": "iscsi.scsicommand.W",
    "attr": "iscsi.scsicommand.attr", "edtl": "iscsi.scsicommand.expecteddatatransferlength",
    "Login-Request t": "iscsi.login.T", "Login-Request c": "iscsi.login.C",
    "Login-Response t": "iscsi.login.T", "Login-Response c": "iscsi.login.C", "class": "iscsi.login.status",
    "Text-Request f": "iscsi.text.F", "Text-Request c": "iscsi.text.C",
    "Text-Response f": "iscsi.text.F", "Text-Response c": "iscsi.text.C",
    "function": "iscsi.taskmanfun.function", "rtt": "iscsi.taskmanfun.referencedtasktag",
    "Task-Response response": "iscsi.taskmanfun.response",
    "Logout-Request reason": "iscsi.logout.reason", "Logout-Response response": "iscsi.logout.response",
    "Reject reason": "iscsi.reject.reason",
    "SCSI-Response bo": "iscsi.scsiresponse.o", "SCSI-Response bu": "iscsi.scsiresponse.u",
    "SCSI-Response o": "iscsi.scsiresponse.O", "SCSI-Response u": "iscsi.scsiresponse.U",
    "SCSI-Response response": "iscsi.scsiresponse.response", "SCSI-Response status": "iscsi.scsiresponse.status",
    "SCSI-Response residual": "iscsi.scsiresponse.residualcount", "bresidual": "iscsi.scsiresponse.bidireadresidualcount",
    "Data-Out f": "iscsi.scsidata.F", "Data-In f": "iscsi.scsidata.F", "a": "iscsi.scsidata.A", "s": "iscsi.scsidata.S",
    "Data-In o": "iscsi.scsidata.O", "Data-In u": "iscsi.scsidata.U", "Data-In status": "iscsi.scsiresponse.status",
    "Data-In residual": "iscsi.scsidata.readresidualcount", "length": "iscsi.desireddatalength",
}
NAMES = sorted(set(FIELDS.values()) | {"iscsi.opcode"})
# How many packets stand before the first PDU of a capture.
HANDSHAKE = 3


def pdus_of(stream):
    """The PDUs of a stream, each as its bytes."""
    at, pdus = 0, []
    while at + 48 <= len(stream):
        length = int.from_bytes(stream[at + 5:at + 8], "big")
        end = at + 48 + 4 * stream[at + 4] + length + -length % 4
        pdus.append(stream[at:end])
        at = end
    return pdus


def packet(end, sequence, answered, flags, data):
    """An IPv4 packet with TCP, from the initiator or from the target at port 3260."""
    ends = [(bytes([10, 0, 0, 1]), 40_000), (bytes([10, 0, 0, 2]), 3260)]
    (source, port), (destination, other) = ends if end == "initiator" else reversed(ends)
    tcp = struct.pack(">HHIIBBHHH", port, other, sequence % 2**32, answered % 2**32, 0x50, flags, 65_535, 0, 0) + data
    ip = struct.pack(">BBHHHBBH4s4s", 0x45, 0, 20 + len(tcp), 0, 0, 64, 6, 0, source, destination)
    return ip + tcp


def capture_of(packets):
    """A classic capture file of raw IP packets, a millisecond apart."""
    out = [struct.pack("<IHHiIII", 0xa1b2c3d4, 2, 4, 0, 0, 262_144, 101)]
    for number, data in enumerate(packets):
        out.append(struct.pack("<IIII", number // 1000, number % 1000 * 1000, len(data), len(data)) + data)
    return b"".join(out)


def wrapped(streams):
    """A capture of a connection in which each end sends its stream, a PDU in each packet."""
    packets = [packet("initiator", 999, 0, 2, b""), packet("target", 4999, 1000, 0x12, b""),
               packet("initiator", 1000, 5000, 0x10, b"")]
    sent = {"initiator": 1000, "target": 5000}
    for end, other in (("initiator", "target"), ("target", "initiator")):
        for pdu in pdus_of(streams.get(end, b"")):
            packets.append(packet(end, sent[end], sent[other], 0x18, pdu))
            sent[end] += len(pdu)
    return capture_of(packets)


def lines_of(program, stream):
    """What `show` says of a stream: for each PDU its kind and its values by their names."""
    ran = subprocess.run([*program, "show"], input=stream, capture_output=True, check=True)
    rows = []
    for line in ran.stdout.decode().splitlines():
        _, kind, *words = line.split(" ")
        rows.append((kind, dict(word.split("=") for word in words)))
    return rows


def fields_of(room, capture):
    """What tshark says of each PDU that it reads, by its number from 0: its fields by their names."""
    path = room / "fields.pcap"
    path.write_bytes(capture)
    words = ["tshark", "-r", str(path), "-d", "tcp.port==3260,iscsi", "-o", "tcp.analyze_sequence_numbers:FALSE",
             "-o", "tcp.check_checksum:FALSE", "-Y", "iscsi", "-T", "fields", "-E", "separator=|", "-E", "occurrence=a"]
    names = ["frame.number", *NAMES]
    for name in names:
        words += ["-e", name]
    ran = subprocess.run(words, capture_output=True, check=True)
    rows = [dict(zip(names, line.split("|"))) for line in ran.stdout.decode().splitlines()]
    return {int(row["frame.number"]) - HANDSHAKE - 1: row for row in rows}


def number_of(text):
    """The number that tshark's text of a field is; of several the first."""
    text = text.split(",")[0]
    if text in ("True", "False"):
        return int(text == "True")
    return int(text.replace(":", ""), 16 if ":" in text or not text.isdigit() and not text.startswith("0x") else 0)


def compared(kind, name, value, fields):
    """Whether tshark says the same of a value; None if it has no field for it."""
    field = FIELDS.get(f"{kind} {name}") or FIELDS.get(name)
    if not field or not fields.get(field):
        return None
    mine, theirs = int(value, 10 if name == "data" else 16), fields[field]
    if name == "isid":
        return value == theirs.replace(":", "").split(",")[0]
    if name == "class":
        return mine == number_of(theirs) >> 8
    if name == "lun":
        # tshark also tells the unit of the task, ffff if it did not see its command.
        units = [int(unit, 0) for unit in theirs.split(",") if unit != "0xffff"]
        return mine >> 48 & 0x3fff in units if units else None
    return mine == number_of(theirs)


def compare(room, program, name, streams):
    """Compares the streams of both ends; returns how many values are the same, differ, and have no field."""
    counts = {True: 0, False: 0, None: 0}
    kinds = set()
    mine = [row for end in ("initiator", "target") if streams.get(end) for row in lines_of(program, streams[end])]
    theirs = fields_of(room, wrapped(streams))
    for at, (kind, values) in enumerate(mine):
        fields = theirs.get(at)
        if fields is None or not fields["iscsi.opcode"]:
            print(f"{name}: PDU {at}, {kind}: tshark reads no PDU there")
            counts[False] += 1
            continue
        kinds.add(kind)
        counts[KINDS[number_of(fields["iscsi.opcode"])][0] == kind] += 1
        for key, value in values.items():
            same = compared(kind, key, value, fields)
            counts[same] += 1
            if same is False:
                print(f"{name}: PDU {at}, {kind}: {key}={value}, tshark {fields[FIELDS.get(f'{kind} {key}') or FIELDS[key]]}")
    return counts, kinds


def second_byte(kind, chance):
    """Byte 1 of a PDU of this kind: chance chooses its flags and codes, and bits that are reserved are as they have to be."""
    bits = {"SCSI-Command": 0xe7, "Text-Request": 0xc0, "Text-Response": 0xc0, "Data-Out": 0x80, "Data-In": 0xc7,
            "SCSI-Response": 0x1e, "Login-Request": 0x00, "Login-Response": 0x00, "Task-Request": 0x07, "Logout-Request": 0x03}
    if kind == "SCSI-Command":
        # Without R and W the dissector wants no data.
        return chance.choice([0xa0, 0xc0, 0xe0, 0x20, 0x40, 0x60]) | chance.randrange(5)
    ones = 0 if kind in ("SCSI-Command", "Text-Request", "Text-Response", "Data-Out", "Data-In") else 0x80
    byte = ones | chance.randrange(256) & bits.get(kind, 0)
    if kind.startswith("Login"):
        # T with a stage after this one, or C, or neither.
        stage = chance.choice([0, 1])
        return chance.choice([0x80 | stage << 2 | chance.choice([1, 3]), 0x40 | stage << 2, stage << 2])
    if kind.startswith("Text"):
        return chance.choice([0x80, 0x40])
    if kind == "Task-Request":
        return 0x80 | chance.randrange(1, 9)
    if kind == "Logout-Request":
        return 0x80 | chance.randrange(3)
    if kind == "Data-In" and byte & 0x01:
        return byte & 0xfb | 0x80
    if kind == "Data-In":
        return byte & 0xf8
    return byte


# The bytes of a head that are reserved in each kind, as the first of each run and the one behind it.
RESERVED = {
    "NOP-Out": [(2, 4), (32, 48)], "SCSI-Command": [(2, 4)], "Task-Request": [(2, 4), (40, 48)],
    "Login-Request": [(22, 24), (32, 48)], "Text-Request": [(2, 4), (32, 48)],
    "Data-Out": [(2, 4), (24, 28), (32, 36), (44, 48)], "Logout-Request": [(2, 4), (8, 16), (22, 24), (32, 48)],
    "NOP-In": [(2, 4), (36, 48)], "SCSI-Response": [(8, 16), (40, 44)], "Task-Response": [(3, 4), (8, 16), (20, 24), (36, 48)],
    "Login-Response": [(20, 24), (38, 48)], "Text-Response": [(2, 4), (36, 48)], "Data-In": [(2, 3)],
    "Logout-Response": [(3, 4), (8, 16), (20, 24), (36, 40), (44, 48)], "R2T": [(2, 4)],
    "Async": [(2, 4), (16, 24), (44, 48)], "Reject": [(3, 4), (8, 16), (20, 24), (40, 48)],
}


def made_pdu(opcode, kind, chance):
    """A PDU of this kind, whose fields chance chooses."""
    head = bytearray(chance.randbytes(48))
    for first, behind in RESERVED[kind]:
        head[first:behind] = bytes(behind - first)
    length = chance.choice([0, 0, 4, 7, 16]) if kind in ("NOP-Out", "NOP-In", "Data-Out", "Data-In") else 0
    # A Reject has the header of the PDU that was refused.
    length = 48 if kind == "Reject" else length
    head[0] = opcode | (chance.choice([0, 0x40]) if opcode < 0x20 and kind != "Data-Out" else 0)
    head[1], head[4], head[5:8] = second_byte(kind, chance), 0, length.to_bytes(3, "big")
    if not kind.startswith("Login") and not any(first <= 8 < behind for first, behind in RESERVED[kind]):
        head[8:16] = bytes([0, chance.randrange(256)]) + bytes(6)
    if kind.startswith("Login"):
        head[0], head[2:4] = opcode | (0x40 if opcode < 0x20 else 0), bytes(2)
    if kind == "SCSI-Command":
        # The dissector reads a block of which it knows the command: TEST UNIT READY.
        head[32:48] = bytes(16)
    if kind in ("SCSI-Response", "Task-Response", "Logout-Response"):
        head[2] = chance.randrange(3) if kind != "SCSI-Response" else 0
    if kind in ("SCSI-Response", "Data-In"):
        head[3] = chance.choice([0x00, 0x02, 0x08, 0x18, 0x28])
    if kind in ("Async", "Reject"):
        head[16:20] = b"\xff" * 4
    if kind == "Reject":
        head[2] = chance.randrange(2, 12)
    return bytes(head) + bytes(length + -length % 4)


def made(chance, count):
    """Streams with so many PDUs of each kind."""
    streams = {"initiator": b"", "target": b""}
    for opcode, (kind, end) in KINDS.items():
        streams[end] += b"".join(made_pdu(opcode, kind, chance) for _ in range(count))
    return streams


def all_streams(words):
    """The name and the streams of each comparison."""
    data = TOP / "crates/capture_vectors/data"
    for first in sorted(data.glob("*.initiator")):
        yield first.stem, {"initiator": first.read_bytes(), "target": first.with_suffix(".target").read_bytes()}
    for folder in (TOP / "docs/session", TOP / "docs/session/second"):
        yield str(folder.relative_to(TOP)), {
            end: bytes.fromhex((folder / f"{end}.hex").read_text()) for end in ("initiator", "target")}
    yield "made", made(random.Random(words.seed), words.made)
    for path in words.streams:
        stream = Path(path).read_bytes()
        end = "target" if stream[:1] and stream[0] & 0x20 else "initiator"
        yield path, {end: stream}


def main():
    parser = argparse.ArgumentParser(description=__doc__, formatter_class=argparse.RawDescriptionHelpFormatter)
    parser.add_argument("streams", nargs="*", metavar="STREAM", help="a file with a stream of one direction")
    parser.add_argument("--made", type=int, default=40, help="how many PDUs of each kind are made")
    parser.add_argument("--seed", type=int, default=1, help="what chance begins with")
    parser.add_argument("--program", default=str(TOP / "lanthovur"), help="the program that shows")
    words = parser.parse_args()
    if not shutil.which("tshark"):
        sys.exit("tshark is not installed")
    passed = failed = unnamed = 0
    seen = set()
    with tempfile.TemporaryDirectory(prefix="fields-") as room:
        for name, streams in all_streams(words):
            counts, kinds = compare(Path(room), words.program.split(" "), name, streams)
            passed, failed, unnamed = passed + counts[True], failed + counts[False], unnamed + counts[None]
            seen |= kinds
    for kind, _ in KINDS.values():
        if kind not in seen:
            print(f"no stream has a {kind}")
            failed += 1
    print(f"{unnamed} values have no field of tshark")
    print(f"{passed} passed, {failed} failed")
    return 1 if failed else 0


if __name__ == "__main__":
    sys.exit(main())
