#!/usr/bin/env python3
"""Makes captures by mangle.py of one of libiscsi and tgt, and has the program `capture_vectors` read them.

    tools/captures/run.py [--captures N] [--seed S]

Each of N captures (100, if not said) is of kinds that chance chooses: packets permuted, repeated and cut into ones that
overlap, numbers that wrap, a port used again, five links with and without VLAN tags, IPv4 and IPv6, both formats and
orders. The byte streams are those of the original in all of them, which tshark told. The program runs as it was built
(`rt run` in crates/capture_vectors), or by `rt try`, which takes a minute. It needs Python and the toolchain alone. What
is not so is printed with its kinds. The last line is 'N passed, M failed', in rows: one for each file and each direction.
"""
import argparse
import random
import shutil
import subprocess
import sys
import tempfile
from pathlib import Path

sys.dont_write_bytecode = True
from mangle import mangled

TOP = Path(__file__).resolve().parents[2]
CRATE = TOP / "crates/capture_vectors"
SOURCE = CRATE / "data/inq-lo.pcap"
STREAMS = {"initiator": "inq-lo.0.initiator", "target": "inq-lo.0.target"}


def kinds_of(chance):
    """Kinds that leave no byte of the streams out."""
    kinds = [kind for kind in ("reorder", "repeat", "wrap", "ipv6", "big", "reuse") if chance.random() < 0.5]
    if chance.random() < 0.7:
        kinds += ["cut", "overlap"]
    kinds.append(chance.choice(["vlan", "raw", "null", "sll", "sll2", "reorder"]))
    kinds.append(chance.choice(["ng", "nano", "repeat"]))
    return ",".join(dict.fromkeys(kinds))


def make(room, count, seed):
    """Puts the captures, the streams and the list of what is due into a folder; returns the kinds of each file."""
    chance, kinds, rows = random.Random(seed), {}, []
    for number in range(count):
        words = kinds_of(chance)
        data, packets = mangled(SOURCE, chance.randrange(2**31), words)
        name = f"made-{number}.{'pcapng' if ',ng' in words else 'pcap'}"
        (room / name).write_bytes(data)
        kinds[name] = words
        connections = 2 if "reuse" in words else 1
        rows.append(f"{name} - {packets} {connections} - -")
        for end, stream in STREAMS.items():
            size = (room / stream).stat().st_size
            rows += [f"{name} {connection} {end} {size} {stream} -" for connection in range(connections)]
    (room / "EXPECTED.txt").write_text("\n".join(rows) + "\n")
    return kinds


def run(room):
    """What the program prints of the folder."""
    program = CRATE / "out/capture_vectors"
    if program.exists():
        command, folder = [program], room
    else:
        data = [word for path in sorted(room.iterdir()) for word in ("--data", f"{path.name}={path}")]
        command, folder = ["rt", "try", "--seconds", "1000", *data], CRATE
    return subprocess.run(command, cwd=folder, capture_output=True, text=True)


def main():
    parser = argparse.ArgumentParser(description=__doc__, formatter_class=argparse.RawDescriptionHelpFormatter)
    parser.add_argument("--captures", type=int, default=100, help="how many captures are made")
    parser.add_argument("--seed", type=int, default=1, help="what chance begins with")
    words = parser.parse_args()
    if not shutil.which("rt") and not (CRATE / "out/capture_vectors").exists():
        sys.exit("rt is not installed, and capture_vectors is not built")
    with tempfile.TemporaryDirectory(prefix="captures-") as name:
        room = Path(name)
        for stream in STREAMS.values():
            shutil.copy(CRATE / "data" / stream, room)
        kinds = make(room, words.captures, words.seed)
        ran = run(room)
    lines = ran.stdout.splitlines()
    counted = [line for line in lines if line.endswith(" not so") and " rows: " in line]
    if len(counted) != 1:
        sys.exit(f"the program did not end as it should:\n{ran.stdout}{ran.stderr}")
    for line in lines:
        if line.split(" ")[0] in kinds:
            print(f"not so: {line} ({kinds[line.split(' ')[0]]})")
    rows, not_so = int(counted[0].split(" ")[0]), int(counted[0].split(" ")[-3])
    print(f"{rows - not_so} passed, {not_so} failed")
    sys.exit(1 if not_so else 0)


if __name__ == "__main__":
    main()
