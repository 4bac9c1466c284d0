#!/usr/bin/env python3
"""What the program has shown of a capture while the pipe that gives it is still open.

    tools/captures/piped.py [--packets N] [--every SECONDS] [PROGRAM]

The blocks of docs/session/session.pcapng go into the pipe of `show --capture -`, one every SECONDS (0.05, if not said), as
`tcpdump -U -w -` writes packets. After half of N packets (40, if not said), and after all of them, the lines have to come that
`show --capture` has of a file with the same blocks, while no byte more is written and the pipe is open. The last line is
'N passed, M failed', and the exit status is 1 if one failed. PROGRAM is crates/lanthovur/out/lanthovur if none is named;
`./lanthovur </dev/null` builds it, and `out/unproved/lanthovur` of that crate, one without proofs, will do.
"""
import argparse
import os
import struct
import subprocess
import sys
import tempfile
import threading
import time
from pathlib import Path

TOP = Path(__file__).resolve().parents[2]
PROGRAM = TOP / "crates/lanthovur/out/lanthovur"
SESSION = TOP / "docs/session/session.pcapng"
PACKET = 6
PATIENCE = 60


def blocks():
    """The blocks of the capture, and whether each has a packet."""
    data, at = SESSION.read_bytes(), 0
    while at < len(data):
        kind, length = struct.unpack_from("<II", data, at)
        yield data[at:at + length], kind == PACKET
        at += length


def parts(packets):
    """The bytes of so many packets, each with the blocks before it."""
    found, part = [], b""
    for block, has_packet in blocks():
        part += block
        if has_packet:
            found.append(part)
            part = b""
            if len(found) == packets:
                break
    return found


def shown(program, data):
    """The lines of a file with these bytes."""
    with tempfile.NamedTemporaryFile() as file:
        file.write(data)
        file.flush()
        return subprocess.run([program, "show", "--capture", file.name], capture_output=True).stdout


def keep(pipe, seen):
    while piece := pipe.read1(1 << 16):
        seen.extend(piece)


def came(seen, due):
    """Whether the lines that are due came in time, and no others."""
    until = time.monotonic() + PATIENCE
    while len(seen) < len(due) and time.monotonic() < until:
        time.sleep(0.05)
    return bytes(seen) == due


def main():
    parser = argparse.ArgumentParser(description=__doc__, formatter_class=argparse.RawDescriptionHelpFormatter)
    parser.add_argument("program", nargs="?", default=str(PROGRAM), help="the program that reads captures")
    parser.add_argument("--packets", type=int, default=40, help="how many packets go into the pipe")
    parser.add_argument("--every", type=float, default=0.05, help="how many seconds lie between two packets")
    words = parser.parse_args()
    if not os.path.isfile(words.program):
        sys.exit(f"there is no program {words.program}")
    pieces = parts(words.packets)
    looked = (len(pieces) // 2, len(pieces))
    due = {count: shown(words.program, b"".join(pieces[:count])) for count in looked}
    passed = failed = 0
    seen = bytearray()
    with subprocess.Popen([words.program, "show", "--capture", "-"], stdin=subprocess.PIPE, stdout=subprocess.PIPE,
                          stderr=subprocess.DEVNULL) as reader:
        threading.Thread(target=keep, args=(reader.stdout, seen), daemon=True).start()
        for count, piece in enumerate(pieces, 1):
            reader.stdin.write(piece)
            reader.stdin.flush()
            time.sleep(words.every)
            if count in due:
                lines = due[count].count(b"\n")
                is_so = lines > 0 and came(seen, due[count])
                passed, failed = passed + is_so, failed + (not is_so)
                print(f"{'as due' if is_so else 'FAILED'}: {seen.count(10)} of {lines} lines behind packet {count}, pipe open", flush=True)
        reader.stdin.close()
    print(f"{passed} passed, {failed} failed")
    sys.exit(failed > 0)


if __name__ == "__main__":
    main()
