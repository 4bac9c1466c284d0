#!/usr/bin/env python3
"""The most memory that the program takes for large reads that come in one piece.

    tools/memory/reads.py [PROGRAM]

PROGRAM is crates/lanthovur/out/lanthovur if none is named; `./lanthovur </dev/null` builds it. A login and then READ(10)
of 8,192 blocks each go to `answer` over a pipe and to `serve` over a socket, 85 of them in one piece of 4,080 bytes; and
eight that wait behind an immediate write of one block, with the data that end it, so that one PDU leads to the answers
of all. A login and 1,000 such reads go to `answer --hex` as hex text. What comes back is read and counted. Each line has the most resident memory of the process, in MiB, and what it
may be. The exit status is 1 where a limit is passed or an answer has not the bytes that are due. It takes a minute or
two, most of it for the digits of 4 GiB.
"""
import os
import socket
import subprocess
import sys
import threading
import time

TOP = os.path.dirname(os.path.dirname(os.path.dirname(os.path.abspath(__file__))))
BLOCKS = 65536
READS = 85
LENGTH = 8192 * 512
# Data-In carry at most 8,192 bytes each, with a header of 48, and a SCSI Response of 48 bytes follows them; the login
# is answered with one PDU of a short text.
DUE = LENGTH + LENGTH // 8192 * 48 + 48


def login_of(keys=b""):
    """A login in one request, straight to full feature phase, with some keys more."""
    text = b"InitiatorName=iqn.2026-01.example:host\0TargetName=iqn.2026-01.example:disk\0SessionType=Normal\0" + keys
    head = bytes.fromhex("43870000 00") + len(text).to_bytes(3, "big")
    head += bytes.fromhex("400000010000 0000 00000000 00000000 00000001 00000000") + bytes(16)
    return head + text + bytes(-len(text) % 4)


def read(number):
    """The READ(10) of this CmdSN, of the first 8,192 blocks."""
    head = bytes.fromhex("01c10000 00000000 0000000000000000")
    head += number.to_bytes(4, "big") + LENGTH.to_bytes(4, "big") + number.to_bytes(4, "big") + bytes(4)
    return head + bytes.fromhex("2800 00000000 00 2000 00") + bytes(6)


def write():
    """An immediate WRITE(10) of the first block, whose data are asked for, and those data."""
    head = bytes.fromhex("41a10000 00000000 0000000000000000 00000100 00000200 00000001 00000000")
    data = bytes.fromhex("05800000 00000200 0000000000000000 00000100") + bytes(28) + bytes(512)
    return head + bytes.fromhex("2a00 00000000 00 0001 00") + bytes(6), data


def reads(count):
    return b"".join(read(number) for number in range(1, count + 1))


def behind(count):
    """So many reads behind a write, which its data end."""
    command, data = write()
    return command + reads(count) + data


# A name, what is sent, how many bytes come back beside the answer to the login, and the most memory in MiB.
CASES = [("85 reads in one piece", reads(READS), READS * DUE, 16), ("8 reads that wait", behind(8), 8 * DUE + 96, 72)]


def counted(source):
    """Reads to the end, and says how many bytes there were."""
    total = 0
    while piece := source(1 << 20):
        total += len(piece)
    return total


def most_of(process):
    """Waits for the process, and gives its exit status and the most memory that it took, in MiB."""
    _, status, used = os.wait4(process.pid, 0)
    process.returncode = os.waitstatus_to_exitcode(status)
    return process.returncode, used.ru_maxrss / 1024


def of_answer(program, requests, is_hex=False):
    """`answer`: the login's bytes first, then the others in one piece; with `--hex` their digits."""
    words = [program, "answer", "--blocks", str(BLOCKS), *(["--hex"] if is_hex else [])]
    process = subprocess.Popen(words, stdin=subprocess.PIPE, stdout=subprocess.PIPE)

    def send():
        for piece in (login_of(), requests):
            process.stdin.write(piece.hex().encode() if is_hex else piece)
            process.stdin.flush()
            time.sleep(0.2)
        process.stdin.close()

    sending = threading.Thread(target=send)
    sending.start()
    total = counted(process.stdout.read1)
    sending.join()
    return total, *most_of(process)


def of_serve(program, requests):
    """`serve`: the same over a socket, which is closed for writing at the end."""
    with socket.socket() as free:
        free.bind(("127.0.0.1", 0))
        port = free.getsockname()[1]
    words = [program, "serve", "--port", str(port), "--blocks", str(BLOCKS), "--sessions", "1"]
    process = subprocess.Popen(words, stdout=subprocess.PIPE)
    process.stdout.readline()
    with socket.create_connection(("127.0.0.1", port)) as it:
        it.sendall(login_of())
        time.sleep(0.2)
        it.sendall(requests)
        it.shutdown(socket.SHUT_WR)
        total = counted(it.recv)
    return total, *most_of(process)


def of_hex(program, requests):
    return of_answer(program, requests, True)


def main():
    program = sys.argv[1] if len(sys.argv) > 1 else f"{TOP}/crates/lanthovur/out/lanthovur"
    well = True
    runs = [(name, run, *case) for case in CASES for name, run in (("answer", of_answer), ("serve", of_serve))]
    # two digits for a byte, and a line end
    runs.append(("answer --hex", of_hex, "1000 reads as hex text", reads(1000), 2 * 1000 * DUE + 1, 32))
    for name, run, case, requests, due, limit in runs:
        total, status, most = run(program, requests)
        # (the login's answer is a header and a text of some hundred bytes)
        is_well = status == 0 and due < total < due + 1024 and most <= limit
        well = well and is_well
        said = f"{total} bytes, status {status}, {most:.1f} MiB of {limit}"
        print(f"{name}, {case}: {said}{'' if is_well else '  FAILED'}", flush=True)
    return 0 if well else 1


if __name__ == "__main__":
    sys.exit(main())
