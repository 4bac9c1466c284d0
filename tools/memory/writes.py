#!/usr/bin/env python3
"""The most memory that the program takes for large writes that wait.

    tools/memory/writes.py [PROGRAM]

PROGRAM is crates/lanthovur/out/lanthovur if none is named; `./lanthovur </dev/null` builds it. A login and then eight
WRITE(10) of 8,192 blocks each go to `answer` over a pipe, and once more behind an immediate one: each with all the data
that may come unasked, 65,536 bytes, and then the first with all of its data but the last piece. What the process has
then is what such a session can hold at most; the data that are still due follow, and each write is to end well. All
write the same blocks, so that the disk takes 4 MiB at the end. Each line has the memory in MiB that was resident then,
at most, and in the process's data segments at most (memory that was asked for is there before it is touched), with
their limits. The exit status is 1 where a limit is passed or an answer isn't due. It takes some seconds.
"""
import subprocess
import sys
import threading
import time

sys.dont_write_bytecode = True
from reads import TOP, login_of

BLOCKS = 65536
LENGTH = 8192 * 512
# What comes in one PDU, unasked in all, and on one R2T at most.
PIECE, FIRST, BURST = 8192, 65536, 262144
# So many writes, whether one more goes before them that is immediate, and the limits in MiB: resident while they wait
# and at the end (the data of the first, 65,536 bytes of each other, and at the end the blocks), and in data segments.
CASES = [(8, False, 8, 12, 34), (8, True, 8, 12, 38)]


def command(number, is_immediate):
    """A WRITE(10) of the first 8,192 blocks with its first piece, of which more come unasked."""
    head = bytes([0x41 if is_immediate else 0x01, 0x21, 0, 0, 0]) + PIECE.to_bytes(3, "big") + bytes(8)
    tag = 0x100 if is_immediate else number
    head += tag.to_bytes(4, "big") + LENGTH.to_bytes(4, "big") + number.to_bytes(4, "big") + bytes(4)
    head += bytes.fromhex("2a00 00000000 00 2000 00") + bytes(6)
    return tag, head + bytes([number]) * PIECE


def data_out(tag, asked, start, end):
    """Data-Out of one sequence: the bytes from one place to another."""
    pieces = []
    for serial, at in enumerate(range(start, end, PIECE)):
        length = min(PIECE, end - at)
        head = bytes([0x05, 0x80 if at + length == end else 0, 0, 0, 0]) + length.to_bytes(3, "big") + bytes(8)
        head += tag.to_bytes(4, "big") + asked.to_bytes(4, "big") + bytes(4) + bytes(4) + bytes(4)
        head += serial.to_bytes(4, "big") + at.to_bytes(4, "big") + bytes(4)
        pieces.append(head + bytes([tag % 251]) * length)
    return pieces


def asked_for(tag):
    """The data that R2Ts ask for, in pieces."""
    pieces = []
    for asked, start in enumerate(range(FIRST, LENGTH, BURST)):
        pieces += data_out(tag, asked, start, min(LENGTH, start + BURST))
    return pieces


def session(count, is_first_immediate):
    """What comes before the first write is whole, and what comes then."""
    before, rest = [login_of(b"InitialR2T=No\0")], []
    for number in range(0 if is_first_immediate else 1, count + 1):
        tag, pdu = command(max(number, 1), is_first_immediate and number == 0)
        before.append(pdu)
        before += data_out(tag, 0xFFFFFFFF, PIECE, FIRST)
        rest += asked_for(tag)
    # The first write's data stand first.
    first = len(asked_for(0)) - 1
    return before + rest[:first], rest[first:]


def used(process):
    """What the process has resident, at most since it began, and in data segments, in MiB."""
    found = {}
    for line in open(f"/proc/{process.pid}/status"):
        word, _, rest = line.partition(":")
        if word in ("VmRSS", "VmHWM", "VmData"):
            found[word] = int(rest.split()[0]) / 1024
    return found["VmRSS"], found["VmHWM"], found["VmData"]


def kinds(stream):
    """How many PDUs of each opcode there are, and whether each SCSI Response says GOOD."""
    found, at, is_good = {}, 0, True
    while at + 48 <= len(stream):
        code = stream[at] & 0x3F
        found[code] = found.get(code, 0) + 1
        is_good = is_good and (code != 0x21 or stream[at + 2 : at + 4] == bytes(2))
        length = int.from_bytes(stream[at + 5 : at + 8], "big")
        at += 48 + length + -length % 4
    return found, is_good


def wait_for(is_so):
    """Waits until something is so."""
    while not is_so():
        time.sleep(0.01)


def run(program, count, is_first_immediate):
    """What the process had while the writes waited, at most at the end, and what it answered."""
    words = [program, "answer", "--blocks", str(BLOCKS)]
    before, rest = session(count, is_first_immediate)
    answers = bytearray()
    writes = count + is_first_immediate
    with subprocess.Popen(words, stdin=subprocess.PIPE, stdout=subprocess.PIPE, bufsize=0) as process:

        def read_on():
            while piece := process.stdout.read(1 << 16):
                answers.extend(piece)

        reading = threading.Thread(target=read_on)
        reading.start()
        for piece in before:
            process.stdin.write(piece)
        # The last R2T of the first write says that all before it was taken.
        most_r2t = -(-(LENGTH - FIRST) // BURST)
        wait_for(lambda: kinds(answers)[0].get(0x31, 0) >= most_r2t or process.poll() is not None)
        time.sleep(0.2)
        resident, _, data = used(process)
        for piece in rest:
            process.stdin.write(piece)
        wait_for(lambda: kinds(answers)[0].get(0x21, 0) >= writes or process.poll() is not None)
        _, most, _ = used(process)
        process.stdin.close()
        reading.join()
        status = process.wait()
    found, is_good = kinds(answers)
    is_due = status == 0 and is_good and found == {0x23: 1, 0x31: writes * most_r2t, 0x21: writes}
    return resident, most, data, is_due


def main():
    program = sys.argv[1] if len(sys.argv) > 1 else f"{TOP}/crates/lanthovur/out/lanthovur"
    well = True
    for count, is_first_immediate, few, many, room in CASES:
        resident, most, data, is_due = run(program, count, is_first_immediate)
        is_well = is_due and resident <= few and most <= many and data <= room
        well = well and is_well
        name = f"{count} writes" + (" behind an immediate one" if is_first_immediate else "")
        figures = f"{resident:.1f} MiB resident of {few}, {most:.1f} at most of {many}, {data:.1f} in data segments of {room}"
        print(f"{name}: {figures}{'' if is_due else ', other answers than due'}{'' if is_well else '  FAILED'}")
    return 0 if well else 1


if __name__ == "__main__":
    sys.exit(main())
