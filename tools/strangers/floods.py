#!/usr/bin/env python3
"""Measures how long one honest peer waits for its reads beside 63 peers that send without a pause.

    tools/strangers/floods.py [--seconds S | --hour] [--together] [--kind K].. [PROGRAM]

PROGRAM is crates/lanthovur/out/lanthovur if none is named; `./lanthovur </dev/null` builds it. All is done on 127.0.0.1. The
honest peer has one read of a block outstanding, of blocks that it wrote before, each with its number in it, and looks at each
byte of its answer. For each kind of flood a row tells how many reads it had, its median and its slowest read in ms, the bound
that is wanted, memory and descriptors of the service at the start and at the end, and the most memory. A kind fails if its median
is over the bound, if an answer is not as it should be, if a peer is cut, or if there are other descriptors at the end. A flood
that has sent all its commands logs in anew. Last come 32 equal peers, each with one read outstanding: the line tells the least and
the most commands of one, and fails if the most are twice the least. --kind takes the kinds whose name begins so. With
--together all kinds go on side by side, each with a service of its own, so that an hour of each takes an hour. The services
share the machine then, so a median is told and is no condition, and there are no equal peers. The last line is 'N passed, M
failed'. It takes S seconds (4) a kind, or an hour, and some seconds more.
"""
import argparse
import concurrent.futures
import functools
import importlib.util
import itertools
import multiprocessing
import os
import selectors
import statistics
import string
import struct
import sys
import tempfile
import time

TOP = os.path.dirname(os.path.dirname(os.path.dirname(os.path.abspath(__file__))))
# What a login declares: the answer to a text of the longest kind goes in one segment.
KEYS = "MaxRecvDataSegmentLength=262144\0"
# How many peers flood, in how many processes, and how many commands each has to send in a session.
FLOODS = 63
PROCESSES = 3
COMMANDS = 20000


def strangers():
    """The module of tools/strangers/run.py, which has the PDUs and the service."""
    spec = importlib.util.spec_from_file_location("strangers", f"{TOP}/tools/strangers/run.py")
    module = importlib.util.module_from_spec(spec)
    sys.modules["strangers"] = module
    spec.loader.exec_module(module)
    return module


BASE = strangers()
BASE.SECONDS = 60
number, pdu = BASE.number, BASE.pdu


def command(n, opcode, block, blocks, flags, data=b"", expected=0):
    """The n-th command of a session, from 1: a read or a write of some blocks."""
    cdb = struct.pack(">BBIBHB", opcode, 0, block, 0, blocks, 0)
    return pdu(0x01, data, p1=bytes([flags]), p16=number(n), p20=number(expected), p24=number(n), p32=cdb)


def read(n, blocks):
    return command(n, 0x28, 0, blocks, 0xC1, expected=512 * blocks)


def write(n, blocks):
    return command(n, 0x2A, 64 + n % 1000, blocks, 0xA1, b"w" * (512 * blocks), 512 * blocks)


def text(n):
    """A text of 2,047 keys, which costs more for its bytes than any other PDU that was found."""
    names = itertools.product(string.ascii_letters, string.ascii_letters + string.digits)
    keys = "".join(f"{one}{other}=\0" for one, other in itertools.islice(names, 2047))
    return pdu(0x04, keys.encode(), p1=b"\x80", p16=number(n), p20=number(0xFFFFFFFF), p24=number(n))


def entered(port, name, stop):
    """A peer that has logged in, or None at the end. While all slots are taken, one that has not logged in makes room: it tries again."""
    while not stop.is_set():
        try:
            return BASE.login(port, name, KEYS)
        except OSError:
            pass
    return None


def flood(make, port, count, stop):
    """Some peers that send one stream of such commands, and throw away what is answered. A peer that is cut ends all."""
    stream = b"".join(make(n) for n in range(1, (COMMANDS if len(make(1)) < 1000 else COMMANDS // 10) + 1))
    watched = selectors.DefaultSelector()

    def begin(k):
        peer = entered(port, f"iqn.2026-01.example:{os.getpid()}-{k}", stop)
        if peer is None:
            return
        peer.setblocking(False)
        watched.register(peer, selectors.EVENT_READ | selectors.EVENT_WRITE, [k, 0])

    for k in range(count):
        begin(k)
    while not stop.is_set():
        for key, events in watched.select(0.1):
            peer, (k, sent) = key.fileobj, key.data
            try:
                if events & selectors.EVENT_READ and not peer.recv(1 << 20):
                    raise OSError("a flood was cut")
                if events & selectors.EVENT_WRITE:
                    key.data[1] += peer.send(stream[sent:sent + (1 << 18)])
            except BlockingIOError:
                pass
            if key.data[1] == len(stream):
                watched.unregister(peer)
                peer.close()
                begin(k)


def data_out(r2t, segment=8192):
    """The data that an R2T asks for."""
    tag, transfer, lun = r2t[16:20], r2t[20:24], r2t[8:16]
    begin, length = (int.from_bytes(r2t[at:at + 4], "big") for at in (40, 44))
    made = b""
    for k, at in enumerate(range(begin, begin + length, segment)):
        size = min(segment, begin + length - at)
        last = b"\x80" if at + size == begin + length else b"\0"
        made += pdu(0x05, b"w" * size, p1=last, p8=lun, p16=tag, p20=transfer, p36=number(k), p40=number(at))
    return made


class Writer:
    """A peer that sends commands of which the first is a write, and its data as it is asked for them."""

    def __init__(self, port, make, name):
        self.peer, self.make, self.n, self.due, self.came, self.out = BASE.login(port, name, KEYS), make, 1, 0, b"", b""
        self.begin()

    def begin(self):
        sent, count = self.make(self.n)
        self.out += sent
        self.n += count
        self.due = count

    def take(self, data):
        """Takes what came."""
        self.came += data
        while len(self.came) >= 48:
            size = 48 + (int.from_bytes(self.came[5:8], "big") + 3) // 4 * 4
            if len(self.came) < size:
                break
            head, self.came = self.came[:48], self.came[size:]
            if head[0] == 0x31:
                self.out += data_out(head)
            elif head[0] == 0x21:
                self.due -= 1
        if self.due == 0:
            self.begin()


def write_flood(make, port, count, stop):
    """Some peers that have one write, with what is behind it, done after another."""
    watched = selectors.DefaultSelector()
    for k in range(count):
        writer = Writer(port, make, f"iqn.2026-01.example:{os.getpid()}-{k}")
        writer.peer.setblocking(False)
        watched.register(writer.peer, selectors.EVENT_READ | selectors.EVENT_WRITE, writer)
    while not stop.is_set():
        for key, events in watched.select(0.1):
            writer = key.data
            try:
                if events & selectors.EVENT_READ:
                    data = writer.peer.recv(1 << 20)
                    if not data:
                        raise OSError("a flood was cut")
                    writer.take(data)
                if writer.out:
                    writer.out = writer.out[writer.peer.send(writer.out[:1 << 18]):]
            except BlockingIOError:
                pass
            wanted = selectors.EVENT_READ | (selectors.EVENT_WRITE if writer.out else 0)
            if key.events != wanted:
                watched.modify(writer.peer, wanted, writer)


def resets(port, count, stop):
    """Connections without a byte that are reset, one after another."""
    while not stop.is_set():
        BASE.leave_at_once(port)


def garbage(port, count, stop):
    """Connections that send a login of noise, and wait for its end, some at a time."""
    login = pdu(0x43, os.urandom(4096), p1=b"\x87", p24=number(1))
    while not stop.is_set():
        peers = [BASE.connect(port) for _ in range(count)]
        for peer in peers:
            try:
                peer.sendall(login)
                while peer.recv(4096):
                    pass
            except ConnectionError:
                pass
            peer.close()


def receive(peer, count):
    data = b""
    while len(data) < count:
        piece = peer.recv(count - len(data))
        if not piece:
            raise OSError("the honest peer was cut")
        data += piece
    return data


def receive_pdu(peer):
    """The header and the data segment of a PDU that a target sent."""
    header = receive(peer, 48)
    length = int.from_bytes(header[5:8], "big")
    return header[0], receive(peer, length + -length % 4)[:length]


# The blocks of the honest peer, and what is in one of them.
FIRST, BLOCKS = 40000, 16


def block(k):
    return (b"honest block %2d\n" % k) * 32


def write_own(peer):
    """Writes the blocks of the honest peer, and returns the number of its next command."""
    for k in range(BLOCKS):
        peer.sendall(command(k + 1, 0x2A, FIRST + k, 1, 0xA1, block(k), 512))
        if receive_pdu(peer)[0] != 0x21:
            raise OSError("the honest peer cannot write")
    return BLOCKS + 1


def waits(peer, n, seconds):
    """The ms of each read of the honest peer, whose next command is the n-th, and the number behind the last."""
    found, end = [], time.monotonic() + seconds
    while time.monotonic() < end:
        begun, k = time.monotonic(), n % BLOCKS
        peer.sendall(command(n, 0x28, FIRST + k, 1, 0xC1, expected=512))
        if receive_pdu(peer) != (0x25, block(k)) or receive_pdu(peer)[0] != 0x21:
            raise OSError("the honest peer has other answers")
        found.append(1000 * (time.monotonic() - begun))
        n += 1
    return found, n


def alone(port, make):
    """The ms that one such command takes alone."""
    peer, took = BASE.login(port, "iqn.2026-01.example:alone", KEYS), []
    for n in range(1, 30):
        begun = time.monotonic()
        peer.sendall(make(n))
        # A text has one answer; a read has Data-In, and then a response.
        while receive_pdu(peer)[0] == 0x25:
            pass
        took.append(1000 * (time.monotonic() - begun))
    peer.close()
    return statistics.median(took)


def took(port, make, seconds=1):
    """The ms that one such command takes alone, with the data that it asks for."""
    writer, found, end = Writer(port, make, "iqn.2026-01.example:alone"), [], time.monotonic() + seconds
    while time.monotonic() < end:
        begun, n = time.monotonic(), writer.n
        while writer.n == n:
            writer.peer.sendall(writer.out)
            writer.out = b""
            writer.take(writer.peer.recv(1 << 20))
        found.append(1000 * (time.monotonic() - begun))
    writer.peer.close()
    return statistics.median(found)


def long_write(n):
    """A write of 4 MiB, for whose data the target asks, and how many commands that is."""
    return command(n, 0x2A, 16384, 8192, 0xA1, expected=512 * 8192), 1


def write_before_reads(n):
    """A write of a block, for whose data the target asks, and seven reads of 4 MiB that wait behind it."""
    reads = b"".join(read(n + k, 8192) for k in range(1, 8))
    return command(n, 0x2A, 16384, 1, 0xA1, expected=512) + reads, 8


# Each kind with its floods, the most ms that the median may take beside it (none: by what one command takes alone), what one
# command takes alone, whether the disk is a file, and how many peers flood. Those who have reads wait behind a write are given 28
# MiB of answers at once, so there are few of them.
KINDS = [
    ("writes of a block", functools.partial(flood, lambda n: write(n, 1)), 20, None, False, FLOODS),
    ("writes of a block, to a file", functools.partial(flood, lambda n: write(n, 1)), None, lambda port: alone(port, lambda n: write(n, 1)), True, FLOODS),
    ("reads of 64 KiB", functools.partial(flood, lambda n: read(n, 128)), 20, None, False, FLOODS),
    ("reads of 4 MiB", functools.partial(flood, lambda n: read(n, 8192)), None, lambda port: alone(port, lambda n: read(n, 8192)), False, FLOODS),
    ("writes of 4 MiB", functools.partial(write_flood, long_write), None, lambda port: took(port, long_write), False, FLOODS),
    ("a write, and 7 reads of 4 MiB", functools.partial(write_flood, write_before_reads), None, lambda port: took(port, write_before_reads), False, 6),
    ("texts", functools.partial(flood, text), None, lambda port: alone(port, text), False, FLOODS),
    ("connections that are reset", resets, 20, None, False, FLOODS),
    ("logins of noise", garbage, 20, None, False, FLOODS),
]


def look(pid):
    """Resident KiB of the service, the most that they were, and its descriptors."""
    status = open(f"/proc/{pid}/status").read()
    now, most = (int(status.split(f"{word}:")[1].split()[0]) for word in ("VmRSS", "VmHWM"))
    return now, most, len(os.listdir(f"/proc/{pid}/fd"))


def main():
    parser = argparse.ArgumentParser(description="How long an honest peer waits beside floods.")
    lasts = parser.add_mutually_exclusive_group()
    lasts.add_argument("--seconds", type=float, default=4, help="how long each flood lasts (4)")
    lasts.add_argument("--hour", dest="seconds", action="store_const", const=3600, help="each flood lasts an hour")
    parser.add_argument("--kind", action="append", help="the kinds whose name begins so; all if left out")
    parser.add_argument("--together", action="store_true", help="all kinds side by side")
    parser.add_argument("program", nargs="?", default=f"{TOP}/crates/lanthovur/out/lanthovur")
    asked = parser.parse_args()

    def is_chosen(name):
        return not asked.kind or any(name.startswith(begin) for begin in asked.kind)

    chosen = [row for row in KINDS if is_chosen(row[0])]
    if not chosen and not is_chosen(EQUAL):
        sys.exit("there is no such kind; there are: " + "; ".join([*(row[0] for row in KINDS), EQUAL]))
    program, failed = os.path.abspath(asked.program), 0
    print("| Flood | Reads | Median, ms | Slowest, ms | Bound, ms | KiB at the start, the end, the most | Descriptors at the start, the end |")
    print("|---|---|---|---|---|---|---|", flush=True)
    # A process for each, so that no kind holds the sockets of another.
    with concurrent.futures.ProcessPoolExecutor(max(1, len(chosen)) if asked.together else 1) as pool:
        runs = [pool.submit(told, program, asked.seconds, asked.together, KINDS.index(row)) for row in chosen]
        failed += sum(run.result() for run in runs)
    count = len(chosen)
    if is_chosen(EQUAL) and not asked.together:
        failed, count = failed + (not are_fair(program, asked.seconds)), count + 1
    print(f"{count - failed} passed, {failed} failed")
    sys.exit(1 if failed else 0)


def told(program, seconds, together, number):
    """Prints the row of a kind and what is wrong with it, and says whether anything is."""
    name, *kind = KINDS[number]
    try:
        wrong = faults(program, seconds, together, name, *kind)
    except OSError as error:
        wrong = [str(error)]
    for fault in wrong:
        print(f"FAILED {name}: {fault}", flush=True)
    return bool(wrong)


def faults(program, seconds, together, name, kind, bound, single, is_file, peers):
    """Prints the row of a kind, and says what is wrong. A flood that ended early was no flood."""
    with tempfile.TemporaryDirectory() as folder:
        words = ["--file", os.path.join(folder, "disk.img"), "--create"] if is_file else []
        with BASE.Service(program, *words, "--blocks", "65536") as service:
            for peer in service.peers[1:]:
                peer.close()
            honest = service.peers[0]
            n = write_own(honest)
            bound = bound or peers * single(service.port) + 10
            _, n = waits(honest, n, 0.5)
            start = look(service.pid())
            found, ended = beside(kind, service.port, peers // PROCESSES, lambda: waits(honest, n, seconds)[0])
            end = settled(service.pid(), start[2])
    median, slowest = statistics.median(found), max(found)
    memory, descriptors = f"{start[0]}, {end[0]}, {end[1]}", f"{start[2]}, {end[2]}"
    print(f"| {name} | {len(found)} | {median:.1f} | {slowest:.0f} | {bound:.0f} | {memory} | {descriptors} |", flush=True)
    wrong = [f"the median is over {bound:.0f} ms"] if median > bound and not together else []
    wrong += [f"{ended} of {PROCESSES} floods ended early"] if ended else []
    return wrong + (["there are other descriptors at the end"] if start[2] != end[2] else [])


EQUAL = "32 equal peers"


def answered(port, share, seconds, counts):
    """Some peers that have one read outstanding each, until their time is over. How many were answered is put into a queue."""
    watched = selectors.DefaultSelector()
    for k in range(share):
        peer = BASE.login(port, f"iqn.2026-01.example:{os.getpid()}-{k}", KEYS)
        watched.register(peer, selectors.EVENT_READ, [1])
        peer.sendall(read(1, 1))
    end = time.monotonic() + seconds
    while time.monotonic() < end:
        for key, _ in watched.select(0.1):
            if receive_pdu(key.fileobj)[0] != 0x25 or receive_pdu(key.fileobj)[0] != 0x21:
                raise OSError("a peer has other answers")
            key.data[0] += 1
            key.fileobj.sendall(read(key.data[0], 1))
    counts.put([key.data[0] - 1 for key in watched.get_map().values()])


def are_fair(program, seconds):
    """Has 32 equal peers, in one process, which is as quick for each, tells the least and the most commands, and says whether they are near."""
    with BASE.Service(program, "--blocks", "65536") as service:
        for peer in service.peers:
            peer.close()
        counts = multiprocessing.Queue()
        shares = [multiprocessing.Process(target=answered, args=(service.port, 32, seconds, counts))]
        for each in shares:
            each.start()
        for each in shares:
            each.join()
        if any(each.exitcode for each in shares):
            print(f"FAILED {EQUAL}: one was cut")
            return False
        found = [count for _ in shares for count in counts.get()]
    print(f"{EQUAL}: {min(found)} to {max(found)} commands each")
    return max(found) < 2 * min(found)


def settled(pid, descriptors):
    """A look at the service once it has so many descriptors again, or after two minutes."""
    for _ in range(240):
        time.sleep(0.5)
        found = look(pid)
        if found[2] == descriptors:
            break
    return found


def beside(kind, port, share, work):
    """Does some work beside a flood, and returns what comes of it, and how many processes of the flood ended early."""
    stop = multiprocessing.Event()
    floods = [multiprocessing.Process(target=kind, args=(port, share, stop)) for _ in range(PROCESSES)]
    for each in floods:
        each.start()
    time.sleep(0.5)
    try:
        found = work()
    finally:
        stop.set()
        for each in floods:
            each.join()
    return found, sum(each.exitcode != 0 for each in floods)


if __name__ == "__main__":
    main()
