#!/usr/bin/env python3
"""Serves several sessions at a time to real initiators, and looks at what comes of it.

    tools/many_sessions/run.py [--figures] [PROGRAM]

PROGRAM is crates/lanthovur/out/lanthovur if none is named; `./lanthovur </dev/null` builds it. All is done on 127.0.0.1. It
wants iscsi-perf and iscsi-inq (Debian: libiscsi-bin) and qemu-img and qemu-io (qemu-utils, qemu-block-extra); what isn't
installed is skipped, with a word. With --figures it also measures what memory 64 sessions take and how many commands a
second are answered, by tools/speed/speed.c (cc, libiscsi-dev), which takes four minutes. The last line is 'N passed, M failed,
K skipped'.
"""
import importlib.util
import os
import re
import shutil
import signal
import socket
import statistics
import struct
import subprocess
import sys
import tempfile
import time

TOP = os.path.dirname(os.path.dirname(os.path.dirname(os.path.abspath(__file__))))
# A process that takes longer hangs.
SECONDS = 60
# How often each way to serve is measured, in turn, and for how long each time.
ROUNDS = 15
RUN = "0.4"
NAME = "iqn.2026-01.example:disk"
BLOCKS = 8192
# The longest transfer, and the longest segment that the target takes, in bytes.
MOST = 4 << 20
SEGMENT = 8192


def process_rows():
    """The module of tools/process/run.py, whose PDUs are worked out by hand."""
    spec = importlib.util.spec_from_file_location("process_rows", f"{TOP}/tools/process/run.py")
    module = importlib.util.module_from_spec(spec)
    sys.modules["process_rows"] = module
    spec.loader.exec_module(module)
    return module


ROWS = process_rows()
# A login in one request, and a logout that is due behind it.
LOGIN = ROWS.OUT_OF_TURN[: 48 + 76]
LOGOUT = ROWS.of_hex("06800000 00000000 00000000 00000000 00000002 00000000 00000001 00000002", "00000000" * 4)


def reasons(lines):
    """The lines of sessions that ended, without the number, the address and the name in front. That two initiators may write is left out:
    who asks whether a service works is another one than the peer beside it."""
    lines = re.sub(rb"(?m)^two initiators may write this disk: .*\n", b"", lines)
    return re.sub(rb"(?m)^session [0-9]+ 127\.0\.0\.1:[0-9]+( iqn\.[!-~]+)?: ", b"", lines)


class Service:
    """A service of so many logins in all, or in turn of so many connections, and further words, in which PORT is its port; it ends
    when they were served, or is ended. It tells faults alone."""

    def __init__(self, program, count, *words, blocks=BLOCKS, in_turn=False):
        with socket.create_server(("127.0.0.1", 0)) as other:
            self.port = other.getsockname()[1]
        words = [word.replace("PORT", str(self.port)) for word in words]
        stop = ["--sessions", str(count)] if in_turn else ["--logins", str(count), "--quiet"]
        words = ["serve", "--port", str(self.port), "--blocks", str(blocks), *stop, *words]
        pipe = subprocess.PIPE
        self.process = subprocess.Popen([program, *words], stdin=subprocess.DEVNULL, stdout=pipe, stderr=pipe)
        self.told = self.process.stdout.readline()
        self.url = f"iscsi://127.0.0.1:{self.port}/{NAME}/0"

    def __enter__(self):
        return self

    def __exit__(self, *_):
        if self.process.poll() is None:
            self.process.kill()
        self.process.communicate()

    def peer(self):
        """A connection to it."""
        return socket.create_connection(("127.0.0.1", self.port), timeout=SECONDS)

    def ended(self):
        """How it ended by itself: what it printed, its lines on standard error, its status."""
        out, lines = self.process.communicate(timeout=SECONDS)
        return self.told + out, reasons(lines), self.process.returncode

    def resident(self):
        """Its resident memory, in MB."""
        with open(f"/proc/{self.process.pid}/status") as status:
            return int(re.search(r"VmRSS:\s+(\d+)", status.read())[1]) / 1000

    def half(self, number):
        """A half of its disk, as qemu-img names it."""
        size = BLOCKS * 512 // 2
        disk = f"file.driver=iscsi,file.transport=tcp,file.portal=127.0.0.1:{self.port},file.target={NAME},file.lun=0"
        return f"driver=raw,offset={number * size},size={size},{disk}"


def received(peer, count):
    """So many bytes of a connection, or those before its end."""
    got = b""
    while len(got) < count:
        more = peer.recv(count - len(got))
        if not more:
            break
        got += more
    return got


def login_of(port):
    """The login of a port of the initiator: the last two bytes of its ISID are the port's number."""
    return LOGIN[:12] + port.to_bytes(2, "big") + LOGIN[14:]


def log_in(peer, port=0):
    """Logs in, and gives the answer."""
    peer.sendall(login_of(port))
    return received(peer, 48 + 56)


def works(service):
    """Whether another initiator is served meanwhile."""
    ran = subprocess.run(["iscsi-inq", service.url], stdout=subprocess.DEVNULL, stderr=subprocess.DEVNULL, timeout=SECONDS)
    return ran.returncode == 0


def start(*words):
    return subprocess.Popen(words, stdin=subprocess.DEVNULL, stdout=subprocess.PIPE, stderr=subprocess.STDOUT)


def all_end_well(processes):
    """Whether all processes end with status 0; else what they said."""
    said = [(p.communicate(timeout=SECONDS)[0][-300:], p.returncode) for p in processes]
    return all(status == 0 for _, status in said) or said


# ---- rows: each gives True, or what was seen


def two_perf(program, room):
    """Two readers at once."""
    with Service(program, 2) as service:
        seen = all_end_well([start("iscsi-perf", "-t", "2", "-m", "8", service.url) for _ in range(2)])
        return seen is True and service.ended() == (b"listening\n", b"", 0) or seen


def two_halves(program, room):
    """Two writers at once, each of its half; then both are read back."""
    images = []
    for number in range(2):
        images.append(f"{room}/half{number}")
        with open(images[-1], "wb") as image:
            image.write(os.urandom(BLOCKS * 512 // 2))
    with Service(program, 100) as service:
        convert = ("qemu-img", "convert", "-n", "-f", "raw", "--target-image-opts")
        seen = all_end_well([start(*convert, image, service.half(n)) for n, image in enumerate(images)])
        if seen is not True:
            return seen
        compare = ("qemu-img", "compare", "--image-opts")
        halves = [(f"driver=raw,file.driver=file,file.filename={image}", service.half(n)) for n, image in enumerate(images)]
        return all_end_well([start(*compare, *pair) for pair in halves])


def large_disk(program, room):
    """Two writers at once behind the first 2^32 blocks of a disk of 2^33; then each place is read back, by two readers at once."""
    places = [((1 << 32) + 100) * 512, ((1 << 33) - 128) * 512]
    with Service(program, 4, "--memory", str(1 << 20), blocks=1 << 33) as service:
        for order in ("write", "read"):
            # -P names the byte that is written, or that each byte has to be
            words = [f"{order} -P {number + 1} {place} 65536" for number, place in enumerate(places)]
            seen = all_end_well([start("qemu-io", "-f", "raw", "-c", word, service.url) for word in words])
            if seen is not True:
                return seen
        return service.ended() == (b"listening\n", b"", 0)


def held_peer(program, room):
    """A writer is stopped in the middle of its write; another one works; then the first one ends."""
    image = f"{room}/large"
    with open(image, "wb") as file:
        file.write(os.urandom(64 << 20))
    with Service(program, 100, blocks=(64 << 20) // 512) as service:
        # 64 MiB in four seconds
        writer = start("qemu-img", "convert", "-n", "-r", "16M", "-f", "raw", "-O", "raw", image, service.url)
        time.sleep(1)
        is_running = writer.poll() is None
        writer.send_signal(signal.SIGSTOP)
        is_served = all(works(service) for _ in range(5))
        writer.send_signal(signal.SIGCONT)
        seen = all_end_well([writer])
        if seen is True:
            seen = all_end_well([start("qemu-img", "compare", "-f", "raw", "-F", "raw", image, service.url)])
        return (is_running and is_served and seen is True) or (is_running, is_served, seen)


def partial_write(program, room):
    """A peer stops within a write's data, logged in by hand; another one works; the first one's end is told."""
    with Service(program, 2) as service:
        with service.peer() as peer:
            log_in(peer)
            # a WRITE(10) of eight blocks, of which the first 100 bytes come
            cdb = "2a000000 00000000 08000000 00000000"
            peer.sendall(ROWS.of_hex("01a10000 00001000 00000000 00000000 00000002 00001000 00000001 00000002", cdb) + bytes(100))
            is_served = works(service)
        seen = service.ended()
    return (is_served and seen == (b"listening\n", b"stream: truncated at 124\n", 0)) or (is_served, seen)


def silent_peer(program, room):
    """A peer says nothing, and its slot is freed; another one works before and after."""
    with Service(program, 2, "--idle", "1") as service:
        with service.peer() as peer:
            began = time.monotonic()
            before = works(service)
            is_shut = received(peer, 1) == b""
            took = time.monotonic() - began
            seen = (before, is_shut, works(service), service.ended())
    return (seen == (True, True, True, (b"listening\n", b"session: idle\n", 0)) and 0.9 < took < 2.5) or (seen, took)


def late_login(program, room):
    """A peer sends a byte of its login now and then, and is too late."""
    with Service(program, 1, "--login-within", "1") as service:
        with service.peer() as peer:
            try:
                for byte in LOGIN:
                    peer.sendall(bytes([byte]))
                    time.sleep(0.05)
            except OSError:
                pass
            seen = (works(service), service.ended())
    return seen == (True, (b"listening\n", b"session: login too late\n", 0)) or seen


def byte_by_byte(program, room):
    """A peer sends a byte at a time; another one works meanwhile."""
    with Service(program, 2, "--plain") as service:
        with service.peer() as peer:
            peer.setsockopt(socket.IPPROTO_TCP, socket.TCP_NODELAY, 1)
            answers = b""
            is_served = False
            for place, byte in enumerate(LOGIN + LOGOUT):
                peer.sendall(bytes([byte]))
                time.sleep(0.002)
                if place == 60:
                    is_served = works(service)
            answers = received(peer, 1000)
        seen = service.ended()
    login = ROWS.LOGGED_IN + bytes(3)
    is_well = answers[:104] == login and answers[104:105] == b"\x26" and len(answers) == 152
    return (is_well and is_served and seen == (b"listening\n", b"", 0)) or (answers.hex(), is_served, seen)


def broken_rule(program, room):
    """A session that breaks a rule has its Reject and its line, and another one goes on."""
    with Service(program, 2, "--plain") as service:
        with service.peer() as other, service.peer() as peer:
            log_in(other, 1)
            peer.sendall(ROWS.OUT_OF_TURN)
            answers = received(peer, 1000)
            other.sendall(LOGOUT)
            rest = received(other, 1000)
        seen = service.ended()
    # TSIH 2, since it is the second session
    due = ROWS.LOGGED_IN.replace(bytes.fromhex("400000010000 0001"), bytes.fromhex("4000000100000002"), 1)
    is_well = len(rest) == 48 and answers[:14] == due[:14] and answers[104:] == ROWS.REJECTED
    return (is_well and seen == (b"listening\n", b"protocol: a command out of its turn\n", 0)) or (answers.hex(), rest.hex(), seen)


def unread_answers(program, room):
    """A peer asks for much and reads nothing; another one works; its slot is freed by --idle."""
    with Service(program, 2, "--idle", "3") as service:
        with service.peer() as peer:
            log_in(peer)
            asked = b""
            for number in range(8):
                cdb = "28000000 00000008 00000000 00000000"
                numbers = f"{number + 2:08x} 00100000 {number + 1:08x} 00000002"
                asked += ROWS.of_hex("01c10000 00000000 00000000 00000000", numbers, cdb)
            peer.sendall(asked)
            is_served = works(service)
            memory = service.resident()
            time.sleep(3.5)
            seen = service.ended()
    return (is_served and memory < 40 and seen == (b"listening\n", b"session: idle\n", 0)) or (is_served, memory, seen)


def late_reader(program, room):
    """A peer asks for much and reads nothing until its socket is full; then it reads all of it."""
    with Service(program, 1) as service:
        with service.peer() as peer:
            log_in(peer)
            ask_much(peer)
            time.sleep(1)
            left, answered = 8 * MOST, 0
            while left > 0 or answered < 8:
                head = received(peer, 48)
                # Data-In, or a command's response behind its data
                if len(head) < 48 or head[0] not in (0x25, 0x21):
                    return f"{left} bytes are lacking before {head.hex(' ', 4)}"
                length = int.from_bytes(head[5:8], "big")
                if received(peer, length) != bytes(length):
                    return "other data"
                left -= length
                answered += head[0] == 0x21
    return left == 0


def sixty_four(program, room):
    """64 sessions at once, and one more, which waits until another one logs out."""
    with Service(program, 65, "--at-once", "64") as service:
        peers = [service.peer() for _ in range(64)]
        answers = [log_in(peer, port) for port, peer in enumerate(peers)]
        tsihs = {answer[14:16] for answer in answers}
        more = service.peer()
        more.sendall(login_of(64))
        more.settimeout(0.5)
        try:
            early = more.recv(1)
        except TimeoutError:
            early = None
        peers[17].sendall(LOGOUT)
        left = received(peers[17], 1000)
        more.settimeout(SECONDS)
        late = received(more, 104)
        for peer in [*peers, more]:
            peer.close()
        seen = service.ended()
    is_well = all(len(answer) == 104 for answer in answers) and len(tsihs) == 64
    is_well = is_well and early is None and len(left) == 48 and len(late) == 104
    return (is_well and seen == (b"listening\n", b"", 0)) or (len(tsihs), early, len(left), len(late), seen)


def same_port(program, room):
    """The same port of an initiator logs in once more, as after a restart: its first session is ended, and the second goes on."""
    with Service(program, 2) as service:
        with service.peer() as first, service.peer() as second:
            log_in(first)
            log_in(second)
            is_shut = received(first, 1) == b""
            second.sendall(LOGOUT)
            rest = received(second, 1000)
        seen = service.ended()
    return (is_shut and len(rest) == 48 and seen == (b"listening\n", b"session: taken over\n", 0)) or (is_shut, rest.hex(), seen)


def as_before(program, room):
    """With the words that have to be there alone: one connection after another."""
    with Service(program, 2, in_turn=True) as service:
        with service.peer() as first:
            log_in(first)
            second = service.peer()
            second.sendall(LOGIN)
            second.settimeout(0.5)
            try:
                early = second.recv(1)
            except TimeoutError:
                early = None
        second.settimeout(SECONDS)
        late = received(second, 104)
        second.close()
        seen = service.ended()
    return (early is None and late == ROWS.LOGGED_IN + bytes(3) and seen == (b"listening\n", b"", 0)) or (early, late, seen)


def other_name(program, room):
    """Another name, the address ::1, and the printed port."""
    words = ["serve", "--port", "0", "--blocks", "8", "--logins", "1", "--quiet", "--print-port"]
    words += ["--listen", "::1", "--name", "iqn.2026-01.example:other"]
    with subprocess.Popen([program, *words], stdout=subprocess.PIPE, stderr=subprocess.PIPE) as process:
        told = process.stdout.readline()
        port = int(process.stdout.readline())
        url = f"iscsi://[::1]:{port}/iqn.2026-01.example:other/0"
        ran = subprocess.run(["iscsi-inq", url], stdout=subprocess.DEVNULL, stderr=subprocess.DEVNULL, timeout=SECONDS)
        rest = process.communicate(timeout=SECONDS)
    seen = (told, ran.returncode, rest, process.returncode)
    return seen == (b"listening\n", 0, (b"", b""), 0) or seen


def inquires(url, initiator):
    """Whether an INQUIRY of this initiator is answered."""
    words = ["iscsi-inq", "-i", initiator, url]
    return subprocess.run(words, stdout=subprocess.DEVNULL, stderr=subprocess.DEVNULL, timeout=SECONDS).returncode == 0


def listed_initiators(program, room):
    """A service that lists two initiators serves both, and refuses a third and a part of a name."""
    listed = ["--initiator", "iqn.2026-01.example:a", "--initiator", "iqn.2026-01.example:b"]
    with Service(program, 4, *listed) as service:
        seen = [inquires(service.url, f"iqn.2026-01.example:{name}") for name in ["c", "a", "", "b"]]
    return seen == [False, True, False, True] or seen


def found(service, *words):
    """What iscsi-ls finds at a service: a line of targets and one of units."""
    words = ["iscsi-ls", *words, f"iscsi://127.0.0.1:{service.port}"]
    ran = subprocess.run(words, stdin=subprocess.DEVNULL, stdout=subprocess.PIPE, stderr=subprocess.DEVNULL, timeout=SECONDS)
    return ran.returncode, [b" ".join(line.split()) for line in ran.stdout.splitlines()]


def target_line(portal):
    """What iscsi-ls prints of the target at a portal."""
    return f"Target:{NAME} Portal:{portal},1".encode()


def told_portal(program, room):
    """iscsi-ls finds the target where it asked, and with -s its unit, beside the discovery session; or where --portal says."""
    with Service(program, 3) as service:
        target = target_line(f"127.0.0.1:{service.port}")
        seen = [found(service), found(service, "-s")]
        ended = service.ended()
    with Service(program, 1, "--portal", "disk.example:PORT") as service:
        other = target_line(f"disk.example:{service.port}")
        seen.append(found(service))
    # It takes the last block for the size, and so tells 3 MiB of 4.
    due = [(0, [target]), (0, [target, b"Lun:0 Type:DIRECT_ACCESS (Size:3M)"]), (0, [other])]
    return (seen, ended) == (due, (b"listening\n", b"", 0)) or (seen, ended)


CASES = [
    (two_perf, ["iscsi-perf"]),
    (two_halves, ["qemu-img"]),
    (large_disk, ["qemu-io"]),
    (held_peer, ["qemu-img", "iscsi-inq"]),
    (partial_write, ["iscsi-inq"]),
    (silent_peer, ["iscsi-inq"]),
    (late_login, ["iscsi-inq"]),
    (byte_by_byte, ["iscsi-inq"]),
    (broken_rule, []),
    (unread_answers, ["iscsi-inq"]),
    (late_reader, []),
    (sixty_four, []),
    (same_port, []),
    (as_before, []),
    (other_name, ["iscsi-inq"]),
    (listed_initiators, ["iscsi-inq"]),
    (told_portal, ["iscsi-ls"]),
]


# ---- figures


def data_out(r2t, data_sn, offset, data, is_final):
    """A Data-Out of the write with tag 2 that an R2T asked for (RFC 7143, section 11.7)."""
    flags = 0x80 if is_final else 0
    head = struct.pack(">BBHI8s4s4sIIIIII", 5, flags, 0, len(data), bytes(8), r2t[16:20], r2t[20:24], 0, 2, 0, data_sn, offset, 0)
    return head + data


def write_most(peer):
    """Begins a write of 4 MiB, and sends all of its data but the last byte."""
    cdb = "2a000000 00000020 00000000 00000000"
    peer.sendall(ROWS.of_hex("01a10000 00000000 00000000 00000000 00000002 00400000 00000001 00000002", cdb))
    left = MOST
    while left:
        r2t = received(peer, 48)
        offset, desired = struct.unpack(">II", r2t[40:48])
        left = MOST - offset - desired
        places = range(0, desired, SEGMENT)
        run = b"".join(data_out(r2t, n, offset + at, bytes(SEGMENT), at + SEGMENT == desired) for n, at in enumerate(places))
        peer.sendall(run if left else run[:-1])


def ask_much(peer):
    """Asks for 4 MiB eight times, and reads nothing."""
    for number in range(8):
        numbers = f"{number + 2:08x} 00400000 {number + 1:08x} 00000002"
        peer.sendall(ROWS.of_hex("01c10000 00000000 00000000 00000000", numbers, "28000000 00000020 00000000 00000000"))


def memory_figures(program):
    """The resident memory of 64 sessions: logged in; each with a write of 4 MiB that lacks its last byte; and each with eight
    READs of 4 MiB of which its peer reads nothing."""
    said = []
    states = (("logged in", None), ("in a write of 4 MiB", write_most), ("with eight READs of 4 MiB, unread", ask_much))
    for what, does in states:
        with Service(program, 64, "--at-once", "64", "--plain") as service:
            empty = service.resident()
            peers = [service.peer() for _ in range(64)]
            for port, peer in enumerate(peers):
                log_in(peer, port)
                if does:
                    does(peer)
            time.sleep(2)
            said.append(f"{service.resident():.1f} with 64 {what}")
            for peer in peers:
                peer.close()
    print(f"resident MB: {empty:.1f} with no session, {', '.join(said)}")


def pin(process, number):
    """Keeps a process on one processor, where there are three, so that runs differ less by where they run."""
    if os.cpu_count() > 2:
        os.sched_setaffinity(process.pid, {number})
    return process


def rates(speed, service, clients, size, depth):
    """Reads and writes a second of so many clients at once, added up."""
    pin(service.process, 0)
    words = (speed, service.url, str(size), RUN, str(depth))
    running = [pin(start(*words), 1 + number) for number in range(clients)]
    said = [client.communicate(timeout=SECONDS)[0].decode() for client in running]
    both = [[float(n) for n in re.findall(r"([0-9]+) IOPS", text)] for text in said]
    return [sum(kind) for kind in zip(*both)]


def middle(numbers):
    """The median, with the least and the most."""
    return f"{statistics.median(numbers):,.2f} ({min(numbers):,.2f} to {max(numbers):,.2f})"


def speed_figures(program, room):
    """Reads and writes a second of two clients of a service beside those of one: the ratios of runs that follow each other, in this order
    and the other one in turn, and the medians."""
    speed = f"{room}/speed"
    built = subprocess.run(["cc", "-O2", "-o", speed, f"{TOP}/tools/speed/speed.c", "-liscsi"], stderr=subprocess.DEVNULL)
    if built.returncode:
        print("speed: skipped, cc or libiscsi-dev is not installed")
        return
    print("| | Two, of one |\n|---|---|")
    for size, depth in ((4096, 1), (4096, 8), (65536, 1), (65536, 8)):
        seen = {1: [], 2: []}
        for number in range(ROUNDS):
            for clients in (1, 2) if number % 2 else (2, 1):
                with Service(program, 100, "--plain") as service:
                    seen[clients].append(rates(speed, service, clients, size, depth))
        for kind, what in enumerate(("reads", "writes")):
            ratios = [two[kind] / one[kind] for one, two in zip(seen[1], seen[2])]
            print(f"| {what} of {size // 1024} KiB, {depth} outstanding | {middle(ratios)} |", flush=True)


def main(words):
    with_figures = "--figures" in words
    words = [word for word in words if word != "--figures"]
    program = os.path.abspath(words[0]) if words else f"{TOP}/crates/lanthovur/out/lanthovur"
    if not os.path.isfile(program):
        sys.exit(f"there is no program {program}: `./lanthovur </dev/null` builds it")
    counts = {"passed": 0, "failed": 0, "skipped": 0}
    for case, wanted in CASES:
        lacking = [word for word in wanted if not shutil.which(word)]
        began = time.monotonic()
        if lacking:
            outcome, what = "skipped", f"{lacking[0]} is not installed"
        else:
            try:
                with tempfile.TemporaryDirectory() as room:
                    seen = case(program, room)
            except (OSError, TypeError, subprocess.TimeoutExpired) as error:
                seen = error
            outcome, what = ("passed", "") if seen is True else ("failed", seen)
        counts[outcome] += 1
        print(f"{outcome:8} {time.monotonic() - began:5.1f} s  {case.__doc__.strip()} {what}", flush=True)
    if with_figures:
        memory_figures(program)
        with tempfile.TemporaryDirectory() as room:
            speed_figures(program, room)
    print(", ".join(f"{count} {outcome}" for outcome, count in counts.items()))
    return 1 if counts["failed"] else 0


if __name__ == "__main__":
    sys.exit(main(sys.argv[1:]))
