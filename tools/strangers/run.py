#!/usr/bin/env python3
"""Does to a service of several sessions what strangers and errors of the system may do, and looks whether the others go on.

    tools/strangers/run.py [PROGRAM]

PROGRAM is crates/lanthovur/out/lanthovur if none is named; `./lanthovur </dev/null` builds it. All is done on 127.0.0.1. Errors
of calls are put in by strace (Debian: strace), limits are set by prlimit, and ss (iproute2) tells of keepalive. Most rows begin with two sessions that are logged in,
and end with pings of both and a login of a third. The last line is 'N passed, M failed'. It takes three minutes.
"""
import fcntl
import os
import re
import select
import shutil
import signal
import socket
import struct
import subprocess
import sys
import tempfile
import time

TOP = os.path.dirname(os.path.dirname(os.path.dirname(os.path.abspath(__file__))))
# A peer that waits longer for an answer has none.
SECONDS = 5
NAME = "iqn.2026-01.example:disk"

# Errors of accept4 that a connection brings with it, and those that say that the system has no room.
OF_A_CONNECTION = [
    "ECONNABORTED", "EPROTO", "ENETDOWN", "ENOPROTOOPT", "EHOSTDOWN", "ENONET", "EHOSTUNREACH", "EOPNOTSUPP", "ENETUNREACH",
    "EPERM", "EINTR",
]
# Those that a service of one session after another passes over.
OF_THE_PEER = ["ECONNABORTED", "EPROTO"]
NO_ROOM = ["EMFILE", "ENFILE", "ENOBUFS", "ENOMEM"]
NO_ROOM_LINE = b"accept failed: nobody is accepted until a seat is free or a second is over\n"


def number(n):
    return n.to_bytes(4, "big")


def pdu(opcode, data=b"", **fields):
    """A PDU of this opcode and data segment; a field is named by its first byte, as p16."""
    header = bytearray(48)
    header[0] = opcode
    header[5:8] = len(data).to_bytes(3, "big")
    for place, value in fields.items():
        at = int(place[1:])
        header[at:at + len(value)] = value
    return bytes(header) + data + bytes(-len(data) % 4)


# An immediate NOP-Out with task tag 7, which a target answers with a NOP-In of 48 bytes.
PING = pdu(0x40, p1=b"\x80", p16=number(7), p20=number(0xFFFFFFFF), p24=number(1))


def connect(port):
    return socket.create_connection(("127.0.0.1", port), timeout=SECONDS)


def logged_in(port, initiator, keys=""):
    """A session of this initiator, in full feature phase, and its TSIH."""
    peer = connect(port)
    text = f"InitiatorName={initiator}\0TargetName={NAME}\0{keys}"
    peer.sendall(pdu(0x43, text.encode(), p1=b"\x87", p24=number(1)))
    answer = peer.recv(4096)
    if answer[:1] != b"\x23" or answer[36:38] != b"\0\0":
        raise OSError("no login")
    return peer, int.from_bytes(answer[14:16], "big")


def login(port, initiator, keys=""):
    """A session of this initiator, in full feature phase."""
    return logged_in(port, initiator, keys)[0]


def leave_at_once(port):
    """A connection without a byte, which is reset."""
    peer = connect(port)
    peer.setsockopt(socket.SOL_SOCKET, socket.SO_LINGER, struct.pack("ii", 1, 0))
    peer.close()


class Service:
    """A service of some sessions at a time, started by these words, such as those of strace, before the program's own. If it is quiet it
    tells no logins."""

    def __init__(self, program, *words, before=(), slots=64, descriptors=(), quiet=True):
        with socket.create_server(("127.0.0.1", 0)) as other:
            self.port = other.getsockname()[1]
        words = ["serve", "--port", str(self.port), "--at-once", str(slots), *(["--quiet"] if quiet else []), *words]
        pipe = subprocess.PIPE
        self.process = subprocess.Popen([*before, program, *words], stdin=subprocess.DEVNULL, stdout=pipe, stderr=pipe,
                                        start_new_session=True, pass_fds=descriptors)
        if self.process.stdout.readline() != b"listening\n":
            raise OSError(f"the service did not start: {self.process.stderr.read()}")
        self.peers = [self.login("iqn.2026-01.example:a"), self.login("iqn.2026-01.example:b")]

    def __enter__(self):
        return self

    def __exit__(self, *_):
        self.lines()

    def connect(self):
        return connect(self.port)

    def login(self, initiator):
        return login(self.port, initiator)

    def pid(self):
        """The program's own process, which strace and prlimit may have started."""
        children = open(f"/proc/{self.process.pid}/task/{self.process.pid}/children").read().split()
        return int(children[0]) if children else self.process.pid

    def all_lines(self):
        """Ends the service, and returns its lines on standard error."""
        if self.process.poll() is None:
            os.killpg(self.process.pid, signal.SIGKILL)
        return self.process.communicate()[1]

    def lines(self):
        """The same without the lines that two initiators may write the disk, which there are in most rows."""
        return re.sub(rb"(?m)^two initiators may write this disk: .*\n", b"", self.all_lines())


def count_of(told, lines):
    """How many lines have this text, or were left out and may have had it."""
    others = re.findall(rb"(?m), and ([0-9]+) more before$|^lines left out: ([0-9]+)$", lines)
    return lines.count(told) + sum(int(before or alone) for before, alone in others)


def ping(peer):
    """Whether a ping is answered."""
    peer.sendall(PING)
    return len(peer.recv(48)) == 48


def goes_on(service):
    """Whether both sessions are answered, and a third one can log in."""
    third = service.login("iqn.2026-01.example:c")
    return all(ping(peer) for peer in [*service.peers, third])


def injected(call, error, when):
    """The words of strace by which a call fails once."""
    return ["strace", "-qq", "-f", "-o", "/dev/null", "-e", f"trace={call}", "-e", f"inject={call}:error={error}:when={when}"]


def fails_to_accept(program, error, lines):
    # The first two connections are those of the sessions; some kernels' accept is called once more for each.
    for when in range(3, 6):
        with Service(program, "--blocks", "8", before=injected("accept4", error, when)) as service:
            stranger = service.connect()
            time.sleep(0.2)
            well = goes_on(service)
            stranger.close()
            if not well or service.lines() not in lines:
                return False
    return True


def fails_to_set_up(program):
    # Of a connection that is accepted the system sets the mode by ioctl, and has no memory for it.
    with Service(program, "--blocks", "8", before=injected("ioctl", "ENOMEM", 3)) as service:
        stranger = service.connect()
        time.sleep(0.2)
        well = goes_on(service)
        stranger.close()
        return well and service.lines() == NO_ROOM_LINE


def started(program, *words, before=()):
    """A service that is started by these words, without them one session after another, and its port."""
    with socket.create_server(("127.0.0.1", 0)) as other:
        port = other.getsockname()[1]
    pipe = subprocess.PIPE
    words = ["serve", "--port", str(port), "--blocks", "8", *words]
    process = subprocess.Popen([*before, program, *words], stdin=subprocess.DEVNULL, stdout=pipe, stderr=pipe)
    if process.stdout.readline() != b"listening\n":
        raise OSError(f"the service did not start: {process.stderr.read()}")
    return process, port


def passes_over_in_turn(program, error):
    process, port = started(program, "--sessions", "1", before=injected("accept4", error, 1))
    peer = login(port, "iqn.2026-01.example:a")
    well = ping(peer)
    peer.close()
    return well and (process.communicate(timeout=SECONDS)[1], process.returncode) == (b"", 0)


def ends_in_turn(program):
    process, port = started(program, before=injected("accept4", "EMFILE", 1))
    try:
        connect(port).close()
    except ConnectionRefusedError:
        # The program ends as it first accepts, which may be before this connection.
        pass
    return (process.communicate(timeout=SECONDS)[1], process.returncode) == (b"network failed\n", 4)


def refuses_a_pipe(program):
    with tempfile.TemporaryDirectory() as folder:
        pipe, calls = os.path.join(folder, "pipe"), os.path.join(folder, "calls")
        os.mkfifo(pipe)
        before = ["strace", "-qq", "-f", "-o", calls, "-e", "trace=open,openat,creat"]
        words = ["serve", "--port", "0", "--file", pipe]
        done = subprocess.run([*before, program, *words], stdin=subprocess.DEVNULL, capture_output=True, timeout=SECONDS)
        line = f"{pipe}: is no disk image\n".encode()
        return (done.stdout, done.stderr, done.returncode) == (b"", line, 4) and pipe not in open(calls).read()


def asks_the_silent(program):
    with Service(program, "--blocks", "8") as service:
        told = subprocess.run(["ss", "-tnoH", f"sport = :{service.port}"], capture_output=True, text=True, check=True).stdout
        timers = re.findall(r"timer:\(keepalive,(?:([0-9]+)min)?(?:([0-9]+)(?:\.[0-9]+)?sec)?", told)
        return len(timers) == 2 and all(50 <= 60 * int(m or 0) + int(s or 0) <= 60 for m, s in timers)


def fails_to_watch(program, error):
    # The first calls watch the listener and the two sessions.
    with Service(program, "--blocks", "8", before=injected("epoll_ctl", error, 4)) as service:
        stranger = service.connect()
        closed = stranger.recv(1) == b""
        return closed and goes_on(service)


def wants_more_descriptors(program):
    words = ["serve", "--port", "0", "--blocks", "8", "--at-once", "64"]
    done = subprocess.run(["prlimit", "--nofile=71", "--", program, *words], stdin=subprocess.DEVNULL, capture_output=True)
    line = b"--at-once 64 wants 72 descriptors, and the limit is 71\nnetwork failed\n"
    return (done.stdout, done.stderr, done.returncode) == (b"", line, 4)


def has_few_descriptors(program):
    # Those that it is started with take what its slots want.
    given = [os.open("/dev/null", os.O_RDONLY) for _ in range(12)]
    before = ["prlimit", f"--nofile={max(given) + 20}", "--"]
    with Service(program, "--blocks", "8", before=before, slots=max(given) + 12, descriptors=given) as service:
        for descriptor in given:
            os.close(descriptor)
        strangers = []
        for _ in range(60):
            strangers.append(service.connect())
            if not all(ping(peer) for peer in service.peers):
                return False
        for stranger in strangers:
            stranger.close()
        time.sleep(1.5)
        return goes_on(service) and service.lines().count(NO_ROOM_LINE) >= 1


def has_silent_strangers(program):
    with Service(program, "--blocks", "8") as service:
        for peer in service.peers:
            peer.close()
        time.sleep(0.2)
        silent = [service.connect() for _ in range(64)]
        time.sleep(0.2)
        peer = service.login("iqn.2026-01.example:c")
        is_shut = silent[0].recv(1) == b""
        address = silent[0].getsockname()[1]
        return ping(peer) and is_shut and service.lines() == b"session 3 127.0.0.1:%d: session: made room\n" % address


def has_strangers_who_hold(program):
    # More connections than slots, and more of them all the time: a login still gets a slot, and keeps it.
    with Service(program, "--blocks", "8") as service:
        held, guests = [service.connect() for _ in range(200)], []
        for at in range(10):
            guests.append(service.login(f"iqn.2026-01.example:guest-{at}"))
            held += [service.connect() for _ in range(40)]
            if not all(ping(peer) for peer in [*service.peers, *guests]):
                return False
        for stranger in held:
            stranger.close()
        # Lines that were left out are told once the second is over.
        time.sleep(1.5)
        return goes_on(service) and count_of(b": session: made room", service.lines()) >= 400


def has_many_strangers(program):
    with Service(program, "--blocks", "8") as service:
        for at in range(65533):
            leave_at_once(service.port)
            if at % 1000 == 0 and not all(ping(peer) for peer in service.peers):
                return False
        # All numbers were used, and those of the two sessions are not free.
        third, number = logged_in(service.port, "iqn.2026-01.example:c")
        return number > 2 and ping(third) and goes_on(service)


def counts_logins(program):
    with Service(program, "--blocks", "8", "--logins", "3") as service:
        silent = service.connect()
        for _ in range(20):
            leave_at_once(service.port)
        # One line a second is told of those who have not logged in: the first, and how many were left out.
        time.sleep(2.5)
        third = service.login("iqn.2026-01.example:c")
        is_shut = silent.recv(1) == b""
        try:
            service.connect()
            return False
        except ConnectionRefusedError:
            pass
        well = is_shut and all(ping(peer) for peer in [*service.peers, third])
        for peer in [*service.peers, third]:
            peer.close()
        return well and service.process.wait(SECONDS) == 0 and b": session: no more logins" in service.lines()


def has_no_reader(program):
    with Service(program, "--blocks", "8") as service:
        # A pipe of one page, which a line fills.
        errors = service.process.stderr.fileno()
        fcntl.fcntl(errors, fcntl.F_SETPIPE_SZ, 4096)
        for _ in range(40):
            peer = service.login("iqn.2026-01.example:c")
            peer.setsockopt(socket.SOL_SOCKET, socket.SO_LINGER, struct.pack("ii", 1, 0))
            peer.close()
            time.sleep(0.05)
            if not all(ping(peer) for peer in service.peers):
                return False
        told = b""
        while b"lines lost: " not in told and select.select([errors], [], [], SECONDS)[0]:
            told += os.read(errors, 65536)
        return re.search(rb"(?m)^lines lost: [1-9][0-9]*\n", told) is not None and goes_on(service)


def names_sessions(program):
    with Service(program, "--blocks", "8") as service:
        peer = service.peers[0]
        address = peer.getsockname()[1]
        peer.sendall(pdu(0x3F))
        peer.recv(48)
        line = f"session 1 127.0.0.1:{address} iqn.2026-01.example:a: protocol: a PDU or a tag that is not due\n"
        time.sleep(0.2)
        return service.lines() == line.encode()


def escapes_names(program):
    with Service(program, "--blocks", "8") as service:
        peer = service.login("iqn.2026-01.example:a\\b~")
        address = peer.getsockname()[1]
        peer.sendall(pdu(0x3F))
        peer.recv(48)
        time.sleep(0.2)
        line = f"session 3 127.0.0.1:{address} iqn.2026-01.example:a\\x5cb~: protocol: a PDU or a tag that is not due\n"
        return goes_on(service) and service.lines() == line.encode()


def logs_sessions(program):
    with Service(program, "--blocks", "8", quiet=False) as service:
        one, two = (peer.getsockname()[1] for peer in service.peers)
        reader = service.peers[0]
        for n in (1, 2):
            reader.sendall(pdu(0x01, p1=b"\xc1", p16=number(n), p20=number(512), p24=number(n), p32=bytes([0x28]) + bytes(7) + b"\1"))
            if len(reader.recv(4096)) < 48 + 512:
                return False
        reader.sendall(pdu(0x06, p1=b"\x80", p16=number(3), p24=number(3)))
        reader.recv(48)
        service.peers[1].close()
        other = service.connect()
        third = other.getsockname()[1]
        text = b"InitiatorName=iqn.2026-01.example:c\0TargetName=iqn.2026-01.example:other\0"
        other.sendall(pdu(0x43, text, p1=b"\x87", p24=number(1)))
        other.recv(4096)
        time.sleep(0.5)
        lines = service.all_lines().decode().splitlines()
    a, b = "iqn.2026-01.example:a", "iqn.2026-01.example:b"
    counts = r"; ([0-9]+) commands, [1-9][0-9]* bytes received, [1-9][0-9]* bytes sent, [0-9]+ seconds"
    wanted = {
        f"session 1 127.0.0.1:{one} {a}: logged in": None, f"session 2 127.0.0.1:{two} {b}: logged in": None,
        f"session 1 127.0.0.1:{one} {a}: logged out": "2", f"session 2 127.0.0.1:{two} {b}: disconnected": "0",
        f"session 3 127.0.0.1:{third}: login refused: 0203, no such target": "0", f"two initiators may write this disk: {a} and {b}": None,
    }
    ends = [re.fullmatch(f"(.*?)(?:{counts})?", line) for line in lines]
    return {end.group(1): end.group(2) for end in ends} == wanted and len(lines) == len(wanted)


def write(peer, block, n=1):
    """The status of a write of one block, the n-th command of a session, and the code of its sense."""
    cdb = b"\x2a\0" + number(block) + b"\0\0\1\0"
    peer.sendall(pdu(0x01, b"w" * 512, p1=b"\xa1", p16=number(n), p20=number(512), p24=number(n), p32=cdb))
    answer = peer.recv(4096)
    return answer[3], answer[62:64]


def has_a_limit_of_file_sizes(program):
    with tempfile.TemporaryDirectory() as folder:
        image = os.path.join(folder, "disk.img")
        with open(image, "wb") as file:
            file.truncate(1 << 20)
        shell = ["bash", "-c", "trap '' XFSZ; ulimit -f 512; exec \"$0\" \"$@\""]
        with Service(program, "--file", image, before=shell) as service:
            refused = write(service.peers[0], 1500) == (2, b"\x0c\0")
            return refused and write(service.peers[1], 3)[0] == 0 and goes_on(service)


def has_a_limit_of_memory(program):
    with Service(program, "--blocks", str(1 << 40), "--memory", "65536") as service:
        peer = service.peers[0]
        seen = [write(peer, block, n + 1) for n, block in enumerate([0, 6400, 64000, 6401, 64000])]
        good, full = (0, b""), (2, b"\x0c\0")
        return seen == [good, good, full, good, full] and write(service.peers[1], 1) == good and goes_on(service)


def has_lone_blocks(program):
    # Each block that stands alone takes 32 KiB; past 256 MiB a write is refused. Without that limit these writes take 640,000
    # KiB. A program that was built without proofs has an allocator of its own, which takes 370,000 for what is allowed.
    with Service(program, "--blocks", str(1 << 40), "--memory", str(256 << 20)) as service:
        peer, good = service.peers[0], 0
        for n in range(1, 20001):
            status = write(peer, 64 * n, n)[0]
            if status not in (0, 2):
                return False
            good += status == 0
        taken = int(re.search(r"VmRSS:\s+([0-9]+)", open(f"/proc/{service.pid()}/status").read())[1])
        print(f"lone blocks: {good} of 20000 writes, {taken} KiB resident")
        return good == 8192 and taken < 400_000 and goes_on(service)


def has_little_memory(program):
    with Service(program, "--blocks", str(1 << 40)) as service:
        # (by default a half of the machine's memory is kept)
        taken = int(re.search(r"VmSize:\s+([0-9]+)", open(f"/proc/{service.pid()}/status").read())[1])
        subprocess.run(["prlimit", "--pid", str(service.pid()), f"--as={(taken + 8192) * 1024}"], check=True)
        greedy = service.login("iqn.2026-01.example:greedy")
        try:
            for n in range(1, 2000):
                write(greedy, 64 * n, n)
        except (OSError, IndexError):
            pass
        greedy.close()
        for _ in range(100):
            stranger = service.connect()
            stranger.sendall(pdu(0x43, bytes(8188), p1=b"\x44", p24=number(1))[:4000])
            stranger.close()
        # What was written takes all that the process may have, so nobody else has room to log in. Who has goes on.
        return all(ping(peer) for peer in service.peers) and service.process.poll() is None


def has_urgent_data(program):
    with Service(program, "--blocks", "8") as service:
        peer, pid = service.peers[0], service.pid()
        os.kill(pid, signal.SIGSTOP)
        peer.send(PING)
        peer.send(b"!", socket.MSG_OOB)
        peer.send(PING)
        time.sleep(0.2)
        os.kill(pid, signal.SIGCONT)
        answers = b""
        while len(answers) < 96:
            answers += peer.recv(96)
        return goes_on(service)


def status_of(port, initiator):
    """The status, class and detail, of a login of this initiator."""
    with connect(port) as peer:
        text = f"InitiatorName={initiator}\0TargetName={NAME}\0"
        peer.sendall(pdu(0x43, text.encode(), p1=b"\x87", p24=number(1)))
        return peer.recv(4096)[36:38].hex()


def lists_initiators(program):
    # The sessions are those of a and b, and another login of c would end neither.
    names = [f"iqn.2026-01.example:{name}" for name in "abc"]
    words = [word for name in names for word in ["--initiator", name]]
    with Service(program, "--blocks", "8", *words) as service:
        seen = [status_of(service.port, name) for name in [*names[2:], "iqn.2026-01.example:d", "iqn.2026-01.example:", ""]]
        return seen == ["0000", "0202", "0202", "0207"] and goes_on(service)


def counts_connections(program):
    # One whose login is refused, and one without a byte, count as well.
    words = ["--listen", "127.0.0.1", "--sessions", "3", "--initiator", "iqn.2026-01.example:a"]
    process, port = started(program, *words)
    seen = [status_of(port, f"iqn.2026-01.example:{name}") for name in "ba"]
    leave_at_once(port)
    lines = process.communicate(timeout=SECONDS)[1]
    return seen == ["0202", "0000"] and process.returncode == 0 and b": login refused: 0202" in lines


def warns_of_strangers(program):
    seen = []
    for words, may in ((["--listen", "0.0.0.0"], "read and write"), (["--listen", "0.0.0.0", "--read-only"], "read"), (["--listen", "127.0.0.2"], None)):
        # (started as any other word is, since at 127.0.0.2 nobody is reached at 127.0.0.1)
        process, port = started(program, "--logins", "0", *words)
        line = f"whoever reaches {words[1]}:{port} may {may} this disk\n" if may else ""
        seen.append(process.communicate(timeout=SECONDS)[1] == line.encode())
    return all(seen)


def uses_numbers_anew(program):
    with Service(program, "--blocks", "8", "--plain") as service:
        seen = []
        for _ in range(3):
            third, number = logged_in(service.port, "iqn.2026-01.example:c")
            seen.append(number)
            third.close()
            time.sleep(0.2)
        return seen == [3, 3, 3] and goes_on(service)


ROWS = [
    *((f"accept: {error}", lambda program, error=error: fails_to_accept(program, error, [b""])) for error in OF_A_CONNECTION),
    *((f"accept: {error}", lambda program, error=error: fails_to_accept(program, error, [NO_ROOM_LINE])) for error in NO_ROOM),
    *((f"epoll_ctl: {error}", lambda program, error=error: fails_to_watch(program, error)) for error in ["ENOSPC", "ENOMEM"]),
    ("ioctl: ENOMEM", fails_to_set_up),
    *((f"in turn: {error}", lambda program, error=error: passes_over_in_turn(program, error)) for error in OF_THE_PEER),
    ("in turn: EMFILE", ends_in_turn),
    ("a pipe in place of an image", refuses_a_pipe),
    ("keepalive", asks_the_silent),
    ("fewer descriptors than slots want", wants_more_descriptors),
    ("descriptors that are taken", has_few_descriptors),
    ("64 silent connections", has_silent_strangers),
    ("strangers who hold on", has_strangers_who_hold),
    ("65,533 connections without a byte", has_many_strangers),
    ("the last login", counts_logins),
    ("a standard error that nobody reads", has_no_reader),
    ("the line of a session", names_sessions),
    ("a name with a backslash", escapes_names),
    ("a log of sessions", logs_sessions),
    ("20,000 lone blocks", has_lone_blocks),
    ("a disk that is full", has_a_limit_of_memory),
    ("a peer that takes all memory", has_little_memory),
    ("a limit of file sizes", has_a_limit_of_file_sizes),
    ("urgent data", has_urgent_data),
    ("initiators that are listed", lists_initiators),
    ("connections that are counted", counts_connections),
    ("a disk that other machines reach", warns_of_strangers),
    ("numbers of the bare profile", uses_numbers_anew),
]


def main():
    program = os.path.abspath(sys.argv[1]) if len(sys.argv) > 1 else f"{TOP}/crates/lanthovur/out/lanthovur"
    for tool in ["strace", "prlimit", "ss"]:
        if not shutil.which(tool):
            sys.exit(f"{tool} is not installed")
    failed = 0
    for name, row in ROWS:
        try:
            well, why = row(program), ""
        except OSError as error:
            well, why = False, f" ({error})"
        if not well:
            failed += 1
            print(f"FAILED {name}{why}")
    print(f"{len(ROWS) - failed} passed, {failed} failed")
    sys.exit(1 if failed else 0)


if __name__ == "__main__":
    main()
