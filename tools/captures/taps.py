"""What goes over sockets, from outside of a capture: relays between both ends, system calls, and programs that record."""
import os
import re
import shutil
import signal
import socket
import subprocess
import tempfile
import threading
import time
from dataclasses import dataclass, field
from pathlib import Path

# A process that takes longer hangs.
SECONDS = 60
# How long a recorder needs to have what was sent last.
SETTLES = 1.5


@dataclass
class Tapped:
    """A TCP connection: its ends as (address, port), and the bytes that each of them sent."""

    initiator: tuple
    target: tuple
    sent: dict = field(default_factory=lambda: {"initiator": b"", "target": b""})


# ---- a relay


class Relay:
    """Passes bytes on between initiators and a target, and keeps those of each connection at both of its ends."""

    def __init__(self, target, delay=0):
        self.target, self.delay, self.tapped, self.threads = target, delay, [], []
        self.listener = socket.create_server(("127.0.0.1", 0))
        self.port = self.listener.getsockname()[1]
        threading.Thread(target=self.accept_all, daemon=True).start()

    def accept_all(self):
        while True:
            try:
                near, _ = self.listener.accept()
            except OSError:
                return
            far = socket.create_connection(self.target)
            # The connection at the initiator's end, and the one at the target's end.
            ends = (Tapped(near.getpeername(), near.getsockname()), Tapped(far.getsockname(), far.getpeername()))
            self.tapped += ends
            for words in ((near, far, "initiator", ends), (far, near, "target", ends)):
                self.threads.append(threading.Thread(target=self.pass_on, args=words, daemon=True))
                self.threads[-1].start()

    def pass_on(self, source, sink, end, ends):
        """One direction, up to its end."""
        came, left = ends if end == "initiator" else reversed(ends)
        try:
            while piece := source.recv(1 << 20):
                came.sent[end] += piece
                time.sleep(self.delay)
                sink.sendall(piece)
                left.sent[end] += piece
            sink.shutdown(socket.SHUT_WR)
        except OSError:
            pass

    def close(self):
        """Waits for the ends of all connections, and gives them."""
        self.listener.close()
        for thread in self.threads:
            thread.join(SECONDS)
        return self.tapped


# ---- system calls

CALL = re.compile(r"(?:[0-9]+ )?(read|readv|recvfrom|recvmsg|write|writev|sendto|sendmsg)\([0-9]+<TCP:\[(.*?)->(.*?)\]>, (.*)\) += ([0-9]+)")


def end_of(text):
    address, _, port = text.rpartition(":")
    return address, int(port)


def traced(words, **how):
    """Runs a program by strace, and gives its result and the connections of its sockets."""
    with tempfile.TemporaryDirectory(prefix="traced-") as room:
        calls = "trace=read,readv,recvfrom,recvmsg,write,writev,sendto,sendmsg"
        before = ["strace", "-ff", "-yy", "-xx", "-s", "10000000", "-e", calls, "-e", "signal=none", "-o", f"{room}/calls"]
        ran = subprocess.run([*before, *words], capture_output=True, timeout=SECONDS, **how)
        lines = [line for path in sorted(Path(room).iterdir()) for line in path.read_text().splitlines()]
    sent, received = {}, {}
    for call, local, remote, what, count in (found.groups() for line in lines if (found := CALL.match(line))):
        data = b"".join(bytes.fromhex(text.replace("\\x", "")) for text in re.findall(r'"((?:\\x[0-9a-f]{2})*)"', what))
        kept = sent if call.startswith(("write", "send")) else received
        key = end_of(local), end_of(remote)
        kept[key] = kept.get(key, b"") + data[:int(count)]
    # The initiator is the end that sends a login request at first.
    found = [ends for ends, data in sent.items() if data[:1] == b"\x43"]
    return ran, [Tapped(*ends, {"initiator": sent[ends], "target": sent.get(ends[::-1], received.get(ends, b""))}) for ends in found]


# ---- programs that record

# The words of each recorder, up to its file, and the end of the file's name.
RECORDERS = {
    "tcpdump": (["tcpdump", "--immediate-mode", "-i", "lo", "-s", "0", "-B", "65536", "-U", "-w"], "pcap"),
    # Without --immediate-mode a packet takes only the room that it needs, so that the buffer holds hundreds of times as many.
    "tcpdump-deep": (["tcpdump", "-i", "lo", "-s", "0", "-B", "524288", "-w"], "pcap"),
    "tcpdump-nano": (["tcpdump", "--immediate-mode", "-i", "any", "--time-stamp-precision=nano", "-s", "0", "-B", "65536", "-w"], "pcap"),
    "dumpcap": (["dumpcap", "-i", "lo", "-B", "64", "-w"], "pcapng"),
    "dumpcap-classic": (["dumpcap", "-P", "-i", "lo", "-B", "64", "-w"], "pcap"),
    "dumpcap-any": (["dumpcap", "-i", "any", "-B", "64", "-w"], "pcapng"),
}


class Recorder:
    """A program that records all TCP of this machine's loopback device into a file, or that of one port."""

    def __init__(self, name, room, port=None):
        words, ending = RECORDERS[name]
        self.name, self.path = name, Path(room) / f"{name}.{ending}"
        # dumpcap gives up its rights, and then wants to write where all may.
        Path(room).chmod(0o777)
        what = f"tcp port {port}" if port else "tcp"
        filtered = [what] if words[0] == "tcpdump" else ["-f", what]
        self.process = subprocess.Popen([*words, self.path, *filtered], stdout=subprocess.DEVNULL, stderr=subprocess.PIPE, text=True)
        begins = "listening on" if words[0] == "tcpdump" else "File:"
        while begins not in (line := self.process.stderr.readline()):
            if not line:
                raise RuntimeError(f"{words[0]} does not record")

    def close(self):
        """Ends it, and gives how many packets it says it lost."""
        self.process.send_signal(signal.SIGINT)
        said = self.process.communicate(timeout=SECONDS)[1]
        lost = re.search(r"([0-9]+) packets? dropped by kernel", said) or re.search(r"received/dropped on interface .*: [0-9]+/([0-9]+)", said)
        return int(lost[1]) if lost else -1


def recorded(room, names, job):
    """What a job gives, the captures of what it sent, and how many packets were lost."""
    recorders = [Recorder(name, room) for name in names]
    time.sleep(0.3)
    try:
        result = job()
    finally:
        time.sleep(SETTLES)
        lost = sum(recorder.close() for recorder in recorders)
    return result, [recorder.path for recorder in recorders], lost


# ---- targets


class Tgt:
    """tgtd, over a file."""

    title, name, unit = "tgt", "iqn.2026-01.example:disk", 1
    wants = ["tgtd", "tgtadm"]

    def __init__(self, program, room, size):
        # The number of its control socket has to be another one than that of any other tgtd.
        self.port, control = free_port(), str(os.getpid() % 30_000)
        self.process = subprocess.Popen(
            ["tgtd", "-f", "-C", control, "--iscsi", f"portal=127.0.0.1:{self.port}"], stdout=subprocess.DEVNULL, stderr=subprocess.DEVNULL)
        disk = Path(room) / "tgt.img"
        disk.write_bytes(bytes(size))
        time.sleep(1)
        for step in (["--mode", "target", "--op", "new", "--tid", "1", "-T", self.name],
                     ["--mode", "logicalunit", "--op", "new", "--tid", "1", "--lun", "1", "-b", str(disk)],
                     ["--mode", "target", "--op", "bind", "--tid", "1", "-I", "ALL"]):
            subprocess.run(["tgtadm", "-C", control, "--lld", "iscsi", *step], check=True)

    def close(self):
        self.process.kill()
        self.process.wait()


class Serve:
    """This program's `serve`, over memory."""

    title, name, unit = "serve", "iqn.2026-01.example:disk", 0
    wants = []

    def __init__(self, program, room, size):
        self.port = free_port()
        words = [program, "serve", "--size", str(size), "--port", str(self.port)]
        self.process = subprocess.Popen(words, stdin=subprocess.DEVNULL, stdout=subprocess.PIPE, stderr=subprocess.DEVNULL)
        if self.process.stdout.readline() != b"listening\n":
            raise RuntimeError("serve does not listen")

    def close(self):
        self.process.kill()
        self.process.communicate()


def free_port():
    with socket.create_server(("127.0.0.1", 0)) as listener:
        return listener.getsockname()[1]


def missing(*programs):
    """Those of these programs that are not installed."""
    return [name for name in programs if not shutil.which(name)]
