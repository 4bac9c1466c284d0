#!/usr/bin/env python3
"""Serves exports of real NBD servers by `serve --nbd` to real initiators, and looks at what is left of them.

    tools/nbd/run.py [--kills N] [--only WORD] [--costs [--slow-sync N]] [PROGRAM]

PROGRAM is crates/lanthovur/out/lanthovur if none is named; `./lanthovur </dev/null` builds it. All is done on 127.0.0.1 and
in a folder of its own below TMPDIR. It wants qemu-img, qemu-io and qemu-nbd (Debian: qemu-utils, qemu-block-extra), nbdkit
and nbd-server; some cases also want e2fsprogs. What isn't there is skipped, with a word. `serve` is killed N times (100 if
not said) in the middle of writes, and a server half as often. --only runs the cases whose name has this word. The last line
is 'N passed, M failed', and how many were skipped.

With --costs it measures instead, on an idle machine, in one run, with tools/speed/speed.c (libiscsi-dev, cc): reads and
writes of 4 and 64 KiB with 1 and 8 outstanding, of `serve --file`, of `serve --nbd` over nbdkit's memory and over qemu-nbd, and
of tgt over the same image, beside qemu-io at the same servers. --slow-sync N has each sync of a file take N microseconds more,
as on a disk that is slower than this one's.
"""
import argparse
import contextlib
import importlib.util
import os
import re
import shutil
import signal
import socket
import statistics
import struct
import subprocess
import sys
import tempfile
import threading
import time

TOP = os.path.dirname(os.path.dirname(os.path.dirname(os.path.abspath(__file__))))


def module_of(tool):
    """The module of another tool's run.py."""
    spec = importlib.util.spec_from_file_location(f"{tool}_run", f"{TOP}/tools/{tool}/run.py")
    module = importlib.util.module_from_spec(spec)
    sys.modules[f"{tool}_run"] = module
    spec.loader.exec_module(module)
    return module


# its initiators, its writers that are killed, and what it makes of them
lasting = module_of("lasting")
from_lasting = ("Skipped", "want", "free_port", "qemu", "ends_under", "ran", "noise", "bytes_of", "outcome_of")
Skipped, want, free_port, qemu, ends_under, ran, noise, bytes_of, outcome_of = (getattr(lasting, name) for name in from_lasting)
BLOCK, BLOCKS, MIB, SECONDS, FAILED = lasting.BLOCK, lasting.BLOCKS, lasting.MIB, lasting.SECONDS, lasting.FAILED
# How long `serve` waits for a server, in seconds.
WAIT = 30


class Service(lasting.Service):
    """`serve --nbd`, with further words, over an export; the word that names the export stands in for the image."""

    def __init__(self, program, word, *words, before=(), sessions=1000):
        self.port, self.word = free_port(), word
        words = ["--port", str(self.port), "--sessions", str(sessions), "--quiet", "--nbd", word, *words]
        pipe = subprocess.PIPE
        self.process = subprocess.Popen([*before, program, "serve", *words], stdin=subprocess.DEVNULL, stdout=pipe, stderr=pipe)
        self.told = self.process.stdout.readline()
        self.url = f"iscsi://127.0.0.1:{self.port}/{lasting.NAME}/0"

    def lines(self):
        """Its lines on standard error, once it is killed."""
        self.kill()
        return self.process.communicate(timeout=SECONDS)[1].decode(errors="replace").splitlines()


class Server:
    """An NBD server on a port of its own; `words` are made of the port."""

    def __init__(self, *words):
        want(words[0])
        self.port = free_port()
        words = [word.replace("PORT", str(self.port)) for word in words]
        quiet = {"stdin": subprocess.DEVNULL, "stdout": subprocess.DEVNULL, "stderr": subprocess.DEVNULL}
        self.process = subprocess.Popen(words, **quiet)
        self.word = f"127.0.0.1:{self.port}"
        self.wait_until_it_listens()

    def wait_until_it_listens(self):
        """Looks at the system's table, since a connection would be a client."""
        end = time.monotonic() + 10
        while time.monotonic() < end and self.is_there():
            if self.listens():
                return
            time.sleep(0.02)
        raise Skipped(f"{self.process.args[0]} does not listen with these words")

    def is_there(self):
        return self.process.poll() is None

    def listens(self):
        for table in ("/proc/net/tcp", "/proc/net/tcp6"):
            with open(table) as rows:
                if re.search(rf":{self.port:04X} [0:]+ 0A", rows.read()):
                    return True
        return False

    def __enter__(self):
        return self

    def __exit__(self, *_):
        self.end(signal.SIGTERM)

    def end(self, number):
        if self.process.poll() is None:
            self.process.send_signal(number)
        self.process.wait()

    def kill(self):
        self.end(signal.SIGKILL)


class SocketServer(Server):
    """An NBD server at a Unix socket, with the export `disk`."""

    def __init__(self, path, *words):
        want(words[0])
        self.path, self.word = path, f"nbd+unix:///disk?socket={path}"
        quiet = {"stdin": subprocess.DEVNULL, "stdout": subprocess.DEVNULL, "stderr": subprocess.DEVNULL}
        self.process = subprocess.Popen(words, **quiet)
        self.wait_until_it_listens()

    def listens(self):
        return os.path.exists(self.path)


def qemu_nbd(image, form="raw", *words):
    """qemu-nbd over an image, for one client after another."""
    return Server("qemu-nbd", "-t", "-b", "127.0.0.1", "-p", "PORT", "-f", form, "-x", "disk", *words, image)


def nbdkit(*words):
    return Server("nbdkit", "-f", "--exit-with-parent", "-i", "127.0.0.1", "-p", "PORT", *words)


def nbd_server(room, image, *lines):
    """nbd-server over an image, with these lines for it."""
    path = f"{room}/nbd-server.conf"
    port = free_port()
    with open(path, "w") as file:
        file.write(f"[generic]\nlistenaddr = 127.0.0.1\nport = {port}\n[disk]\nexportname = {image}\n" + "".join(f"{line}\n" for line in lines))

    class Daemon(Server):
        """It goes to the background, with the port of its file."""

        def __init__(self):
            want("nbd-server")
            self.port = port
            self.word = f"127.0.0.1:{port}"
            self.process = subprocess.Popen(["nbd-server", "-C", path, "-p", f"{room}/pid"], stderr=subprocess.DEVNULL)
            self.process.wait()
            self.wait_until_it_listens()

        def is_there(self):
            return True

        def end(self, number):
            with open(f"{room}/pid") as file:
                os.kill(int(file.read()), number)
            while self.listens():
                time.sleep(0.02)

    return Daemon()


def refused(program, word, *words):
    """How `serve` ends that does not serve an export: whether it was silent, its line, its status."""
    words = ["serve", "--port", "0", "--sessions", "0", "--nbd", word, *words]
    done = subprocess.run([program, *words], stdin=subprocess.DEVNULL, capture_output=True, timeout=SECONDS + WAIT)
    return done.stdout == b"", done.stderr.decode(errors="replace").replace(word + ": ", "", 1), done.returncode


# ---- cases: each gives True, or what was seen


def converted(program, server, image, room):
    """Copies a file system through `serve` onto an export, compares, and has it looked at behind the server's back."""
    os.makedirs(f"{room}/files", exist_ok=True)
    noise(f"{room}/files/held", 3 * MIB)
    source, raw = f"{room}/source", ("-f", "raw")
    seen = [ran("mkfs.ext4", "-q", "-d", f"{room}/files", source, f"{BLOCKS // 2}k")]
    with server, Service(program, f"{server.word}/disk") as service:
        seen.append(ran(*lasting.CONVERT, source, service.url))
        seen.append(ran("qemu-img", "compare", *raw, "-F", "raw", source, service.url))
        lines = service.lines()
    if image:
        form = "qcow2" if image.endswith(".qcow2") else "raw"
        seen.append(ran("qemu-img", "compare", *raw, "-F", form, source, image))
        seen.append(ran("qemu-img", "convert", "-f", form, "-O", "raw", image, f"{room}/out"))
        seen.append(ran("e2fsck", "-fn", f"{room}/out"))
    return (all(status == 0 for status, _ in seen) and lines == []) or (seen, lines)


def file_system_over_qemu_nbd(program, room):
    """A file system is copied onto an image of qemu-nbd, and compared on both sides."""
    want("mkfs.ext4", "e2fsck")
    return converted(program, qemu_nbd(noise(f"{room}/image", BLOCK * BLOCKS)), f"{room}/image", room)


def file_system_over_qcow2(program, room):
    """The same with a qcow2 image."""
    want("mkfs.ext4", "e2fsck")
    ran("qemu-img", "create", "-f", "qcow2", f"{room}/image.qcow2", str(BLOCK * BLOCKS))
    return converted(program, qemu_nbd(f"{room}/image.qcow2", "qcow2"), f"{room}/image.qcow2", room)


def file_system_over_nbdkit(program, room):
    """The same with a file of nbdkit."""
    want("mkfs.ext4", "e2fsck")
    return converted(program, nbdkit("file", noise(f"{room}/image", BLOCK * BLOCKS)), f"{room}/image", room)


def file_system_over_nbd_server(program, room):
    """The same with a file of nbd-server."""
    want("mkfs.ext4", "e2fsck")
    image = noise(f"{room}/image", BLOCK * BLOCKS)
    return converted(program, nbd_server(room, image, "flush = true", "fua = true"), image, room)


def is_refused(program, server, due, name="disk", *words):
    """Whether an export is refused with this line, before a port is listened at."""
    with server:
        seen = refused(program, f"{server.word}/{name}", *words)
    return seen == (True, due + "\n", 4) or seen


def no_server(program, room):
    """Nobody listens."""
    seen = refused(program, f"127.0.0.1:{free_port()}/disk")
    return seen == (True, "connection lost\n", 4) or seen


def oldstyle(program, room):
    """A server of the oldstyle handshake is refused."""
    return is_refused(program, nbdkit("-o", "memory", "1M"), "has the oldstyle handshake")


def tls(program, room):
    """An export that is given over TLS alone is refused."""
    with open(f"{room}/keys", "w") as file:
        file.write("alice:" + 64 * "a" + "\n")
    server = nbdkit("--tls=require", f"--tls-psk={room}/keys", "memory", "1M")
    return is_refused(program, server, "wants TLS")


def other_name(program, room):
    """An export of another name is refused, by qemu-nbd and by nbd-server."""
    image = noise(f"{room}/image", MIB)
    first = is_refused(program, qemu_nbd(image), "is no export there", "other")
    second = is_refused(program, nbd_server(room, image, "flush = true"), "is no export there", "other")
    return (first is True and second is True) or (first, second)


def read_only(program, room):
    """An export that may be read alone is refused, unless it is to be read alone."""
    return is_refused(program, nbdkit("-r", "memory", "1M"), "may not be written")


def without_flush(program, room):
    """An export without FLUSH is refused."""
    server = nbd_server(room, noise(f"{room}/image", MIB))
    return is_refused(program, server, "has no flush")


def read_alone_by_qemu(url, command):
    """Whether qemu-io, which opens the disk to read alone, reads what it should."""
    return [re.search(r"(?m)^read \d+/\d+ bytes", ran("qemu-io", "-r", "-f", "raw", "-c", command, url)[1]) is not None]


def read_alone(program, room):
    """Exports that can't be written, or have no FLUSH, are served with --read-only, with READ ONLY and FLUSH said or not."""
    image, seen = f"{room}/image", []
    with open(image, "wb") as file:
        file.write(b"\7" * MIB)
    servers = [
        lambda: nbdkit("-r", "file", image),
        lambda: qemu_nbd(image, "raw", "-r"),
        lambda: nbd_server(room, image, "readonly = true"),
        lambda: nbd_server(room, image),
    ]
    for server in servers:
        with server() as one, Service(program, f"{one.word}/disk", "--read-only") as service:
            seen.append(read_alone_by_qemu(service.url, "read -P 7 0 1M"))
            seen.append("LUN is write protected" in ran("qemu-io", "-f", "raw", "-c", "write -P 8 0 4k", service.url)[1])
            seen.append(service.lines())
    return (seen == [[True], True, []] * 4 and bytes_of(image) == b"\7" * MIB) or seen


def sockets(program, room):
    """A Unix socket of qemu-nbd and one of nbdkit, and an URL over TCP."""
    image, raw, kit = noise(f"{room}/image", MIB), f"{room}/raw", f"{room}/kit"
    servers = [
        lambda: SocketServer(raw, "qemu-nbd", "-t", "-k", raw, "-f", "raw", "-x", "disk", image),
        lambda: SocketServer(kit, "nbdkit", "-f", "--exit-with-parent", "-U", kit, "memory", "1M"),
        lambda: nbdkit("memory", "1M"),
    ]
    seen = []
    for server in servers:
        with server() as one:
            word = one.word if "://" in one.word else f"nbd://{one.word}/disk"
            with Service(program, word) as service:
                seen.append(qemu(service.url, "write -P 1 0 64k", "read -P 1 0 64k"))
                seen.append(service.lines())
    return seen == [[True, True], []] * 3 or seen


def gives_back(program, room):
    """With --thin a qcow2 image of qemu-nbd --discard=unmap gives room back where zeros are written. Without it keeps its room."""
    image, seen = f"{room}/image.qcow2", []
    for words in (("--thin",), ()):
        ran("qemu-img", "create", "-f", "qcow2", image, str(BLOCK * BLOCKS))
        with qemu_nbd(image, "qcow2", "--discard=unmap") as server, Service(program, f"{server.word}/disk", *words) as service:
            seen.append(qemu(service.url, "write -P 5 0 2M"))
            full = lasting.taken(image)
            seen.append(qemu(service.url, "write -z 0 1M", "read -P 0 0 1M", "read -P 5 1M 1M"))
            seen.append(full - lasting.taken(image) >= 1000)
            seen.append(service.lines())
    return seen == [[True], [True] * 3, True, [], [True], [True] * 3, False, []] or seen


def interrupted(program, room):
    """A send that a signal interrupts goes on."""
    want("strace")
    with nbdkit("memory", "1M") as server:
        for call, when in (("sendmsg", "1+2"), ("sendto", "3+5"), ("recvfrom", "3+5")):
            before = ("strace", "-f", "-qq", "-o", f"{room}/log", "-e", f"trace={call}", "-e", f"inject={call}:error=EINTR:when={when}")
            with Service(program, server.word, before=before) as service:
                if service.told == b"":
                    raise Skipped("strace may not trace")
                seen = qemu(service.url, "write -P 1 0 64k", "read -P 1 0 64k", "write -P 2 0 64k", "read -P 2 0 64k")
                lines = service.lines()
            with open(f"{room}/log") as file:
                count = file.read().count("(INJECTED)")
            if seen != [True] * 4 or lines != [] or count == 0:
                return call, seen, lines, count
    return True


def says_goodbye(program, room):
    """Where the service ends by itself the last request is DISC, whoever wrote."""
    seen = []
    for words in ((), ("--read-only",)):
        with Liar() as liar, Service(program, liar.word, *words, sessions=1) as service:
            seen.append(read_alone_by_qemu(service.url, "read -P 0 0 4k"))
            seen.append(service.process.wait(timeout=SECONDS))
            time.sleep(0.2)
            seen.append([kind for _, kind, _, _ in liar.asked].index(2) == len(liar.asked) - 1)
    return seen == [[True], 0, True] * 2 or seen


def trickles(program, room):
    """A server that sends a byte every two seconds is given up after 30 seconds in all."""
    with Liar() as liar, Service(program, liar.word) as service:
        seen, began = qemu(service.url, "read 0 4k"), time.monotonic()
        liar.step, liar.pause = 1, 2
        seen += qemu(service.url, "read 64k 4k")
        seen.append(25 < time.monotonic() - began < 40)
        lines = [line for line in service.lines() if line.startswith(service.word)]
    return (seen == [True, FAILED, True] and lines == [f"{service.word}: connection lost: the server does not answer"]) or (seen, lines)


def sized(minimum, maximum, *words):
    """nbdkit with an export that refuses a request of fewer or more bytes; `words` are its plugin and what that wants."""
    sizes = (f"blocksize-minimum={minimum}", f"blocksize-preferred={max(minimum, min(maximum, 4096))}", f"blocksize-maximum={maximum}")
    return nbdkit("--filter=blocksize-policy", *words, *sizes, "blocksize-error-policy=error")


def in_parts(program, room):
    """A server that refuses requests of more than 4 KiB, or of more than 64, takes a file system, and zeros by their length."""
    want("mkfs.ext4", "e2fsck")
    seen = []
    for size in (4096, 65536):
        server = sized(1, size, "file", noise(f"{room}/image", BLOCK * BLOCKS))
        seen.append(converted(program, server, f"{room}/image", room))
    with sized(1, 4096, "memory", "16M") as server, Service(program, server.word, "--thin") as service:
        seen += qemu(service.url, "write -P 3 0 8M", "write -z 512 4M", "read -P 3 0 512", "read -P 0 512 4M", f"read -P 3 {4 * MIB + 512} 3M")
        seen.append(service.lines())
    return seen == [True] * 7 + [[]] or seen


def wide_blocks(program, room):
    """An export with blocks of 4 KiB is served with --read-only, each block of 512 bytes of it, in parts too."""
    image, seen = f"{room}/image", []
    with open(image, "wb") as file:
        file.write(b"".join(bytes([k % 251]) * BLOCK for k in range(4096)))
    reads = [f"read -P {k % 251} {k * BLOCK} {BLOCK}" for k in (0, 1, 7, 8, 250, 4095)]
    for maximum in (4096, 65536, 32 * MIB):
        with sized(4096, maximum, "-r", "file", image) as server, Service(program, server.word, "--read-only") as service:
            told = ran("qemu-io", "-r", "-f", "raw", *[word for read in reads for word in ("-c", read)], service.url)[1]
            seen.append(len(re.findall(r"(?m)^read \d+/\d+ bytes", told)) == len(reads) and "failed" not in told)
            seen.append(ran("qemu-img", "compare", "-f", "raw", "-F", "raw", image, service.url)[0])
            seen.append(service.lines())
    return seen == [True, 0, []] * 3 or seen


def sizes(program, room):
    """An export of no block, of no whole blocks, of another number, or of requests too long or too short, is refused."""
    rows = [
        ((1, MIB, "0"), (), "is empty"),
        ((1, MIB, "1000"), (), "is not whole blocks"),
        ((1, MIB, "1M"), ("--blocks", "7"), "has 2048 blocks, not 7"),
        ((1, MIB, "1M"), ("--size", "2M"), "has 2048 blocks, not 4096"),
        ((4096, MIB, "1M"), (), "has blocks of more than 512 bytes, so that a write would have to read first"),
        ((8192, MIB, "1M"), ("--read-only",), "has blocks of more than 4096 bytes"),
        ((1, 2048, "1M"), (), "takes no requests of 4096 bytes"),
    ]
    seen = [is_refused(program, sized(least, most, "memory", size), due, "disk", *more) for (least, most, size), more, due in rows]
    return all(one is True for one in seen) or seen


def long_name(program, room):
    """The longest name is served, and one that is longer is no word."""
    with nbdkit("memory", "1M") as server, Service(program, f"{server.word}/{4096 * 'n'}") as service:
        seen = [qemu(service.url, "write -P 1 0 4k", "read -P 1 0 4k")]
        longer = subprocess.run([program, "serve", "--nbd", f"{server.word}/{4097 * 'n'}"], capture_output=True, timeout=SECONDS)
        seen += [longer.returncode, longer.stdout]
    return seen == [[True, True], 2, b""] or seen


def failing(room):
    """A disk in a file, whose flush fails while there is a file `broken`."""
    disk = noise(f"{room}/disk", MIB)
    return nbdkit(
        "eval",
        "get_size=echo 1M",
        f"pread=dd if={disk} skip=$4 count=$3 iflag=count_bytes,skip_bytes status=none",
        f"pwrite=dd of={disk} seek=$4 conv=notrunc oflag=seek_bytes status=none",
        "can_write=exit 0",
        "can_flush=exit 0",
        f"flush=if [ -e {room}/broken ]; then echo EIO failed >&2; exit 1; fi",
    )


def first_flush_fails(program, room):
    """A server whose first FLUSH fails is refused, with its error."""
    open(f"{room}/broken", "w").close()
    return is_refused(program, failing(room), "sync failed: error 5")


def flush_fails(program, room, *words):
    """A FLUSH that fails later ends the session and the service, and is told once."""
    with failing(room) as server, Service(program, server.word, *words) as service:
        seen = [qemu(service.url, "write -P 1 0 4k", "read -P 1 0 4k")]
        open(f"{room}/broken", "w").close()
        seen.append(ends_under(service, "write -P 2 0 4k"))
        os.unlink(f"{room}/broken")
        lines = service.lines()
    told = [line.replace(service.word, "X") for line in lines]
    ends = [line for line in told if line.endswith("sync failed")]
    is_well = seen == [[True, True], 4]
    return (is_well and told.count("X: sync failed: error 5") == 1 and len(ends) == 2 and len(told) == 3) or (seen, told)


def error_filter(program, room):
    """A server that refuses requests for a while: they fail, and then they don't; nothing is told."""
    server = nbdkit("--filter=error", "memory", "1M", "error-rate=100%", f"error-file={room}/broken")
    with server, Service(program, server.word) as service:
        seen = qemu(service.url, "write -P 1 0 4k", "read -P 1 0 4k")
        open(f"{room}/broken", "w").close()
        seen += qemu(service.url, "write -P 2 0 4k") + qemu(service.url, "read 0 4k")
        os.unlink(f"{room}/broken")
        seen += qemu(service.url, "read -P 1 64k 4k", "write -P 3 0 4k", "read -P 3 0 4k")
        lines = service.lines()
    is_well = seen[:2] == [True, True] and FAILED in seen[2:4] and seen[-2:] == [True, True] and lines == []
    return is_well or (seen, lines)


def slow(program, room):
    """A server that delays each request by 50 ms."""
    server = nbdkit("--filter=delay", "memory", "1M", "rdelay=50ms", "wdelay=50ms")
    with server, Service(program, server.word) as service:
        seen = qemu(service.url, "write -P 1 0 64k", "read -P 1 0 64k", "read -P 0 64k 64k")
        lines = service.lines()
    return (seen == [True] * 3 and lines == []) or (seen, lines)


def stopped(program, room):
    """A server that is stopped for two seconds is waited for."""
    with nbdkit("memory", "1M") as server, Service(program, server.word) as service:
        seen = qemu(service.url, "write -P 1 0 64k")
        server.process.send_signal(signal.SIGSTOP)
        threading.Timer(2, server.process.send_signal, [signal.SIGCONT]).start()
        seen += qemu(service.url, "read -P 1 0 64k", "write -P 2 0 4k", "read -P 2 0 4k")
        lines = service.lines()
    return (seen == [True] * 4 and lines == []) or (seen, lines)


def stopped_for_long(program, room):
    """A server that is stopped for longer than one waits is lost, and late answers change nothing."""
    with nbdkit("memory", "1M") as server, Service(program, server.word) as service:
        seen = qemu(service.url, "write -P 1 0 64k")
        server.process.send_signal(signal.SIGSTOP)
        seen += qemu(service.url, "read -P 1 0 64k")
        server.process.send_signal(signal.SIGCONT)
        seen += qemu(service.url, "read -P 1 0 64k")
        lines = [line for line in service.lines() if line.startswith(service.word)]
    return (seen == [True, FAILED, FAILED] and lines == [f"{service.word}: connection lost: the server does not answer"]) or (seen, lines)


def silent(program, room):
    """Who accepts and says nothing is no server."""
    with socket.create_server(("127.0.0.1", 0)) as listener:
        seen = refused(program, f"127.0.0.1:{listener.getsockname()[1]}/disk")
    return seen == (True, "connection lost: the server does not answer\n", 4) or seen


def two_services(program, room):
    """qemu-nbd serves one client and lets a second `serve` wait, which gives up; the first one is not disturbed."""
    with qemu_nbd(noise(f"{room}/image", MIB)) as server, Service(program, f"{server.word}/disk") as service:
        seen = [refused(program, f"{server.word}/disk"), qemu(service.url, "write -P 1 0 64k", "read -P 1 0 64k")]
    return seen == [(True, "connection lost: the server does not answer\n", 4), [True, True]] or seen


# ---- servers and services that are killed


class Killed:
    """What lasting's writers take for a service: the disk of one process, and another one that is killed."""

    def __init__(self, url, victim):
        self.url, self.victim, self.process = url, victim, victim.process

    def kill(self):
        self.victim.kill()


def killed_in_writes(room, rounds, began):
    """Writes an image and has something killed in the middle, again and again. `began` gives, within a context, a victim and a disk;
    behind it the image is at rest. Gives what was seen, which is nothing if all is well."""
    image, tally, kills = noise(f"{room}/image", BLOCK * BLOCKS), lasting.Tally(), 0
    before = bytes_of(image)
    while kills < rounds:
        byte, pieces = kills % 251 + 1, lasting.plan()
        if bytes([byte]) * BLOCK in before:
            byte = 252 + kills % 3
        with began(image) as victim:
            sent, answered = lasting.written_until_killed(victim, pieces, byte)
        after = bytes_of(image)
        wrong = tally.judge(before, after, pieces[:sent], answered, byte) or lasting.untouched(before, after, pieces[sent:])
        if wrong:
            return f"kill {kills + 1}: {wrong}"
        kills += len(answered) < sent
        before = after
    print(f"          {kills} kills: {tally.text()}")
    return None


def killed_server(program, room, kills):
    """qemu-nbd is killed in the middle of writes: what was answered is there, each other block is old or new, and `serve` says it."""
    want("stdbuf")
    wrongs = []

    @contextlib.contextmanager
    def began(image):
        with qemu_nbd(image) as server, Service(program, f"{server.word}/disk") as service:
            yield Killed(service.url, server)
            # it tells its end by then, and once
            status = ends_under(service, "write -P 9 0 4k")
            lines = [line.replace(service.word, "X") for line in service.lines() if line.startswith(service.word)]
            if status != 4 or len(lines) != 1 or not lines[0].startswith("X: connection lost"):
                wrongs.append((status, lines))

    wrong = killed_in_writes(room, max(1, kills // 2), began)
    return (wrong is None and wrongs == []) or (wrong, wrongs)


def killed_service(program, room, kills):
    """`serve` is killed in the middle of writes over qemu-nbd: what was answered is there, each other block is old or new."""
    want("stdbuf")

    @contextlib.contextmanager
    def began(image):
        with qemu_nbd(image) as server:
            with Service(program, f"{server.word}/disk") as service:
                yield service
            # the server has done with the old connection where it greets the next one
            with Service(program, f"{server.word}/disk", sessions=0) as service:
                service.process.wait(timeout=SECONDS)

    wrong = killed_in_writes(room, kills, began)
    return wrong is None or wrong


def killed_at_once(program, room):
    """Behind a killed server reads fail. The next write ends each session and the service, and no answer to it leaves."""
    with qemu_nbd(noise(f"{room}/image", MIB)) as server, Service(program, f"{server.word}/disk") as service:
        seen = [qemu(service.url, "write -P 1 0 4k", "read -P 1 0 4k")]
        server.kill()
        seen += [qemu(service.url, "read 64k 4k"), ends_under(service, "write -P 2 0 4k")]
        lines = [line.replace(service.word, "X") for line in service.lines()]
    lost = [line for line in lines if line.startswith("X: ")]
    is_well = seen == [[True, True], [FAILED], 4]
    return (is_well and len(lost) == 1 and lost[0].startswith("X: connection lost")) or (seen, lines)


# ---- a server that lies

GREETING = b"NBDMAGICIHAVEOPT" + struct.pack(">H", 3)
EXPORT = struct.pack(">HQH", 0, MIB, 0x0005)


def answer(kind, body=b"", option=7, magic=0x3E889045565A9, length=None):
    return struct.pack(">QIII", magic, option, kind, len(body) if length is None else length) + body


HONEST = answer(3, EXPORT) + answer(1)


def reply(cookie, error=0, magic=0x67446698):
    return struct.pack(">IIQ", magic, error, cookie)


class Liar:
    """A server in this process that keeps 1 MiB, whose greeting, answers and replies a row can change."""

    def __init__(self, greeting=GREETING, answers=HONEST, lie=None, step=None):
        self.listener = socket.create_server(("127.0.0.1", 0))
        self.word = f"127.0.0.1:{self.listener.getsockname()[1]}"
        self.greeting, self.answers, self.lie, self.step, self.pause = greeting, answers, lie, step, 0
        self.disk, self.asked = bytearray(MIB), []
        self.thread = threading.Thread(target=self.run, daemon=True)
        self.thread.start()

    def __enter__(self):
        return self

    def __exit__(self, *_):
        self.listener.close()

    def run(self):
        with contextlib.suppress(OSError):
            while True:
                peer, _ = self.listener.accept()
                with peer, contextlib.suppress(OSError):
                    peer.setsockopt(socket.IPPROTO_TCP, socket.TCP_NODELAY, 1)
                    self.serve(peer)

    def send(self, peer, data):
        for at in range(0, len(data), self.step or max(1, len(data))):
            peer.sendall(data[at : at + (self.step or len(data))])
            time.sleep(self.pause)

    def serve(self, peer):
        def read(count):
            data = b""
            while len(data) < count:
                piece = peer.recv(count - len(data))
                if not piece:
                    raise OSError("gone")
                data += piece
            return data

        self.send(peer, self.greeting)
        read(4)
        (size,) = struct.unpack(">12xI", read(16))
        read(size)
        self.send(peer, self.answers)
        while True:
            _, flags, kind, cookie, offset, size = struct.unpack(">IHHQQI", read(28))
            data = read(size) if kind == 1 else b""
            self.asked.append((flags, kind, offset, size))
            if kind == 1:
                self.disk[offset : offset + size] = data
            body = bytes(self.disk[offset : offset + size]) if kind == 0 else b""
            said = self.lie(len(self.asked), kind, cookie, body) if self.lie else reply(cookie) + body
            if said is None:
                return
            self.send(peer, said)


def lies_in_the_handshake(program, room):
    """A server that lies in a field of its greeting or of an answer is refused by name."""
    info = "protocol: information"
    rows = [
        (dict(greeting=b"HTTP/1.1 400 Bad Request\r\n\r\n"), "is no NBD server"),
        (dict(greeting=b"NBDMAGIC" + bytes.fromhex("0000420281861253") + bytes(2)), "has the oldstyle handshake"),
        (dict(greeting=b"NBDMAGICIHAVEOPT\0\2"), "has no fixed newstyle handshake"),
        (dict(greeting=b"NBDMAGICIHAVEOPS\0\1"), "has no fixed newstyle handshake"),
        (dict(answers=answer(3, EXPORT, magic=1)), "protocol: no answer to an option"),
        (dict(answers=answer(3, EXPORT, option=6)), "protocol: answer to option 6"),
        (dict(answers=answer(2)), "protocol: answer 2 to the option GO"),
        (dict(answers=answer(3, EXPORT[:-1])), f"{info} 0 of 11 bytes"),
        (dict(answers=answer(3, b"\0\3" + bytes(13))), f"{info} 3 of 15 bytes"),
        (dict(answers=answer(3, b"\0")), f"{info} without its kind"),
        (dict(answers=answer(3, b"", length=1 << 31)), "protocol: answer of 2147483648 bytes"),
        (dict(answers=answer(1)), "protocol: no size"),
        (dict(answers=answer(3, b"\0\1x") * 70), "protocol: no size"),
        (dict(answers=answer((1 << 31) + 1)), "does not know the option GO"),
        (dict(answers=answer((1 << 31) + 2, b"\x1b[31mno")), "is refused: option error 2"),
        (dict(answers=answer((1 << 31) + 5)), "wants TLS"),
        (dict(answers=answer(3, struct.pack(">HQH", 0, MIB, 4)) + answer(1)), "has no flush"),
        (dict(answers=answer(3, struct.pack(">HQH", 0, (1 << 49) + 512, 5)) + answer(1)), "is too large"),
    ]
    wrong = []
    for given, due in rows:
        with Liar(**given) as liar:
            seen = refused(program, liar.word)
        if seen != (True, due + "\n", 4):
            wrong.append((due, seen))
    return wrong == [] or wrong


def lies_in_replies(program, room):
    """A server that lies in a field of a reply is left, what it said is told once, and the command is not answered GOOD."""
    rows = [
        (lambda cookie, body: reply(cookie + 1) + body, "protocol: reply to another request"),
        (lambda cookie, body: reply(cookie - 1) + body, "protocol: reply to another request"),
        (lambda cookie, body: reply(cookie, magic=0x668E33EF) + body, "protocol: no simple reply"),
        (lambda cookie, body: reply(cookie, magic=0x98664467) + body, "protocol: no simple reply"),
        (lambda cookie, body: None, "connection lost: the server closed it"),
    ]
    wrong = []
    for lie, due in rows:
        for kind, command in ((0, "read 0 4k"), (1, "write -P 7 0 4k"), (3, "write -P 8 0 4k")):
            done = []

            def said(count, asked, cookie, body):
                # the first FLUSH is that of opening; qemu-io reads the first blocks as it opens the disk
                if asked == kind and count > 1 and armed:
                    done.append(count)
                    return lie(cookie, body)
                return reply(cookie) + body

            armed = False
            with Liar(lie=said) as liar, Service(program, liar.word) as service:
                armed = True
                if kind == 0:
                    seen = qemu(service.url, command) + qemu(service.url, "read 64k 4k")
                else:
                    seen = ends_under(service, command)
                lines = [line for line in service.lines() if line.startswith(service.word)]
            is_left = seen == 4 if kind else True not in seen
            if not is_left or not done or lines != [f"{service.word}: {due}"]:
                wrong.append((due, kind, seen, lines))
    return wrong == [] or wrong


def single_bytes(program, room):
    """A server that sends each byte by itself."""
    with Liar(step=1) as liar, Service(program, liar.word) as service:
        seen = qemu(service.url, "write -P 7 0 4k", "read -P 7 0 4k", "read -P 0 4k 4k")
        lines = service.lines()
    return (seen == [True] * 3 and lines == []) or (seen, lines)


def asks_for_blocks_alone(program, room):
    """No request has a flag, or is for no block; of two writes that come together one FLUSH serves both, or each has one."""
    with Liar() as liar, Service(program, liar.word) as service:
        seen = qemu(service.url, *[f"aio_write -P {n + 1} {4 * n}k 4k" for n in range(64)], "aio_flush", "read -P 5 16k 4k")
        lines, asked = service.lines(), list(liar.asked)
    flags = {flags for flags, _, _, _ in asked}
    writes, flushes = [sum(kind == one for _, kind, _, _ in asked) for one in (1, 3)]
    empty = [one for one in asked if one[1] != 3 and one[3] == 0]
    print(f"          {writes} writes had {flushes} syncs")
    return (all(one is True for one in seen) and lines == [] and flags == {0} and empty == [] and 1 < flushes <= writes + 1) or (seen, lines, flags, empty)


CASES = [
    file_system_over_qemu_nbd,
    file_system_over_qcow2,
    file_system_over_nbdkit,
    file_system_over_nbd_server,
    no_server,
    oldstyle,
    tls,
    other_name,
    read_only,
    without_flush,
    read_alone,
    sockets,
    gives_back,
    interrupted,
    says_goodbye,
    in_parts,
    wide_blocks,
    sizes,
    long_name,
    first_flush_fails,
    flush_fails,
    error_filter,
    slow,
    stopped,
    lies_in_the_handshake,
    lies_in_replies,
    single_bytes,
    asks_for_blocks_alone,
    killed_at_once,
    silent,
    stopped_for_long,
    trickles,
    two_services,
    killed_server,
    killed_service,
]


# ---- costs


def by_qemu_io(word, what, count):
    """Commands a second of qemu-io at an NBD server, 4 KiB each, one after another."""
    one = "read" if what == "reads" else "write -f -P 7"
    commands = [part for n in range(count) for part in ("-c", f"{one} {4 * n}k 4k")]
    began = time.monotonic()
    ran("qemu-io", "-f", "raw", *commands, f"nbd://{word}")
    with_start = time.monotonic() - began
    began = time.monotonic()
    ran("qemu-io", "-f", "raw", "-c", f"{one} 0 4k", f"nbd://{word}")
    return count / max(1e-6, with_start - (time.monotonic() - began))


# A sync that takes so much longer, in microseconds, as on a slower disk.
SLOW_SYNC = """
#define _GNU_SOURCE
#include <dlfcn.h>
#include <unistd.h>
static int slow(const char *name, int fd) {
    usleep(%d);
    return ((int (*)(int))dlsym(RTLD_NEXT, name))(fd);
}
int fsync(int fd) { return slow("fsync", fd); }
int fdatasync(int fd) { return slow("fdatasync", fd); }
"""


def slow_syncs(room, microseconds):
    """Has what is started from now on take so much longer for a sync."""
    with open(f"{room}/slow.c", "w") as it:
        it.write(SLOW_SYNC % microseconds)
    subprocess.run(["cc", "-shared", "-fPIC", "-O2", "-o", f"{room}/slow.so", f"{room}/slow.c", "-ldl"], check=True)
    os.environ["LD_PRELOAD"] = f"{room}/slow.so"


def costs(program, room, rounds, seconds, sync):
    """Commands a second over a file, over NBD servers and of tgt over the same image; medians of the rounds."""
    speed = module_of("speed")
    speed.DISK = BLOCK * BLOCKS
    client = f"{room}/speed"
    want("cc", "tgtd", "tgtadm")
    subprocess.run(["cc", "-O2", "-o", client, f"{TOP}/tools/speed/speed.c", "-liscsi"], check=True)
    if sync:
        slow_syncs(room, sync)
    image = noise(f"{room}/image", BLOCK * BLOCKS)
    memory, raw = nbdkit("memory", f"{BLOCK * BLOCKS}"), qemu_nbd(noise(f"{room}/raw", BLOCK * BLOCKS))

    class Ours(speed.Lanthovur):
        """One of our services."""

        def __init__(self, service):
            self.process, self.url, self.pid = service.process, service.url, service.process.pid

    class Theirs(speed.Tgt):
        """tgtd over the image that qemu-nbd serves, opened with O_SYNC. Both take turns."""

        def backing(self):
            self.disk = open(f"{room}/raw", "rb")
            return ["-b", self.disk.name, "--bsoflags", "sync"]

    # as in the costs of lasting
    short = ["--segment", "8192", "--data-in", "262144"]
    targets = {"`serve --file`": Ours(lasting.Service(program, image, *short)), "`serve --nbd`, nbdkit memory": Ours(Service(program, memory.word, *short)),
               "`serve --nbd`, qemu-nbd raw": Ours(Service(program, f"{raw.word}/disk", *short)), "tgt, the same image": Theirs(room, 1000)}
    kinds, medians, lines = ("reads", "writes"), {}, []
    try:
        for size in (4096, 65536):
            for depth in (1, 8):
                rows = {name: [speed.Row(what) for what in kinds] for name in targets}
                for _ in range(rounds):
                    for name, target in targets.items():
                        for cell, value in zip(rows[name], speed.serve_once(client, target, size, depth, seconds)):
                            cell.values.append(value)
                for at, what in enumerate(kinds):
                    lines.append([f"{what} of {size // 1024} KiB, {depth} outstanding", *(rows[name][at].text() for name in targets)])
                    medians[what, size, depth] = {name: rows[name][at].median for name in targets}
    finally:
        for target in targets.values():
            target.end()
    speed.table("Commands a second over NBD servers", ["", *targets], lines)
    print()
    for name, server in (("nbdkit memory", memory.word), ("qemu-nbd raw", f"{raw.word}/disk")):
        values = {what: statistics.median(by_qemu_io(server, what, 1000) for _ in range(rounds)) for what in kinds}
        print(f"qemu-io at {name}: {values['reads']:.0f} reads and {values['writes']:.0f} synced writes of 4 KiB a second")
    memory.end(signal.SIGTERM)
    raw.end(signal.SIGTERM)
    file, far, near, _ = targets
    more = 1e6 / medians["reads", 4096, 1][far] - 1e6 / medians["reads", 4096, 1][file]
    ratios = {(size, depth): cell[near] / cell[file] for (what, size, depth), cell in medians.items() if what == "writes"}
    print(f"a read of 4 KiB over nbdkit's memory takes {more:.0f} us more than with --file (60 wanted)")
    print("writes over qemu-nbd, of the rate of --file (0.70 wanted): " + ", ".join(f"{ratio:.2f} ({size // 1024} KiB, {depth})" for (size, depth), ratio in ratios.items()))
    print(f"a sync takes {sync} us more than this disk's; load {os.getloadavg()[0]:.1f}")
    return 0 if more <= 60 and min(ratios.values()) >= 0.7 else 1


def main():
    parser = argparse.ArgumentParser()
    parser.add_argument("--kills", type=int, default=100)
    parser.add_argument("--only", default="")
    parser.add_argument("--costs", action="store_true")
    parser.add_argument("--slow-sync", type=int, default=0)
    parser.add_argument("--rounds", type=int, default=5)
    parser.add_argument("--seconds", type=float, default=1)
    parser.add_argument("program", nargs="?", default=f"{TOP}/crates/lanthovur/out/lanthovur")
    asked = parser.parse_args()
    program = os.path.abspath(asked.program)
    if not os.path.isfile(program):
        sys.exit(f"there is no program {program}: `./lanthovur </dev/null` builds it")
    if not (shutil.which("qemu-img") and shutil.which("qemu-io")):
        sys.exit("qemu-img and qemu-io are not installed")
    if asked.costs:
        with tempfile.TemporaryDirectory() as room:
            return costs(program, room, asked.rounds, asked.seconds, asked.slow_sync)
    counts = {"passed": 0, "failed": 0, "skipped": 0}
    for case in [case for case in CASES if asked.only in case.__name__]:
        began = time.monotonic()
        outcome, what = outcome_of(case, program, *([asked.kills] if case in (killed_server, killed_service) else []))
        counts[outcome] += 1
        print(f"{outcome:8} {time.monotonic() - began:5.1f} s  {case.__doc__.strip()} {what}", flush=True)
    print(", ".join(f"{count} {outcome}" for outcome, count in counts.items()))
    return 1 if counts["failed"] else 0


if __name__ == "__main__":
    sys.exit(main())
