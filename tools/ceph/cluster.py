#!/usr/bin/env python3
"""A Ceph cluster on this machine alone, for trials: a monitor and three OSDs on files, each block in three copies.

    tools/ceph/cluster.py start FOLDER   makes the folder and the cluster in it, with a pool `rbd`
    tools/ceph/cluster.py stop FOLDER    ends what runs there, and removes the folder

FOLDER/ceph.conf is what clients read: `export CEPH_CONF=FOLDER/ceph.conf`. It wants the Debian packages ceph-mon, ceph-osd and
ceph-common. All listen on 127.0.0.1, and nobody has to show a secret. A start takes half a minute, 3 GiB of address space of
sparse files, and 1 GB of memory. tools/ceph/run.py uses it.
"""
import contextlib
import json
import os
import shutil
import signal
import socket
import struct
import subprocess
import sys
import time
import uuid

# What a cluster is made of.
PROGRAMS = ("ceph", "ceph-mon", "ceph-osd", "monmaptool", "rbd")
OSDS = range(3)
# The parts of the pool, each on all OSDs. Pool 1 is the first one of a cluster.
PARTS = [f"1.{number}" for number in range(8)]
# A command, or a state of the cluster, that takes longer does not come.
SECONDS = 120

CONFIGURATION = """\
[global]
fsid = {identity}
mon host = v2:127.0.0.1:{port}/0
public addr = 127.0.0.1
ms bind ipv6 = false
auth cluster required = none
auth service required = none
auth client required = none
run dir = {folder}
log file = {folder}/$name.log
crash dir = {folder}
mon data = {folder}/mon
osd data = {folder}/osd$id
osd pool default size = 3
osd pool default min size = 2
osd pool default pg num = 8
osd pool default pg autoscale mode = off
# Three OSDs on one machine are three places, and each may say that another one is down.
osd crush chooseleaf type = 0
mon osd reporter subtree level = osd
# `serve` gives a server up that does not answer for 30 seconds. An OSD that says nothing is counted out before that, and so is a
# client that ended with the lock of an image.
osd heartbeat grace = 10
osd client watch timeout = 15
# Room for trials.
bluestore block size = 1073741824
# Little memory for each OSD.
osd memory target = 939524096
bluestore cache autotune = false
bluestore cache size = 33554432
[osd]
admin socket = {folder}/$name.asok
"""


class Cluster:
    """A cluster in a folder. As a context it is started and, in the end, stopped."""

    def __init__(self, folder):
        self.folder = os.path.abspath(folder)
        self.configuration = f"{self.folder}/ceph.conf"
        self.environment = {**os.environ, "CEPH_CONF": self.configuration}
        self.children = {}

    def __enter__(self):
        self.start()
        return self

    def __exit__(self, *_):
        self.stop()

    def ran(self, *words, well=True):
        """What a command of the cluster says. It has to end well, unless that is said not to matter."""
        done = subprocess.run(words, env=self.environment, stdin=subprocess.DEVNULL, capture_output=True, timeout=SECONDS)
        if well and done.returncode:
            raise OSError(f"{' '.join(words)}: {done.stderr.decode(errors='replace').strip()[-300:]}")
        return done.stdout

    def asked(self, number, **command):
        """What an OSD says to a command, at its own socket, or None. A monitor knows no states of parts without a manager."""
        with contextlib.suppress(OSError, ValueError, struct.error), socket.socket(socket.AF_UNIX) as line:
            line.settimeout(5)
            line.connect(f"{self.folder}/osd.{number}.asok")
            line.sendall(json.dumps(command).encode() + b"\0")
            with line.makefile("rb") as said:
                (size,) = struct.unpack(">I", said.read(4))
                return json.loads(said.read(size))
        return None

    # ---- daemons

    def begin(self, name, *words):
        """Starts a daemon, and notes its process id, for a stop by another process."""
        quiet = {"stdin": subprocess.DEVNULL, "stdout": subprocess.DEVNULL, "stderr": subprocess.DEVNULL}
        child = subprocess.Popen([*words, "-f"], env=self.environment, start_new_session=True, **quiet)
        self.children[name] = child
        with open(f"{self.folder}/{name}.started", "w") as file:
            file.write(str(child.pid))

    def begin_osd(self, number):
        self.begin(f"osd{number}", "ceph-osd", "-i", str(number))

    def signal_osd(self, number, what):
        self.children[f"osd{number}"].send_signal(what)

    def kill_osd(self, number):
        """Ends an OSD by signal 9, in the middle of whatever it does."""
        self.signal_osd(number, signal.SIGKILL)
        self.children[f"osd{number}"].wait()

    def start(self):
        """Makes the folder, which must not be there yet, and starts a cluster in it. If that fails nothing is left."""
        os.mkdir(self.folder)
        try:
            self.start_daemons()
        except BaseException:
            self.stop()
            raise

    def start_daemons(self):
        with socket.create_server(("127.0.0.1", 0)) as other:
            port = other.getsockname()[1]
        identity = str(uuid.uuid4())
        with open(self.configuration, "w") as file:
            file.write(CONFIGURATION.format(identity=identity, port=port, folder=self.folder))
        members = f"{self.folder}/members"
        os.mkdir(f"{self.folder}/mon")
        self.ran("monmaptool", "--create", "--fsid", identity, "--addv", "a", f"[v2:127.0.0.1:{port}]", members)
        self.ran("ceph-mon", "--mkfs", "-i", "a", "--monmap", members)
        self.begin("mon", "ceph-mon", "-i", "a")
        for number in OSDS:
            os.mkdir(f"{self.folder}/osd{number}")
            osd = str(uuid.uuid4())
            self.ran("ceph", "osd", "new", osd)
            self.ran("ceph-osd", "-i", str(number), "--mkfs", "--osd-uuid", osd)
            self.begin_osd(number)
        self.ran("ceph", "osd", "pool", "create", "rbd", "8")
        self.ran("ceph", "osd", "pool", "application", "enable", "rbd", "rbd")
        self.wait_until_whole()

    def is_whole(self):
        """Whether all OSDs are there, and each block has three copies."""
        said = [self.asked(number, prefix="status") for number in OSDS]
        if not all(each and each["state"] == "active" for each in said):
            return False
        newest = max(each["newest_map"] for each in said)
        # the first OSD of a part knows its state, and the others refuse to say one
        parts = [[self.asked(number, prefix="query", pgid=part) for number in OSDS] for part in PARTS]
        known = [next((each for each in part if each), None) for part in parts]
        return all(each and each["state"] == "active+clean" and each["epoch"] >= newest for each in known)

    def wait_until_whole(self):
        until = time.monotonic() + SECONDS
        while not self.is_whole():
            if time.monotonic() > until:
                raise OSError(f"the cluster is not whole after {SECONDS} seconds")
            time.sleep(0.5)

    def mend(self):
        """Starts each OSD that has ended, lets each go on that was stopped, and waits until all blocks have three copies."""
        for number in OSDS:
            if self.children[f"osd{number}"].poll() is None:
                self.signal_osd(number, signal.SIGCONT)
            else:
                self.begin_osd(number)
        self.wait_until_whole()

    def memory(self):
        """The bytes that its processes have in memory."""
        pages = 0
        for child in self.children.values():
            with contextlib.suppress(OSError), open(f"/proc/{child.pid}/statm") as file:
                pages += int(file.read().split()[1])
        return pages * os.sysconf("SC_PAGE_SIZE")

    def stop(self):
        """Ends each daemon that was started in the folder, and removes the folder."""
        ends = {child.pid for child in self.children.values() if child.poll() is None} if self.children else started_in(self.folder)
        for pid in ends:
            with contextlib.suppress(ProcessLookupError):
                os.kill(pid, signal.SIGKILL)
        for child in self.children.values():
            child.wait()
        self.children = {}
        shutil.rmtree(self.folder, ignore_errors=True)


def started_in(folder):
    """The process ids that are noted in a folder, of those which still are daemons of Ceph."""
    found = set()
    for name in os.listdir(folder) if os.path.isdir(folder) else []:
        if name.endswith(".started"):
            with open(f"{folder}/{name}") as file:
                pid = int(file.read())
            with contextlib.suppress(OSError), open(f"/proc/{pid}/comm") as file:
                if file.read().startswith("ceph-"):
                    found.add(pid)
    return found


def main():
    if len(sys.argv) != 3 or sys.argv[1] not in ("start", "stop"):
        sys.exit(__doc__)
    cluster = Cluster(sys.argv[2])
    if sys.argv[1] == "stop":
        if not os.path.isfile(f"{cluster.folder}/mon.started"):
            sys.exit(f"{sys.argv[2]} has no cluster of this script")
        cluster.stop()
        return
    if lacking := [name for name in PROGRAMS if not shutil.which(name)]:
        sys.exit(f"not installed: {', '.join(lacking)}")
    cluster.start()


if __name__ == "__main__":
    main()
