#!/usr/bin/env python3
"""Records live sessions, makes their jobs, and does them again at other targets.

    tools/replay/run.py [--only WORD] [--keep FOLDER] [PROGRAM]

Programs of libiscsi and QEMU talk to tgt and to this program's `serve`, while tcpdump records. Of each session:

- `job --capture` has a line for each request, and an outcome under each;
- the job is done again at a fresh target of the same kind: no outcome differs;
- it is done again at the other targets (tgt, istgt, `serve`): what differs is listed, and is of the commands that it may be of.

Then the job of a session with writes and reads is done again at targets with a bug put in by a proxy: a byte of the sense is
changed, a write is lost, data are cut short, the connection is closed. Each is found at its request. Last come refusals: a job
that writes without `--writes`, an address where nobody listens, a login to a name that the target does not have.

It wants root for tcpdump. What is not installed is skipped, with a word. PROGRAM is crates/lanthovur/out/lanthovur if none is
named. The last line is 'N passed, M failed, K skipped'. With --keep captures and jobs stay in FOLDER.
"""
import argparse
import re
import socket
import subprocess
import sys
import tempfile
import threading
import time
from pathlib import Path

sys.dont_write_bytecode = True
TOP = Path(__file__).resolve().parents[2]
sys.path.insert(0, str(TOP / "tools/captures"))
from istgt import Istgt
from taps import Serve, Tgt, free_port, missing, recorded

sys.path.pop(0)
PROGRAM = TOP / "crates/lanthovur/out/lanthovur"
SIZE = 8 << 20
SECONDS = 300
NAME = "iqn.2026-01.example:disk"
# The line of a request in a job, whose first line names the form.
REQUEST = r"^(?!job 2$)[a-z]"

# ---- targets


TARGETS = {"tgt": Tgt, "istgt": Istgt, "serve": Serve}


class Proxy:
    """Passes PDUs on between an initiator and a target, and has `bug` change those of the target."""

    def __init__(self, target, bug):
        self.target, self.bug = target, bug
        self.listener = socket.create_server(("127.0.0.1", 0))
        self.port = self.listener.getsockname()[1]
        threading.Thread(target=self.serve, daemon=True).start()

    def serve(self):
        near, _ = self.listener.accept()
        far = socket.create_connection(("127.0.0.1", self.target))
        threading.Thread(target=self.pass_on, args=(near, far, self.bug.asked), daemon=True).start()
        self.pass_on(far, near, self.bug.answered)

    def pass_on(self, source, sink, change):
        try:
            while pdu := pdu_of(source):
                for changed in change(bytearray(pdu)):
                    sink.sendall(changed)
        except OSError:
            pass
        for end in (source, sink):
            try:
                end.shutdown(socket.SHUT_RDWR)
            except OSError:
                pass

    def close(self):
        self.listener.close()


def pdu_of(source):
    """The next PDU of a socket; none at its end."""
    head = exactly(source, 48)
    length = int.from_bytes(head[5:8], "big") if head else 0
    return head + exactly(source, (length + 3) // 4 * 4) if head else b""


def exactly(source, count):
    got = b""
    while len(got) < count:
        piece = source.recv(count - len(got))
        if not piece:
            return b""
        got += piece
    return got


# ---- bugs


class Bug:
    """Changes nothing. `at` is the number of the SCSI command that is at fault, from 1."""

    def __init__(self, at):
        self.at, self.commands, self.tag = at, 0, None

    def asked(self, pdu):
        if pdu[0] & 0x3F == 1:
            self.commands += 1
            if self.commands == self.at:
                self.tag = bytes(pdu[16:20])
        return [pdu]

    def is_of(self, pdu):
        return self.tag is not None and bytes(pdu[16:20]) == self.tag and pdu[0] & 0x3F in (0x21, 0x25)

    def answered(self, pdu):
        return self.changed(pdu) if self.is_of(pdu) else [pdu]

    def changed(self, pdu):
        return [pdu]


class WrongSense(Bug):
    """Changes the additional sense code."""

    def changed(self, pdu):
        if pdu[0] & 0x3F == 0x21 and len(pdu) > 48 + 2 + 12:
            pdu[48 + 2 + 12] ^= 1
        return [pdu]


class LostWrite(Bug):
    """Has the target read in place of the write that is asked, and says that all went well."""

    def asked(self, pdu):
        super().asked(pdu)
        if self.tag == bytes(pdu[16:20]) and pdu[0] & 0x3F == 1:
            # TEST UNIT READY, without data.
            pdu[1] &= ~0x20 & 0xFF
            pdu[5:8], pdu[20:24], pdu[32:48] = bytes(3), bytes(4), bytes(16)
            return [pdu[:48]]
        return [pdu]


class ShortData(Bug):
    """Gives four bytes less, and counts them as residual."""

    def changed(self, pdu):
        kind, length = pdu[0] & 0x3F, int.from_bytes(pdu[5:8], "big")
        if kind == 0x25 and length >= 4:
            pdu[5:8] = (length - 4).to_bytes(3, "big")
            pdu = pdu[:48 + length - 4]
        if kind == 0x21 or pdu[1] & 1:
            pdu[1] |= 2
            pdu[44:48] = (4).to_bytes(4, "big")
        return [pdu]


class WrongData(Bug):
    """Changes the last byte of data."""

    def changed(self, pdu):
        length = int.from_bytes(pdu[5:8], "big")
        if pdu[0] & 0x3F == 0x25 and length:
            pdu[48 + length - 1] ^= 0xFF
        return [pdu]


class Closes(Bug):
    """Closes the connection in place of an answer."""

    def changed(self, pdu):
        raise OSError


class Pings(Bug):
    """Pings in place of an answer, three times a second, for half a minute."""

    def changed(self, pdu):
        for _ in range(90):
            # No answer is asked for, and StatSN is the next one.
            yield bytes([0x20, 0x80]) + bytes(14) + b"\xff" * 8 + pdu[24:36] + bytes(12)
            time.sleep(1 / 3)


class Drips(Bug):
    """Gives an answer byte by byte, two a second."""

    def changed(self, pdu):
        for byte in pdu:
            yield bytes([byte])
            time.sleep(0.5)


# ---- cases


class Cases:
    def __init__(self, program, room, only):
        self.program, self.room, self.only = program, Path(room), only
        self.passed = self.failed = self.skipped = 0

    def say(self, title, problems):
        self.failed += bool(problems)
        self.passed += not problems
        print(f"{'FAIL' if problems else 'ok  '} {title}" + "".join(f"\n     {line}" for line in problems), flush=True)

    def skip(self, title, why):
        self.skipped += 1
        print(f"skip {title}: {why}", flush=True)

    def run(self, *words):
        return subprocess.run([str(self.program), *map(str, words)], capture_output=True, text=True, timeout=SECONDS, stdin=subprocess.DEVNULL)

    def replay(self, port, job, *words):
        return self.run("replay", "--to", f"127.0.0.1:{port}", *words, job)


def sessions(room):
    source = Path(room) / "source.img"
    source.write_bytes(bytes(i * 7 % 251 for i in range(1 << 16)) * 2)
    errors = ["-c", "write -P 0x5a 0 300k", "-c", "read -P 0x5a 0 300k", "-c", "write -z 1M 64k", "-c", "flush"]
    return {
        "iscsi-inq": ("iscsi-inq", ["iscsi-inq", "URL"]),
        "iscsi-readcapacity16": ("iscsi-readcapacity16", ["iscsi-readcapacity16", "URL"]),
        "qemu-img convert": ("qemu-img", ["qemu-img", "convert", "-n", "-f", "raw", "-O", "raw", str(source), "URL"]),
        "qemu-io": ("qemu-io", ["qemu-io", "-f", "raw", *errors, "URL"]),
        "iscsi-test-cu": ("iscsi-test-cu", ["iscsi-test-cu", "--dataloss", "-t", "ALL.Read10.BeyondEol", "URL"]),
    }


def jobs_of(cases, kind, title, command):
    """The jobs of the connections of a session of a client with a target."""
    room = cases.room / f"{kind.title}-{title.replace(' ', '-')}"
    room.mkdir()
    target = kind(cases.program, room, SIZE)
    try:
        url = f"iscsi://127.0.0.1:{target.port}/{NAME}/{target.unit}"
        words = [word.replace("URL", url) for word in command]
        ran, (capture,), lost = recorded(room, ["tcpdump"], lambda: subprocess.run(words, capture_output=True, text=True, timeout=SECONDS))
    finally:
        target.close()
    problems, jobs = [f"{lost} packets were lost"] if lost else [], []
    for line in cases.run("connections", capture).stdout.splitlines():
        if f":{target.port} " not in line or not line.endswith("login"):
            continue
        ran = cases.run("job", "--capture", capture, "--connection", line.split()[0])
        path = room / f"job{len(jobs)}"
        path.write_text(ran.stdout)
        if ran.returncode or not ran.stdout:
            problems.append(f"job: status {ran.returncode}: {ran.stderr.strip()}")
        if len(re.findall(r"^  was ", ran.stdout, re.M)) != len(re.findall(REQUEST, ran.stdout, re.M)):
            problems.append("a request has no outcome")
        jobs.append(path)
    return jobs, problems or ([] if jobs else ["no session was recorded"])


def again(cases, kind, jobs, words):
    """What comes of jobs that are done again, in turn, at one fresh target."""
    with tempfile.TemporaryDirectory(dir=cases.room) as room:
        target = kind(cases.program, room, SIZE)
        try:
            return [cases.replay(target.port, job, "--writes", "--all", *words, "--lun", target.unit) for job in jobs]
        finally:
            target.close()


def live(cases):
    for title, (wanted, command) in sessions(cases.room).items():
        for kind in (Tgt, Serve):
            name = f"{title} with {kind.title}"
            if cases.only and cases.only not in name:
                continue
            if lacking := missing(wanted, "tcpdump", *kind.wants):
                cases.skip(name, f"no {lacking[0]}")
                continue
            jobs, problems = jobs_of(cases, kind, title, command)
            cases.say(f"job: {name}, {sum(len(re.findall(REQUEST, job.read_text(), re.M)) for job in jobs)} requests", problems)
            for other in TARGETS.values():
                if lacking := missing(*other.wants):
                    cases.skip(f"replay of {name} to {other.title}", f"no {lacking[0]}")
                    continue
                rans = again(cases, other, jobs, ["--ignore", "inquiry", "--ignore", "mode-sense", "--ignore", "report-luns"])
                differ = [line for ran in rans for line in ran.stdout.splitlines()]
                failed = [ran.stderr.strip() for ran in rans if ran.returncode not in (0, 1) or "login" in ran.stderr]
                if other is kind:
                    failed += [line for line in differ if not re.fullmatch(r"0 of \d+ differ, \d+ passed over|(recorded|now): median .*", line)]
                cases.say(f"replay of {name} to {other.title}: {'; '.join(line for line in differ if ' of ' in line and 'differ' in line)}", failed)
                if other is not kind:
                    for line in differ:
                        if line.startswith("request"):
                            print(f"       {line[:110]}")


JOB = """tur 0
  was good
write 0 1 5a
  was good
read 0 1
  was good data {data}
read 16384 1
  was status 02 sense {sense}{under}
logout
  was closed
"""


def bugs(cases):
    """Each bug is found at its request."""
    room = cases.room / "bugs"
    room.mkdir()
    target = Serve(cases.program, room, SIZE)
    try:
        draft = room / "draft"
        draft.write_text("tur 0\nwrite 0 1 5a\nread 0 1\nread 16384 1\nlogout\n")
        # What the target says without a bug: the proxy's initiator is recorded here as text.
        told = cases.replay(target.port, draft, "--writes")
        cases.say("a job without outcomes is done, and nothing differs", [told.stderr] if told.returncode or told.stdout else [])
        sense = "70000500000000" + "0a00000000" + "2100" + "00000000"
        job = room / "job"
        job.write_text(JOB.format(data="5a" * 512, sense=sense, under=" under 512"))
        same = cases.replay(target.port, job, "--writes")
        cases.say("the job without a bug", [same.stdout + same.stderr] if same.returncode else [])
        for title, bug, request in (("wrong sense", WrongSense(4), 4), ("a lost write", LostWrite(2), 3), ("short data", ShortData(3), 3),
                                    ("a changed byte", WrongData(3), 3)):
            # The block is another one before, so that a lost write shows.
            other = room / "other"
            other.write_text("write 0 1 00\nlogout\n")
            cases.replay(target.port, other, "--writes")
            proxy = Proxy(target.port, bug)
            ran = cases.replay(proxy.port, job, "--writes")
            proxy.close()
            first = ran.stdout.splitlines()[0] if ran.stdout else ""
            fine = ran.returncode == 1 and first.startswith(f"request {request}: ")
            cases.say(f"{title}: {first}", [] if fine else [f"status {ran.returncode}", ran.stdout[:300], ran.stderr[:300]])
        proxy = Proxy(target.port, Closes(3))
        ran = cases.replay(proxy.port, job, "--writes")
        proxy.close()
        fine = ran.returncode == 4 and "request 3: the target closed the connection" in ran.stderr
        cases.say(f"a closed connection: {ran.stderr.strip()}", [] if fine else [f"status {ran.returncode}", ran.stdout[:300]])
        for title, bug in (("pings in place of an answer", Pings(3)), ("an answer byte by byte", Drips(3))):
            proxy, began = Proxy(target.port, bug), time.monotonic()
            ran = cases.replay(proxy.port, job, "--writes", "--wait", "2")
            took = time.monotonic() - began
            proxy.close()
            fine = ran.returncode == 4 and "request 3: the target does not answer" in ran.stderr and 2 <= took < 5
            cases.say(f"{title}, at most two seconds: {ran.stderr.strip()}", [] if fine else [f"status {ran.returncode}, {took:.1f} s", ran.stdout[:300]])
        refusals(cases, room, target, job)
        together(cases, room, target)
    finally:
        target.close()


def refusals(cases, room, target, job):
    rows = (("a job that writes", ["--to", f"127.0.0.1:{target.port}", job], 1, "request 2: write 0 1 5a: may write"),
            ("nobody listens", ["--to", f"127.0.0.1:{free_port()}", "--writes", job], 4, "not reached"),
            ("another name", ["--to", f"127.0.0.1:{target.port}", "--name", "iqn.2026-01.example:other", "--writes", job], 1, "login refused: 0203"),
            ("no such file", ["--to", f"127.0.0.1:{target.port}", room / "none"], 4, "read failed"))
    for title, words, status, text in rows:
        ran = cases.run("replay", *words)
        fine = ran.returncode == status and text in ran.stderr and not ran.stdout
        cases.say(f"{title}: {ran.stderr.strip()}", [] if fine else [f"status {ran.returncode}, not {status}", ran.stdout[:300]])


def together(cases, room, target):
    """Two at once have two sessions; with one ISID the second one ends the first."""
    job = room / "long"
    job.write_text("tur 0\n  was good\n" * 20000 + "logout\n  was closed\n")
    for title, words, due in (("random ISIDs", [], [0, 0]), ("one ISID", ["--isid", "800000000001"], [0, 4])):
        command = [cases.program, "replay", "--to", f"127.0.0.1:{target.port}", *words, job]
        both = [subprocess.Popen(list(map(str, command)), stdout=subprocess.PIPE, stderr=subprocess.PIPE, text=True) for _ in range(2)]
        told = [one.communicate(timeout=SECONDS) for one in both]
        ended = sorted(one.returncode for one in both)
        cases.say(f"two at once with {title}: {ended}", [] if ended == due else [str(told)[:300]])


def rate(cases, count=2000):
    """How many requests a second are done again."""
    room = cases.room / "rate"
    room.mkdir()
    target = Serve(cases.program, room, SIZE)
    try:
        job = room / "job"
        job.write_text("read 0 8\n  was good data " + "00" * 4096 + "\n" + ("read 8 8\n  was good data " + "00" * 4096 + "\n") * (count - 1))
        began = time.monotonic()
        ran = cases.replay(target.port, job)
        took = time.monotonic() - began
        cases.say(f"{count} reads of 4 KiB in {took:.1f} s", [ran.stderr] if ran.returncode else [])
    finally:
        target.close()


def main():
    parser = argparse.ArgumentParser(description=__doc__, formatter_class=argparse.RawDescriptionHelpFormatter)
    parser.add_argument("--only")
    parser.add_argument("--keep")
    parser.add_argument("program", nargs="?", default=PROGRAM)
    asked = parser.parse_args()
    with tempfile.TemporaryDirectory(prefix="replay-") as room:
        if asked.keep:
            room = asked.keep
            Path(room).mkdir(parents=True, exist_ok=True)
        cases = Cases(asked.program, room, asked.only)
        if not asked.only or asked.only == "bugs":
            bugs(cases)
            rate(cases)
        live(cases)
    print(f"{cases.passed} passed, {cases.failed} failed, {cases.skipped} skipped")
    sys.exit(bool(cases.failed))


main()
