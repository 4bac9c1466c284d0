#!/usr/bin/env python3
"""Refuses each allocation of the built program in turn, and looks at what it answers and has written then.

    tools/refused_memory/sweep.py [--unproved] [PROGRAM]

PROGRAM is crates/lanthovur/out/lanthovur if none is named; `./lanthovur </dev/null` builds it. With --unproved it is
crates/lanthovur/out/unproved/lanthovur, which `./lanthovur --unproved </dev/null` builds.

Each run ends as with ample memory, or with status 3, the line `memory`, and less than the output that is due: whole
PDUs or lines, of `answer` all answers to some first PDUs and to some first tasks of the next one, with `--hex` their
digits without a line end, and nothing of a line of hex else or a text. The whole output is there with that line only
where nothing is due to the last PDUs, or where none is due at all. A run that met no refusal ends as with ample memory,
and that not for want of it. The scripts of `loop` are those of iscsi_loop_tests, one of each command, one that writes
in two extents of the sparse store, and one that is refused. The segment buffer is kept from PDU to PDU: a run over 1,000
PDUs of 4,096 bytes ends well where each allocation is refused that a run over one does not ask for.

The sessions of `answer` are the dialogues of iscsi_target_tests, those in which requests wait among them, with the
answers that stand there, and one that reads back the eight blocks of its write. Two of them also go over a socket to
`serve`, whose service ends where memory is refused, after the answers that were due. A session ends where memory is
refused, and its disk with the program. So from outside one sees that the answers stop before those of the task that
memory was refused for: no R2T and no response comes for it or after it, and no read shows a part of a write. That the
eight blocks are then all old or all new is a clause: `fed` of `Target::feed`, by which such a task leaves the blocks as
they were.
"""
import atexit
import os
import re
import shutil
import socket
import subprocess
import sys
import tempfile

TOP = os.path.dirname(os.path.dirname(os.path.dirname(os.path.abspath(__file__))))
PROGRAM = f"{TOP}/crates/lanthovur/out/lanthovur"
ROOM = tempfile.mkdtemp()
atexit.register(shutil.rmtree, ROOM, ignore_errors=True)
# A process that takes longer hangs.
SECONDS = 60
# No run asks for memory so often.
MOST = 10000

# A read of the eight blocks that the session "writes" has written, in sequences of MaxBurstLength bytes.
READ_BACK = """\
I> 01c10000 00000000 00000000 00000000 00000003 00001000 00000003 00000005 28000000 00000000 08000000 00000000
T> 25800000 00000400 00000000 00000000 00000003 ffffffff 00000000 00000004 0000000b 00000000 00000000 00000000 5a*1024
T> 25800000 00000400 00000000 00000000 00000003 ffffffff 00000000 00000004 0000000b 00000001 00000400 00000000 5a*1024
T> 25800000 00000400 00000000 00000000 00000003 ffffffff 00000000 00000004 0000000b 00000002 00000800 00000000 5a*1024
T> 25800000 00000400 00000000 00000000 00000003 ffffffff 00000000 00000004 0000000b 00000003 00000c00 00000000 5a*1024
T> 21800000 00000000 00000000 00000000 00000003 00000000 00000005 00000004 0000000b 00000004 00000000 00000000
= full"""


# Sessions that must be among the dialogues: behind a write three tasks wait, eight do, and requests of each kind.
WAITING = {
    "4 in the queue",
    "9 in the queue, the first immediate",
    "a ping, a text and a logout that wait, and a command behind the logout",
    "a read behind a write",
    "eight commands, and one past the window",
}

# A script of each command, with a write that goes out in several PDUs.
SCRIPT = b"""\
tur 0
inquiry 0 36
capacity
capacity16
luns
write 0 200 5a
sync 0 0
read 0 200
read 2048 1
ping 6162
logout
"""

# A SCSI Data-In with status, whose residual count and counters stand where the table has reserved bytes.
DATA_IN = bytes.fromhex(
    "25860002 00000000 00000000 00000000 00000003 ffffffff 00000009 00000006 00000006 00000000 00000000 00000007"
)

# Two blocks in two extents of the sparse store, which are read back, and two past the end of its 130.
EXTENTS = b"write 63 2 5a\nread 62 4\nread 129 2\nlogout\n"


def refusing(fail_at, fail_from=0):
    log = {"LD_PRELOAD": f"{ROOM}/refuse.so", "FAIL_LOG": f"{ROOM}/log"}
    return {**os.environ, **log, "FAIL_AT": str(fail_at), "FAIL_FROM": str(fail_from)}


def told():
    count, refused = open(f"{ROOM}/log").read().split()
    return int(count), refused == "1"


def run(words, data, fail_at=0, fail_from=0):
    """From a file, so that reads are cut in the same way each time."""
    env = refusing(fail_at, fail_from)
    with open(f"{ROOM}/input", "wb") as file:
        file.write(data)
    with open(f"{ROOM}/input", "rb") as file:
        ran = subprocess.run([PROGRAM, *words], stdin=file, env=env, capture_output=True, timeout=SECONDS)
    return (ran.returncode, ran.stdout, ran.stderr), *told()


def run_service(words, data, fail_at=0):
    """Over a connection, if it comes to one; the output is what came back over it."""
    with socket.create_server(("127.0.0.1", 0)) as free:
        port = free.getsockname()[1]
    words = [*words, "--port", str(port)]
    came = b""
    pipes = {"stdout": subprocess.PIPE, "stderr": subprocess.PIPE}
    with subprocess.Popen([PROGRAM, *words], env=refusing(fail_at), **pipes) as service:
        if service.stdout.readline() == b"listening\n":
            try:
                with socket.create_connection(("127.0.0.1", port), timeout=SECONDS) as peer:
                    peer.sendall(data)
                    peer.shutdown(socket.SHUT_WR)
                    while part := peer.recv(4096):
                        came += part
            except TimeoutError:
                raise
            except OSError:
                # a service that ran out of memory is gone before the connection comes, or in the midst of it
                pass
        err = service.stderr.read()
    return (service.returncode, came, err), *told()


def ends(stream):
    """The places at which a PDU ends."""
    at, found = 0, {0}
    while at + 48 <= len(stream):
        length = int.from_bytes(stream[at + 5 : at + 8], "big")
        at += 48 + length + -length % 4
        found.add(at)
    return found


def places(words, whole):
    """The lengths at which this output may stop where memory runs out: before its last PDU or line."""
    if {"show", "loop", "connections"} & set(words):
        found = {0} | {at + 1 for at, byte in enumerate(whole) if byte == 10}
    else:
        found = ends(whole) if "normalise" in words and not {"--hex", "--text"} & set(words) else {0}
    return found - {len(whole)} | {0}


def of_hex(path):
    return bytes.fromhex("".join(open(f"{TOP}/{path}").read().split()))


def unquoted(literal):
    return re.sub(r"\\\n\s*", "", literal).replace("\\n", "\n")


STRING = r'"((?:[^"\\]|\\.)*)"'


def rows_of(path, name, row):
    """What a row's pattern finds in each row of a constant table of a test; none may be left out."""
    text = open(f"{TOP}/crates/{path}").read()
    table = re.search(rf"^const {name}: .*?= &?\[\n(.*?)^\];", text, re.M | re.S)[1]
    found = re.findall(rf"^    \(\s*{row},", table, re.M | re.S)
    if len(found) != len(re.findall(r"^    \(", table, re.M)):
        sys.exit(f"{path} has rows of {name} that are not understood")
    return found


def constants(path):
    """The text of each constant of a test that is one string, by its name."""
    return dict(re.findall(rf"^(?:pub(?:\(crate\))? )?const (\w+): &[^=]*=\s*b?{STRING};", open(f"{TOP}/crates/{path}").read(), re.M | re.S))


def scripts():
    """The name, the number of blocks and the script of each loop of the tests."""
    path = "iscsi_loop_tests/src/tests/loops.rt"
    for name, script, word in rows_of(path, "SCRIPTS", rf"{STRING},\s*(?:{STRING}|(\w+))"):
        yield name, "2048", unquoted(constants(path)[word] if word else script).encode()
    for name, blocks, script in rows_of(path, "DISKS", rf"{STRING},\s*([\d_]+),\s*{STRING}"):
        yield name, blocks.replace("_", ""), unquoted(script).encode()


def texts():
    """The name and the bytes of each text of the tests: those that have a canonical form, and those that have none."""
    path = "iscsi_text_tests/src/tests/text.rt"
    rows = rows_of(path, "CANONICAL", rf"{STRING},\s*(?:b{STRING}|(\w+))")
    rows += [("a fault", text, word) for text, word in rows_of(path, "FAULTS", rf"(?:b{STRING}|(\w+))")]
    for name, text, word in rows:
        literal = constants(path)[word] if word else text
        yield name, re.sub(r"\\\n\s*", "", literal).encode().decode("unicode_escape").encode("latin1")


def named_lines():
    """The lines that have a name, by it."""
    path = "iscsi_test_support/src/logins.rt"
    found = constants(path)
    return {name: found[word] for name, word in re.findall(r'"(\w+)" => Some\((\w+)\)', open(f"{TOP}/crates/{path}").read())}


def pdu(line):
    """The PDU of a line of a dialogue, as crates/iscsi_test_support/src/line.rt says it."""
    if line.startswith("@"):
        line = named_lines()[line[1:]]
    header, segment = bytes.fromhex(line[:107]), line[107:].strip()
    if segment == "@":
        segment = f"'{constants('iscsi_test_support/src/logins.rt')['OPERATIONAL']}"
    if segment.startswith("'"):
        text, _, more = segment[1:].partition("+")
        keys = "".join(f"K{number:03}=1|" for number in range(int(more or 0)))
        data = (text + keys).replace("|", "\0").encode()
    elif "*" in segment:
        byte, count = segment.split("*")
        data = bytes.fromhex(byte) * int(count)
    else:
        data = bytes.fromhex(segment)
    return header + data + bytes(-len(data) % 4)


def sessions():
    """The name, whether it begins with a login of its own, and the lines of each session over a store that works."""
    for name in ("rows", "queues"):
        text = open(f"{TOP}/crates/iscsi_target_tests/src/tests/{name}.rt").read().split("pub const FAILING")[0]
        # Each session says once whether it begins with a login of its own.
        count = len(re.findall(r"\b(?:true|false),", text))
        named = dict(re.findall(r'pub const (\w+): &str =\s*"(.*?)";', text, re.S))
        found = re.findall(r'\(\s*"([^"]*)",\s*(true|false),\s*(?:"([^"]*)"|(\w+)),?\s*\)', text)
        if len(found) != count:
            sys.exit(f"{name}.rt has {count} sessions, of which {len(found)} are understood")
        for session, fresh, lines, constant in found:
            yield session, fresh == "true", unquoted(lines or named[constant])


def dialogues():
    """The name of each session, what comes, the lengths of the answers at which they may stop, the answers, and the status."""
    rows = open(f"{TOP}/crates/iscsi_target_tests/src/tests/rows.rt").read()
    login = unquoted(re.search(r'LOGIN: &str =\s*"(.*?)";', rows, re.S)[1])
    found = [("login", True, login), *sessions()]
    if missing := WAITING - {name for name, _, _ in found}:
        sys.exit(f"there is no session {sorted(missing)}")
    writes = next(lines for name, _, lines in found if name == "writes")
    found.append(("reads back a write", False, f"{writes}\n{READ_BACK}"))
    for name, fresh, lines in found:
        came, due, stops, status, last = b"", b"", set(), 0, ""
        for line in (lines if fresh else f"{login}\n{lines}").split("\n"):
            if line.startswith("I>"):
                came += pdu(line[3:])
                stops.add(len(due))
            elif line.startswith("T>"):
                # A PDU may lead to several tasks, whose answers are each whole: Data-In go on to the response.
                if not last.startswith("T> 25"):
                    stops.add(len(due))
                due += pdu(line[3:])
            elif line.startswith("= rule"):
                status = 1
            last = line
        yield name, came, stops, due, status


def logged_out():
    """What comes in the session of iscsi_serve_tests that logs in and out, the lengths at which its answers may stop, and
    the answers."""
    found = constants("iscsi_serve_tests/src/tests/serving.rt")
    came, due = ([pdu(line) for line in unquoted(found[name]).split("\n")] for name in ("LOGOUT", "LOGOUT_ANSWERS"))
    return b"".join(came), {len(b"".join(due[:count])) for count in range(len(due))}, b"".join(due)


def is_well(ended, ample, was_refused, stops):
    """Whether a run may end so: its status, output and fault line, and the same with ample memory."""
    if ended == ample:
        return True
    status, out, err = ended
    return was_refused and status == 3 and err == b"memory\n" and ample[1].startswith(out) and len(out) in stops


def is_listing(ended, ample):
    """Whether `connections` may end so for want of memory: each line has what was known of its connection by then."""
    rows, due = ([line.split(b" ") for line in out.splitlines()] for out in (ended[1], ample[1]))
    known = all(row[:3] == other[:3] and int(row[3]) <= int(other[3]) and int(row[4]) <= int(other[4]) for row, other in zip(rows, due))
    return ended[0] == 3 and ended[2] == b"memory\n" and ended[1][-1:] in (b"", b"\n") and len(rows) <= len(due) and known


def sweep(name, words, data, stops=None, run=run):
    """Refuses each allocation of a run in turn, and answers how many runs ended wrongly."""
    ample, count, _ = run(words, data)
    stops = places(words, ample[1]) if stops is None else stops
    refused, failed, met = 0, 0, set()
    if ample[0] == 3:
        failed += 1
        print(f"{name}: want of memory where none was refused")
    for at in range(1, MOST):
        ended, _, was_refused = run(words, data, at)
        is_list = words[:1] == ["connections"] and was_refused and is_listing(ended, ample)
        if not is_list and not is_well(ended, ample, was_refused, stops):
            failed += 1
            print(f"{name} at {at}: status {ended[0]}, {ended[1][:40]!r}, {ended[2][:60]!r}")
        if not was_refused:
            break
        refused += 1
        met.add(len(ended[1]))
    if refused == 0 or was_refused:
        failed += 1
        print(f"{name}: not each of its allocations was refused")
    print(f"{name}: {refused} of {count} allocations refused in turn; output of {len(met)} lengths", flush=True)
    return failed


def answer_to(peer, data):
    """What comes at first behind some data, or nothing over a connection that is gone."""
    try:
        peer.sendall(data)
        return peer.recv(4096)
    except TimeoutError:
        raise
    except OSError:
        return b""


def rest_of(peer):
    """What still comes over a connection whose peer is told that no more is sent."""
    came = b""
    try:
        peer.shutdown(socket.SHUT_WR)
        while part := peer.recv(4096):
            came += part
    except TimeoutError:
        raise
    except OSError:
        pass
    return came


def finish(service, port, stream):
    """Has further sessions until the service ends: one that ran out of memory before its login is not counted."""
    for _ in range(9):
        try:
            service.wait(1)
            return
        except subprocess.TimeoutExpired:
            pass
        try:
            with socket.create_connection(("127.0.0.1", port), timeout=SECONDS) as peer:
                peer.sendall(stream)
                rest_of(peer)
        except OSError:
            pass


def run_company(first, second, fail_at=0):
    """Two sessions at a time: the second begins behind the first PDU of the first, and ends before its others."""
    with socket.create_server(("127.0.0.1", 0)) as free:
        port = free.getsockname()[1]
    words = ["serve", "--blocks", "2048", "--logins", "2", "--plain", "--quiet", "--port", str(port)]
    pipes = {"stdout": subprocess.PIPE, "stderr": subprocess.PIPE}
    came = [b"", b""]
    cut = sorted(ends(first))[1]
    with subprocess.Popen([PROGRAM, *words], env=refusing(fail_at), **pipes) as service:
        if service.stdout.readline() == b"listening\n":
            try:
                with socket.create_connection(("127.0.0.1", port), timeout=SECONDS) as one:
                    came[0] = answer_to(one, first[:cut])
                    with socket.create_connection(("127.0.0.1", port), timeout=SECONDS) as other:
                        other.sendall(second)
                        came[1] = rest_of(other)
                    one.sendall(first[cut:])
                    came[0] += rest_of(one)
            except TimeoutError:
                raise
            except OSError:
                # a service, or a session, that ran out of memory is gone
                pass
            finish(service, port, second)
        err = service.stderr.read()
    return (service.returncode, came, err), *told()


def second_of(due):
    """The answers of a session whose TSIH is 2, by those of one whose TSIH is 1."""
    found = bytearray(due)
    for at in ends(due) - {len(due)}:
        if due[at] & 0x3F == 0x23 and due[at + 14 : at + 16] == b"\0\1":
            found[at + 15] = 2
    return bytes(found)


def company(sessions):
    """Refuses each allocation of two sessions at a time, and answers how many runs ended wrongly: of the sessions, each told
    as what comes, the answers and where they may stop, one alone may end early, unless the service ends."""
    (first, due, stops), (second, later_due, later_stops) = sessions
    later_due = second_of(later_due)
    ample, count, _ = run_company(first, second)
    failed, refused, ended_alone = int(ample != (0, [due, later_due], b"")), 0, 0
    if failed:
        print(f"two at once: {ample}")
    for at in range(1, MOST):
        (status, came, err), _, was_refused = run_company(first, second, at)
        if not was_refused:
            break
        refused += 1
        whole = [came[0] == due, came[1] == later_due]
        fronts = [due.startswith(came[0]) and len(came[0]) in stops, later_due.startswith(came[1]) and len(came[1]) in later_stops]
        one_alone = status == 0 and any(whole) and all(is_whole or is_front for is_whole, is_front in zip(whole, fronts))
        service_ends = status == 3 and all(is_whole or is_front for is_whole, is_front in zip(whole, fronts))
        ended_alone += one_alone
        err = re.sub(rb"(?m)^session [12] 127\.0\.0\.1:[0-9]+( iqn\.[!-~]+)?: ", b"", err)
        if err not in (b"memory\n", b"") or not (one_alone or service_ends):
            failed += 1
            print(f"two at once at {at}: status {status}, whole {whole}, fronts {fronts}, {err[:60]!r}")
    print(f"two at once: {refused} of {count} allocations refused in turn; in {ended_alone} at most one session ended early", flush=True)
    return failed + int(ended_alone == 0)


def kept_buffer(ping):
    """How many runs ended wrongly in which each allocation is refused that one PDU of 4,096 bytes does not ask for."""
    long_pdu = ping[:5] + (4048).to_bytes(3, "big") + ping[8:48] + bytes(4048)
    ample, count, _ = run(["normalise"], long_pdu)
    many, _, was_refused = run(["normalise"], long_pdu * 1000, 0, count + 1)
    is_kept = many == (0, ample[1] * 1000, b"") and not was_refused
    print(f"normalise, 1000 PDUs: the segment buffer is {'kept' if is_kept else 'not kept'}")
    return int(not is_kept)


def comparisons(session):
    """How many runs of `compare` ended wrongly: with the same stream, and with one that has a PDU less."""
    shorter = session[: sorted(ends(session))[-2]]
    failed = 0
    for hexed in (False, True):
        spelled = (lambda stream: stream.hex().encode()) if hexed else (lambda stream: stream)
        with open(f"{ROOM}/other", "wb") as file:
            file.write(spelled(session))
        for more in ([], ["--same-job"]):
            words = ["compare", f"{ROOM}/other", *(["--hex"] if hexed else []), *more]
            for name, stream in (("the same", session), ("a PDU less", shorter)):
                failed += sweep(f"{' '.join(['compare', *words[2:]])}, {name}", words, spelled(stream))
    return failed


def captures():
    """How many runs over captures ended wrongly. They read small ones of iscsi_captures_tests, from a file and from standard
    input, and one of libiscsi and tgt whose packets are out of order."""
    small = constants("iscsi_captures_tests/src/tests/captures.rt")
    files = {name: bytes.fromhex(unquoted(small[name])) for name in ("WHOLE", "LATE", "GAP", "REUSED")}
    files["all-2"] = open(f"{TOP}/crates/capture_vectors/data/all-2.pcap", "rb").read()
    for name, data in files.items():
        with open(f"{ROOM}/{name}", "wb") as file:
            file.write(data)
    failed = 0
    for name, data in files.items():
        one = ["--connection", "0", "--from", "initiator"]
        cases = [["connections", "FILE"], ["show", "--capture", "FILE"], ["normalise", "--capture", "FILE", *one]]
        if name in ("WHOLE", "all-2"):
            cases += [["show", "--capture", "FILE", *more] for more in (["--explain"], ["--json"], ["--explain", "--json"], one)]
            cases += [["answer", "--blocks", "8", "--capture", "FILE", "--connection", "0"]]
            cases += [["compare", "--capture", "FILE", f"{ROOM}/WHOLE", *one, *more] for more in ([], ["--same-job"])]
        for words in cases:
            failed += sweep(f"{' '.join(words).replace(ROOM, '..')} of {name}", [f"{ROOM}/{name}" if word == "FILE" else word for word in words], b"")
        if name == "WHOLE":
            failed += sweep("connections - of WHOLE", ["connections", "-"], data)
            failed += sweep("show --capture - of WHOLE", ["show", "--capture", "-"], data)
    return failed


def main(words, is_unproved=False):
    """Sweeps the program that is named, or else the proved one or the one without proofs."""
    global PROGRAM
    if is_unproved:
        PROGRAM = f"{TOP}/crates/lanthovur/out/unproved/lanthovur"
    if words:
        PROGRAM = os.path.abspath(words[0])
    if not os.path.isfile(PROGRAM):
        how = "--unproved " if is_unproved else ""
        sys.exit(f"there is no program {PROGRAM}: `./lanthovur {how}</dev/null` builds it")
    source = f"{TOP}/tools/refused_memory/refuse.c"
    subprocess.run(["gcc", "-shared", "-fPIC", "-O1", "-o", f"{ROOM}/refuse.so", source], check=True)
    ping = of_hex("crates/lanthovur/stdin")
    session = of_hex("docs/session/initiator.hex") + of_hex("docs/session/target.hex")
    text = b"MaxBurstLength=0X0040000\0\0InitialR2T=Yes\0TargetAddress=b\0TargetAddress=a\0"
    cases = [
        ([], ping.hex().encode()), (["normalise"], ping), (["normalise"], session), (["normalise", "--hex"], session.hex().encode()),
        (["show"], session), (["show", "--hex"], session.hex().encode()), (["show", "--explain"], session), (["show", "--json"], session),
        (["show", "--explain", "--json"], session), (["normalise", "--text"], text),
        (["normalise", "--text", "--hex"], text.hex().encode()), (["normalise"], ping + ping[:47]), (["normalise", "--hex"], b"4g"),
        (["normalise", "--text"], b"A=1"), (["serve"], b""), (["loop", "--blocks", "2048", "--piece", "4096"], SCRIPT),
        (["loop", "--blocks", "8", "--piece", "48"], b"tur 0\nread 0\n"),
    ]
    cases += [(["loop", "--blocks", "130", "--piece", "4096"], EXTENTS), (["normalise"], DATA_IN), (["show"], DATA_IN)]
    failed = sum(sweep(" ".join(words), words, data) for words, data in cases)
    for name, blocks, script in scripts():
        failed += sweep(f"loop, {name}", ["loop", "--blocks", blocks, "--piece", "4096"], script)
    for name, text in texts():
        failed += sweep(f"normalise --text, {name}", ["normalise", "--text"], text)
    failed += comparisons(session)
    failed += captures()
    answer = ["answer", "--blocks", "2048"]
    for name, came, stops, due, status in dialogues():
        if run(answer, came)[0][:2] != (status, due):
            failed += 1
            print(f"answer, {name}: not the answers of the dialogue")
        failed += sweep(f"answer, {name}", answer, came, stops)
        if name in ("login", "reads back a write"):
            failed += sweep(f"answer --hex, {name}", [*answer, "--hex"], came.hex().encode(), {2 * stop for stop in stops})
            failed += sweep(f"serve, {name}", ["serve", "--blocks", "2048", "--sessions", "1"], came, stops, run_service)
    named = {name: (came, due, stops) for name, came, stops, due, _ in dialogues()}
    came, stops, due = logged_out()
    if run_service(["serve", "--blocks", "1", "--sessions", "1"], came)[0] != (0, due, b""):
        failed += 1
        print("serve, a login and a logout: not the answers of the test")
    failed += sweep("serve, a login and a logout", ["serve", "--blocks", "1", "--sessions", "1"], came, stops, run_service)
    failed += company([named["login"], named["reads back a write"]])
    failed += kept_buffer(ping)
    print(f"{failed} runs of the program ended wrongly")
    return failed


if __name__ == "__main__":
    given = sys.argv[1:]
    sys.exit(main([word for word in given if word != "--unproved"], "--unproved" in given) != 0)
