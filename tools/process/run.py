#!/usr/bin/env python3
"""Runs the built program as a process, and looks at what it writes, its fault line and its status.

    tools/process/run.py [PROGRAM]

PROGRAM is crates/lanthovur/out/lanthovur if none is named; `./lanthovur </dev/null` builds it. Each row has its words,
its input, and what is due on standard output and standard error, worked out by hand from docs/FORMATS.md; of help and
usage it is a word that stands there. It needs gcc. The last line is 'N passed, M failed'. It takes some seconds.
"""
import os
import socket
import subprocess
import sys
import tempfile
from dataclasses import dataclass
from typing import Optional

TOP = os.path.dirname(os.path.dirname(os.path.dirname(os.path.abspath(__file__))))
# A process that takes longer hangs.
SECONDS = 20


def of_hex(*rows):
    """The bytes of rows of hex digits and blanks."""
    return bytes.fromhex(" ".join(rows))


# A NOP-Out with garbage in its free bits and three bytes of data, its canonical form, and its line.
PING = of_hex(
    "c0800000 00000003 11111111 11111111 00000001 ffffffff 00000005 00000002",
    "00000000 00000000 00000000 00000000 616263ff",
)
CANONICAL = of_hex(
    "40800000 00000003 00000000 00000000 00000001 ffffffff 00000005 00000002",
    "00000000 00000000 00000000 00000000 61626300",
)
LINE = b"0 NOP-Out i=1 itt=00000001 ttt=ffffffff cmdsn=00000005 expstatsn=00000002 data=3\n"
# The same with another CmdSN.
OTHER = CANONICAL[:24] + of_hex("00000006") + CANONICAL[28:]
OTHER_LINE = b"0 NOP-Out i=1 itt=00000001 ttt=ffffffff cmdsn=00000006 expstatsn=00000002 data=3\n"
HEADER = "{} 00000000 00000000 00000000 00000000 00000000 00000000 00000000 00000000 00000000 00000000"
UNKNOWN = of_hex(HEADER.format("10800000 00000000"))
ADDITIONAL = of_hex(HEADER.format("40800000 01000000"))
LONG_LOGIN = of_hex(HEADER.format("43810000 00002001"))
# A SCSI Command of 16,777,215 bytes, of which none comes.
LONG_COMMAND = of_hex(HEADER.format("01800000 00ffffff"))

# A Login Request without the initiator's name, and the answer: status 0207, missing parameter.
KEYS = b"AuthMethod=None\0SessionType=Normal\0TargetName=iqn.2026-01.example:disk\0"
NAMELESS = of_hex(
    "43810000 00000047 40000001 00000000 00000000 00000000 00000001 00000000",
    "00000000 00000000 00000000 00000000",
) + KEYS + bytes(-len(KEYS) % 4)
REFUSAL = of_hex(
    "23000000 00000000 40000001 00000000 00000000 00000000 00000000 00000001",
    "00000008 02070000 00000000 00000000",
)

# A login in one request and a command whose number is not the one that is due; the login's answer, and a Reject.
ENDS = b"InitiatorName=iqn.2026-01.example:host\0TargetName=iqn.2026-01.example:disk\0"
TURN = of_hex("01810000 00000000 00000000 00000000 00000001 00000000 00000003 00000002", "00000000" * 4)
OUT_OF_TURN = of_hex("43870000 0000004b 40000001 00000000 00000000 00000000 00000001 00000000", "00000000" * 4) + ENDS + b"\0" + TURN
SETTLED = b"MaxRecvDataSegmentLength=8192\0TargetPortalGroupTag=1\0"
LOGGED_IN = of_hex("23870000 00000035 40000001 00000001 00000000 00000000 00000001 00000001 00000008", "00000000" * 3) + SETTLED
REJECTED = of_hex("3f800400 00000030 00000000 00000000 ffffffff 00000000 00000002 00000001 00000008", "00000000" * 3) + TURN

# The script of the README, and what comes of it over 2,048 blocks.
SCRIPT = b"write 0 8 5a\nread 0 1\ncapacity\nread 2047 2\nlogout\n"
REPORT = (
    b"login\ngood 0\ngood 512 5a5a5a5a5a5a5a5a5a5a5a5a5a5a5a5a\ngood 8 000007ff00000200\n"
    b"check 5/21/00 under 1024\nlogout\n"
)


@dataclass
class Row:
    """Words and input, and what is due. `says` is a word that standard error has, where it isn't one known line; `files`
    are the names and bytes of files in the folder that the program runs in."""

    name: str
    words: list
    given: bytes = b""
    out: bytes = b""
    line: bytes = b""
    status: int = 0
    says: Optional[bytes] = None
    files: Optional[dict] = None


# One job that was captured twice, each direction of it.
FIRST, SECOND = (
    {end: open(f"{TOP}/docs/session/{folder}{end}.hex", "rb").read() for end in ("initiator", "target")} for folder in ("", "second/")
)

# The page of all words, which the launcher prints too.
with open(f"{TOP}/docs/help.txt", "rb") as page:
    HELP = page.read()

SERVE = ["serve", "--port", "0", "--blocks", "1", "--sessions", "0"]
IMAGE = ["serve", "--port", "0", "--sessions", "0", "--file"]
# Words that are no address of a portal.
NO_PORTALS = ["192.0.2.7", ":3260", "host:0", "host:65536", "::1:3260", "[192.0.2.7]:3260"]
LOOP = ["loop", "--blocks", "2048", "--piece", "48"]
ANSWER = ["answer", "--blocks", "8"]
ROWS = [
    Row("no words, no input", [], b"", b"\n"),
    Row("a stream of no PDU", ["normalise"]),
    Row("an empty text", ["normalise", "--text"]),
    Row("no words", [], PING.hex().encode(), CANONICAL.hex().encode() + b"\n"),
    Row("a canonical stream", ["normalise"], PING + PING, CANONICAL + CANONICAL),
    Row("a line of each PDU", ["show"], PING, LINE),
    Row("a line of each PDU of hex text", ["show", "--hex"], PING.hex().encode(), LINE),
    Row("a canonical text", ["normalise", "--text"], b"B=0x10\0A=5\0\0\0", b"A=5\0B=0x10\0"),
    Row("no answers to nothing", ANSWER),
    Row("a login that the target refuses", ANSWER, NAMELESS, REFUSAL),
    Row("the same as hex text", [*ANSWER, "--hex"], NAMELESS.hex().encode(), REFUSAL.hex().encode() + b"\n"),
    Row("a script", LOOP, SCRIPT, REPORT),
    Row("no connection is served", ["serve", "--port", "0", "--blocks", "1", "--sessions", "0"], b"", b"listening\n"),
    Row("no connection is served at a time", [*SERVE, "--at-once", "64", "--idle", "1"], b"", b"listening\n"),
    # Images.
    Row("an image of two blocks", [*IMAGE, "a"], b"", b"listening\n", files={"a": bytes(1024)}),
    Row("a disk in memory with a limit", [*SERVE, "--memory", "32768"], b"", b"listening\n"),
    Row("an image of two blocks, as is said", [*IMAGE, "a", "--blocks", "2"], b"", b"listening\n", files={"a": bytes(1024)}),
    Row("an image that is made", [*IMAGE, "a", "--create", "--blocks", "2"], b"", b"listening\n"),
    Row("an image of another size", [*IMAGE, "a", "--blocks", "3"], b"", b"", b"a: has 2 blocks, not 3\n", 4, files={"a": bytes(1024)}),
    Row("an image that is there already", [*IMAGE, "a", "--create", "--blocks", "2"], b"", b"", b"a: is there already\n", 4, files={"a": bytes(1024)}),
    Row("no image", [*IMAGE, "a"], b"", b"", b"a: cannot be opened\n", 4),
    Row("no folder for an image", [*IMAGE, "a/b", "--create", "--blocks", "2"], b"", b"", b"a/b: cannot be opened\n", 4),
    Row("an empty image", [*IMAGE, "a"], b"", b"", b"a: is empty\n", 4, files={"a": b""}),
    Row("an image of half a block", [*IMAGE, "a"], b"", b"", b"a: is not whole blocks\n", 4, files={"a": bytes(256)}),
    Row("an image of a block and a byte", [*IMAGE, "a"], b"", b"", b"a: is not whole blocks\n", 4, files={"a": bytes(513)}),
    Row("a folder for an image", [*IMAGE, "."], b"", b"", b".: is no disk image\n", 4),
    Row("a device that is no disk", [*IMAGE, "/dev/null"], b"", b"", b"/dev/null: is no disk image\n", 4),
    # Input that is refused.
    Row("an unknown opcode", ["normalise"], PING + UNKNOWN, CANONICAL, b"stream: unknown opcode at 52\n", 1),
    Row("an additional header", ["normalise"], PING + ADDITIONAL, CANONICAL, b"stream: additional header at 52\n", 1),
    Row("a long login", ["show"], PING + LONG_LOGIN, LINE, b"stream: login segment too long at 52\n", 1),
    Row("an end within a PDU", ["show"], PING + PING[:47], LINE, b"stream: truncated at 52\n", 1),
    Row("a segment over the limit", ANSWER, LONG_COMMAND, b"", b"stream: over limit at 0\n", 1),
    Row("no hex", [], b"4g", b"", b"input: not hex\n", 1),
    Row("a text without its end", ["normalise", "--text"], b"A=5", b"", b"text: unterminated at 0\n", 1),
    Row("a text without equals", ["normalise", "--text"], b"A=5\0B\0", b"", b"text: no equals at 4\n", 1),
    Row("a bad key", ["normalise", "--text"], b"A=5\0b,=5\0", b"", b"text: bad key at 4\n", 1),
    Row("a repeated key", ["normalise", "--text"], b"A=5\0A=5\0", b"", b"text: repeated key at 4\n", 1),
    Row("a text that is too long", ["normalise", "--text"], b"\0" * 16385, b"", b"text: over 16384 bytes\n", 1),
    Row("a ping before the login", ANSWER, CANONICAL, b"", b"protocol: rule 1\n", 1),
    Row("a command out of its turn", ANSWER, OUT_OF_TURN, LOGGED_IN + bytes(3) + REJECTED, b"protocol: rule 9\n", 1),
    Row("a line that is none", LOOP, b"capacity\nread 0\n", b"", b"script: line 2\n", 1),
    # Two streams.
    Row("a stream and its canonical stream", ["compare", "a", "b"], files={"a": PING + PING, "b": CANONICAL + CANONICAL}),
    Row("a stream against the standard input", ["compare", "a"], CANONICAL, files={"a": PING}),
    Row("two texts of hex", ["compare", "--hex", "a"], PING.hex(" ").encode(), files={"a": CANONICAL.hex().encode()}),
    Row("a PDU less", ["compare", "a", "b"], b"", LINE + b"0 end\n", status=1, files={"a": PING, "b": b""}),
    Row("another number", ["compare", "a"], OTHER, LINE + OTHER_LINE, status=1, files={"a": PING}),
    Row("another number in a run of one job", ["compare", "--same-job", "a"], OTHER, files={"a": PING}),
    Row("an initiator that was captured twice", ["compare", "--hex", "--same-job", "a"], SECOND["initiator"], files={"a": FIRST["initiator"]}),
    Row("a target that was captured twice", ["compare", "--hex", "--same-job", "a"], SECOND["target"], files={"a": FIRST["target"]}),
    Row("a PDU less in a run of one job", ["compare", "--same-job", "a"], b"", LINE + b"0 end\n", status=1, files={"a": PING}),
    Row("a first stream that is cut", ["compare", "a", "b"], b"", b"", b"a: stream: truncated at 52\n", 1, files={"a": PING + b"@", "b": PING}),
    Row("a second stream that is refused", ["compare", "a"], PING + UNKNOWN, b"", b"standard input: stream: unknown opcode at 52\n", 1, files={"a": PING + PING}),
    Row("a text that is no hex", ["compare", "--hex", "a", "b"], b"", b"", b"b: input: not hex\n", 1, files={"a": b"40", "b": b"4g"}),
    Row("no such file", ["compare", "a", "b"], b"", b"", b"b: read failed\n", 4, files={"a": PING}),
    Row("a folder", ["compare", "."], b"", b"", b".: read failed\n", 4),
    Row("no file to compare", ["compare"], says=b"<A>", status=2),
    Row("three files to compare", ["compare", "a", "b", "c"], says=b"'c'", status=2),
    # Words that are no job.
    Row("help", ["--help"], b"", HELP, b"", 0),
    Row("the same", ["help"], b"", HELP, b"", 0),
    Row("an unknown word", ["shoe"], says=b"shoe", status=2),
    Row("no blocks", ["answer"], says=b"--blocks", status=2),
    Row("too few blocks", ["answer", "--blocks", "0"], says=b"'0' is no number of blocks: '--blocks <N>' takes a number from 1 to", status=2),
    Row("a port that is none", ["serve", "--port", "65536", "--blocks", "1", "--sessions", "0"], says=b"'65536' is no port: '--port <P>' takes", status=2),
    Row("no session at a time", [*SERVE, "--at-once", "0"], says=b"'0' is no number of sessions: '--at-once <k>' takes a number from 1 to 64", status=2),
    Row("too many at a time", [*SERVE, "--at-once", "65"], says=b"'65' is no number of sessions: '--at-once <k>' takes a number from 1 to 64", status=2),
    Row("an address that is none", [*SERVE, "--listen", "localhost"], says=b"'localhost' is no address: '--listen <ADDR>' takes", status=2),
    Row("a name that is none", [*SERVE, "--name", "a b"], says=b"'a b' is no name: '--name <IQN>' takes", status=2),
    Row("a portal with its group", [*SERVE, "--portal", "192.0.2.7:3260,1"], says=b"'192.0.2.7:3260,1' is no portal: '--portal <HOST:PORT>' takes", status=2),
    *(Row(f"the portal {it}", [*SERVE, "--portal", it], says=f"'{it}' is no portal: '--portal <HOST:PORT>' takes".encode(), status=2) for it in NO_PORTALS),
    Row("a serial number of 17 bytes", [*SERVE, "--serial", "0123456789abcdefg"], says=b"'0123456789abcdefg' is no serial number: '--serial <S>' takes", status=2),
    Row("no time", [*SERVE, "--idle", "0"], says=b"'0' is no number of seconds: '--idle <S>' takes a number from 1 to 65535", status=2),
    Row("a short memory", [*SERVE, "--memory", "32767"], says=b"'--memory <BYTES>' takes a number", status=2),
    Row("a memory of an image", [*IMAGE, "a", "--memory", "32768"], says=b"cannot be used with '--file <F>'", status=2),
    Row("a short segment", [*SERVE, "--segment", "511"], says=b"'--segment <N>' takes a number", status=2),
    Row("a first burst over the burst", [*SERVE, "--burst", "1024", "--first-burst", "1025"], says=b"'1025' is no number of bytes: '--first-burst <N>' takes a number", status=2),
    Row("too much time", [*SERVE, "--login-within", "65536"], says=b"'--login-within <S>' takes a number", status=2),
    Row("two stops", [*SERVE, "--logins", "1"], says=b"'--logins <n>' cannot be used with '--sessions <n>'", status=2),
    Row("a thin disk of the bare profile", [*SERVE, "--plain", "--thin"], says=b"'--plain' cannot be used with '--thin'", status=2),
    Row("an image without a name, for other machines", [*IMAGE, "a", "--listen", "0.0.0.0"], says=b"needs '--name <IQN>' or '--serial <S>'", status=2),
    Row("neither a size nor an image", IMAGE[:-1], says=b"the disk size is missing", status=2),
    Row("an image without a name", IMAGE, says=b"a value is required for '--file <F>'", status=2),
    Row("an image to be made without its size", [*IMAGE, "a", "--create"], says=b"the disk size is missing", status=2),
    Row("a size without an image to be made", [*SERVE, "--create"], says=b"--file <F>", status=2),
    Row("too few blocks of an image", [*IMAGE, "a", "--blocks", "0"], says=b"takes a number from 1 to 1099511627776", status=2),
    Row("a piece of no bytes", ["loop", "--blocks", "1", "--piece", "0"], says=b"--piece", status=2),
    Row("words that are not UTF-8", [b"\xff"], says=b"UTF-8", status=2),
]

PASSED, FAILED = [], []


def look(name, is_well, seen):
    """Notes a row, and tells what was seen where it is not well."""
    (PASSED if is_well else FAILED).append(name)
    if not is_well:
        print(f"{name}: {seen}")


def run(program, row, **streams):
    """Runs the program on a row, in an empty folder."""
    streams = {"input": row.given, "stdout": subprocess.PIPE, **streams}
    with tempfile.TemporaryDirectory() as room:
        for name, held in (row.files or {}).items():
            with open(os.path.join(room, name), "wb") as file:
                file.write(held)
        return subprocess.run([program, *row.words], stderr=subprocess.PIPE, timeout=SECONDS, cwd=room, **streams)


def check(program, row):
    """A row of the table."""
    ran = run(program, row)
    is_said = ran.stderr == row.line if row.says is None else row.says in ran.stderr
    is_well = (ran.stdout, ran.returncode) == (row.out, row.status) and is_said
    look(row.name, is_well, (ran.stdout[-200:], ran.stderr[-200:], ran.returncode))


def check_full_device(program):
    """Nothing can be written to the standard output."""
    for row in ROWS:
        if row.out and row.status == 0:
            with open("/dev/full", "wb") as full:
                ran = run(program, row, stdout=full)
            is_well = (ran.stderr, ran.returncode) == (b"write failed\n", 4)
            look(f"{row.name}, to a full device", is_well, (ran.stderr, ran.returncode))


def check_closed_reader(program):
    """Who would read the standard output has gone."""
    for row in ROWS:
        if row.out and row.status == 0:
            reader, writer = os.pipe()
            os.close(reader)
            ran = run(program, row, stdout=writer)
            os.close(writer)
            is_well = (ran.stderr, ran.returncode) == (b"write failed\n", 4)
            look(f"{row.name}, to a closed reader", is_well, (ran.stderr, ran.returncode))


def check_failed_read(program):
    """The standard input is a folder, which can't be read."""
    for words in ([], ["show"], ["normalise"], ["normalise", "--text"], ANSWER, LOOP):
        folder = os.open("/", os.O_RDONLY)
        ran = run(program, Row("", words), input=None, stdin=folder)
        os.close(folder)
        is_well = (ran.stdout, ran.stderr, ran.returncode) == (b"", b"read failed\n", 4)
        look(f"{words}, a read that fails", is_well, (ran.stdout, ran.stderr, ran.returncode))


def check_taken_port(program):
    """The port is another's."""
    with socket.create_server(("127.0.0.1", 0)) as other:
        words = ["serve", "--port", str(other.getsockname()[1]), "--blocks", "1", "--sessions", "1"]
        ran = run(program, Row("", words))
    is_well = (ran.stdout, ran.stderr, ran.returncode) == (b"", b"network failed\n", 4)
    look("a port that is taken", is_well, (ran.stdout, ran.stderr, ran.returncode))


def served(program, given, **streams):
    """What a service of so many connections writes, one after another, and how it ends."""
    with socket.create_server(("127.0.0.1", 0)) as other:
        port = other.getsockname()[1]
    words = ["serve", "--port", str(port), "--blocks", "1", "--sessions", str(len(given))]
    streams = {"stdout": subprocess.PIPE, "stderr": subprocess.PIPE, **streams}
    with subprocess.Popen([program, *words], stdin=subprocess.DEVNULL, **streams) as service:
        told = service.stdout.readline()
        for stream in given:
            with socket.create_connection(("127.0.0.1", port), timeout=SECONDS) as peer:
                peer.sendall(stream)
                peer.shutdown(socket.SHUT_WR)
                try:
                    while peer.recv(4096):
                        pass
                except ConnectionResetError:
                    # the service closed the connection before it had read all
                    pass
        rest, line = service.communicate(timeout=SECONDS)
    return told + rest, line, service.returncode


def check_two_sessions(program):
    """Two connections: one breaks a rule, whose line goes to standard error, and one ends at once."""
    seen = served(program, (CANONICAL, b""))
    look("two sessions", seen == (b"listening\n", b"protocol: rule 1\n", 0), seen)


# The call that is interrupted, the row, and how the program ends then. Where a connection is made or accepted, and where
# a loop reads a piece of known length, the standard library tries again. `serve` does with each call of its own.
INTERRUPTED = [
    ("read", "a canonical stream", (b"", b"read failed\n", 4)),
    ("read", "a script", (b"", b"read failed\n", 4)),
    ("write", "a canonical stream", (b"", b"write failed\n", 4)),
    ("connect", "a script", (REPORT, b"", 0)),
    ("accept4", "a script", (REPORT, b"", 0)),
    ("recv", "a script", (REPORT, b"", 0)),
    ("send", "a script", (b"", b"network failed\n", 4)),
]


def check_calls(program):
    """Calls of the C library that are interrupted, and a stranger at the port of a loop, who finds it first."""
    rows = {row.name: row for row in ROWS}
    with tempfile.TemporaryDirectory() as room:
        source, library = f"{TOP}/tools/process/calls.c", f"{room}/calls.so"
        subprocess.run(["gcc", "-shared", "-fPIC", "-O1", "-o", library, source, "-ldl"], check=True)
        for call, name, due in INTERRUPTED:
            ran = run(program, rows[name], env={**os.environ, "LD_PRELOAD": library, "INTERRUPT": call})
            seen = (ran.stdout, ran.stderr, ran.returncode)
            look(f"{name}, an interrupted {call}", seen == due, seen)
        for call in ("recv", "send", "accept4"):
            seen = served(program, (NAMELESS, NAMELESS), env={**os.environ, "LD_PRELOAD": library, "INTERRUPT": call})
            look(f"two sessions, an interrupted {call}", seen == (b"listening\n", b"", 0), seen)
        seen = served(program, (NAMELESS, NAMELESS), env={**os.environ, "LD_PRELOAD": library, "BREAK": "1"})
        look("two sessions, no send works", seen == (b"listening\n", 2 * b"write failed\n", 0), seen)
        ran = run(program, rows["a script"], env={**os.environ, "LD_PRELOAD": library, "STRANGER": "1"})
        seen = (ran.stdout, ran.stderr, ran.returncode)
        look("a stranger at the port of a loop", seen == (REPORT, b"", 0), seen)


def main(words):
    program = os.path.abspath(words[0]) if words else f"{TOP}/crates/lanthovur/out/lanthovur"
    if not os.path.isfile(program):
        sys.exit(f"there is no program {program}: `./lanthovur </dev/null` builds it")
    for row in ROWS:
        check(program, row)
    for more in (check_full_device, check_closed_reader, check_failed_read, check_taken_port, check_two_sessions, check_calls):
        more(program)
    print(f"{len(PASSED)} passed, {len(FAILED)} failed")
    return 1 if FAILED else 0


if __name__ == "__main__":
    sys.exit(main(sys.argv[1:]))
