#!/usr/bin/env python3
"""Sees that client.c finds what a target does wrong: floor.c as it is, and with one mistake each.

    tools/speed/check_client.py

It wants cc alone, and takes some seconds. Each row of MISTAKES is a line of floor.c, a wrong one in its place, and what the
client has to say. The last line is 'N passed, M failed'.
"""
import subprocess
import sys
import tempfile
from pathlib import Path

from run import NAME, free_port

HERE = Path(__file__).resolve().parent
WARNINGS = ["-std=c11", "-O2", "-Wall", "-Wextra", "-Werror"]
# Commands of 512 KiB have two bursts each, reads in four Data-Ins and writes with two R2Ts or more.
SIZE, PLACES = 524288, 16
MISTAKES = [
    ("puts(\"listening\");", "puts(\"listening\");", ""),
    ("put(head + 24, s->stat_sn++);", "put(head + 24, s->stat_sn); s->stat_sn += s->stat_sn == 9 ? 2 : 1;", "StatSN is"),
    ("put(head + 36, count);", "put(head + 36, count + (count > 2));", "DataSN is"),
    ("put(head + 40, at);", "put(head + 40, at & 0xffff);", "BufferOffset is"),
    ("put(head + 20, 0xffffffff);", "put(head + 16, get(head + 16) + 64);", "the tag is"),
    ("put(head + 4, len);", "put(head + 4, len); head[4] = s->stat_sn > 9;", "the length of additional headers is"),
    ("for (uint32_t at = 0; at < len; at += segment_in, count++) {",
     "for (uint32_t at = 0; at < len; at += segment_in, count++) { if (at) continue;", "ExpDataSN is"),
    ("give(s, command, pattern + (size_t)BLOCK * lba, BLOCK * blocks);",
     "give(s, command, pattern + (size_t)BLOCK * lba, BLOCK * (blocks - 1));", "the length of the data is"),
    ("segment_in = atoi(argv[5]);", "segment_in = 262144;", "a segment that is too long is"),
    ("put(head + 36, task->r2ts++);", "put(head + 36, ++task->r2ts);", "R2TSN is"),
    ("put(head + 40, task->came);", "put(head + 40, task->came + 512);", "BufferOffset is"),
    ("put(head + 44, more);", "put(head + 44, 0);", "a length of the request that is wrong is"),
    ("give(s, command, pattern + (size_t)BLOCK * lba, BLOCK * blocks);",
     "give(s, command, pattern + (size_t)BLOCK * (lba ? lba - 1 : 0), BLOCK * blocks);", "other bytes in block"),
    ("memcpy(pattern + BLOCK * lba + sizeof lba, &letter, sizeof letter);",
     "memcpy(pattern + BLOCK * lba + sizeof lba, &letter, sizeof letter); pattern[BLOCK * lba + 511] ^= lba == 5000;",
     "other bytes in block 5000"),
    ("uint8_t *head = response(s, 0x21, 0x80, command, NULL, 0);",
     "uint8_t *head = response(s, 0x21, 0x82, command, NULL, 0);", "the residual's flags is"),
    ("uint8_t *head = response(s, 0x21, 0x80, command, NULL, 0);",
     "uint8_t *head = response(s, 0x21, 0x80, command, NULL, 0); put(head + 44, len);", "the residual is"),
    ("uint8_t *head = response(s, 0x21, 0x80, command, NULL, 0);",
     "uint8_t *head = response(s, 0x21, 0x80, command, NULL, 0); head[3] = s->stat_sn > 20 ? 8 : 0;", "status 08"),
    ("*at++ = 0;", "*at = 0;", "DataDigest=None;"),
    ("put(head + 28, s->exp_cmd_sn);", "put(head + 28, s->exp_cmd_sn + 1);", "ExpCmdSN above CmdSN is"),
    ("if (task->came == task->total) {", "if (task->came) {", "the length that was asked for is"),
]


def built(room, name, text):
    """A program from this text."""
    source = Path(f"{room}/{name}.c")
    source.write_text(text)
    subprocess.run(["cc", *WARNINGS, "-o", f"{room}/{name}", source], check=True)
    return f"{room}/{name}"


def said(client, floor):
    """What the client says of a target, or nothing where all is well."""
    port = free_port()
    serving = [floor, str(port), "client", "131072", "262144", "131072"]
    with subprocess.Popen(serving, stdout=subprocess.PIPE, stderr=subprocess.DEVNULL) as target:
        try:
            target.stdout.readline()
            words = ["--size", SIZE, "--places", PLACES, "--depth", 4, "--segment", 131072, "--do", "frw", "--seconds", "0.05"]
            command = [client, "127.0.0.1", port, NAME, "0", *words]
            ran = subprocess.run([str(word) for word in command], capture_output=True, text=True, timeout=60)
        finally:
            target.kill()
    return ran.stderr if ran.returncode else ""


def main():
    failed, floor = 0, (HERE / "floor.c").read_text()
    with tempfile.TemporaryDirectory() as room:
        client = built(room, "client", (HERE / "client.c").read_text())
        for number, (old, new, due) in enumerate(MISTAKES):
            if floor.count(old) < 1:
                sys.exit(f"floor.c has no line {old}")
            seen = said(client, built(room, f"floor{number}", floor.replace(old, new, 1)))
            is_well = due in seen if due else not seen
            failed += not is_well
            print(f"{'passed' if is_well else 'FAILED'}  {new}: {seen.strip() or 'nothing'}", flush=True)
    print(f"{len(MISTAKES) - failed} passed, {failed} failed")
    return 1 if failed else 0


if __name__ == "__main__":
    sys.exit(main())
