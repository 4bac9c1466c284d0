#!/usr/bin/env python3
"""Tries `serve` with Linux in a guest: by open-iscsi there, and as a disk that QEMU has.

    tools/guest/run.py [--only WORD] [--times N] [PROGRAM]

PROGRAM is crates/lanthovur/out/lanthovur if none is named; `./lanthovur </dev/null` builds it. The guest is made of what this
machine has (Debian: qemu-system-x86, qemu-block-extra, busybox-static, cpio, kmod, open-iscsi, fio) and of a kernel with its
modules: that of this machine, or what the variables KERNEL and MODULES name, such as boot/vmlinuz-* and the folder above
lib/modules of a kernel package that `dpkg -x` unpacked. Without one of them each case is skipped, with a word. The last line is
'N passed, M failed, K skipped'. It takes six minutes. Each case runs N times, and --only names one by a word of its name.
"""
import argparse
import os
import random
import re
import socket
import subprocess
import sys
import tempfile
import time

sys.path.insert(0, os.path.dirname(os.path.abspath(__file__)))
import guest  # noqa: E402

TOP = os.path.dirname(os.path.dirname(os.path.dirname(os.path.abspath(__file__))))
TARGET = "iqn.2026-01.example:disk"
ALICE, DISK = "0aVJt9oCrFPqzPaR", "7fTQyM3kWb1LxHnE"
SECRETS = f"user alice {ALICE}\ntarget disk {DISK}\n"

# What each job begins with: `node` is iscsiadm for the disk, `record` makes its record with some values, and `try` logs in by it.
TOOLS = """
TARGET=%s
PORTAL=10.0.2.2:%d
node() { iscsiadm -m node -T $TARGET -p $PORTAL "$@"; }
record() {
    node -o new > /dev/null
    while [ $# -gt 0 ]; do node -o update -n "$1" -v "$2" > /dev/null; shift 2; done
}
has_disk() { for n in 1 2 3 4 5 6 7 8; do [ -b /dev/sda ] && return 0; sleep 1; done; return 1; }
lasts() {
    head -c 1048576 /dev/urandom > /tmp/written
    dd if=/tmp/written of=/dev/sda bs=64k oflag=direct 2> /dev/null
    dd if=/dev/sda of=/tmp/read bs=64k count=16 iflag=direct 2> /dev/null
    cmp /tmp/written /tmp/read
}
keeps_files() {
    data=none
    head -c 4194304 /dev/urandom > /tmp/file
    mkfs.ext4 -q -F $1 && mount $1 /mnt && dd if=/tmp/file of=/mnt/file conv=fsync 2> /dev/null && umount /mnt \\
        && fsck.ext4 -fn $1 > /tmp/said 2>&1 && mount $1 /mnt && cmp /tmp/file /mnt/file && umount /mnt && data=same
}
try() {
    name=$1; shift
    record "$@"
    node --login > /tmp/said 2>&1; status=$?
    data=none
    [ $status -eq 0 ] && has_disk && lasts && data=same
    echo "RESULT $name $status $data"
    node --logout > /dev/null 2>&1
    node -o delete > /dev/null 2>&1
    sleep 1
}
"""
CHAP = f"""
AUTH=node.session.auth
one() {{ echo $AUTH.authmethod CHAP $AUTH.username $1 $AUTH.password $2; }}
both() {{ echo $(one alice {ALICE}) $AUTH.username_in $1 $AUTH.password_in $2; }}
try no_secret
try one_way $(one alice {ALICE})
try mutual $(both disk {DISK})
try wrong_secret $(one alice {DISK})
try wrong_name $(one carol {ALICE})
try wrong_target $(both disk {ALICE})
"""
# What iscsiadm returns: 0, 24 for a login that the target refuses, 19 for one that the initiator gives up.
CHAP_RESULTS = {
    "no_secret": ("24", "none"),
    "one_way": ("0", "same"),
    "mutual": ("0", "same"),
    "wrong_secret": ("24", "none"),
    "wrong_name": ("24", "none"),
    "wrong_target": ("19", "none"),
}
# What iscsiadm finds by discovery, and the disk by the record that it made then.
DISCOVERY = """
iscsiadm -m discovery -t sendtargets -p $PORTAL > /tmp/found 2> /tmp/said; status=$?
data=none
[ "$(cat /tmp/found)" = "$PORTAL,1 $TARGET" ] && node --login > /tmp/said 2>&1 && has_disk && lasts && data=same
cat /tmp/found /tmp/said
echo "RESULT discovery $status $data"
"""
# What Linux makes of a disk: its serial number and kind of cache, a file system, resets of unit and target, which are well done if
# the session goes on, and a reset while something writes.
DISK_JOB = """
record
node --login > /tmp/said 2>&1 && has_disk
echo "RESULT serial $(tail -c +5 /sys/block/sda/device/vpd_pg80) $(cat /sys/class/scsi_disk/*/cache_type | tr ' ' _)"
keeps_files /dev/sda
echo "RESULT files $? $data"
anew() { dmesg | grep -q 'detected conn error' && echo anew || echo stays; }
dmesg -c > /dev/null
sg_reset -d /dev/sda > /tmp/said 2>&1; unit=$?
sg_reset -t /dev/sda > /tmp/said 2>&1; target=$?
echo "RESULT resets $unit$target $(anew)"
head -c 33554432 /dev/urandom > /tmp/big
dd if=/tmp/big of=/dev/sda bs=1M oflag=direct 2> /tmp/said & writer=$!
sg_reset -d /dev/sda > /tmp/said 2>&1; unit=$?
wait $writer; status=$?
data=none
dd if=/dev/sda of=/tmp/read bs=1M count=32 iflag=direct 2> /dev/null
cmp /tmp/big /tmp/read && data=same
dmesg
echo "RESULT in_write $unit$status $data"
"""
# What Linux makes of a disk with a write cache: it says so, and flushes for a file system.
CACHE_JOB = """
record
node --login > /tmp/said 2>&1 && has_disk
echo "RESULT cache $(cat /sys/class/scsi_disk/*/FUA) $(cat /sys/class/scsi_disk/*/cache_type | tr ' ' _)"
keeps_files /dev/sda
set -- $(cat /sys/block/sda/stat)
[ ${16} -gt 0 ] && flushed=flushed
echo "RESULT files $flushed $data"
"""
# What Linux makes of a thin disk: mkfs and fstrim discard blocks of it, by UNMAP, and blkdiscard all of them.
THIN_JOB = """
record
node --login > /tmp/said 2>&1 && has_disk
echo "RESULT thin $(cat /sys/class/scsi_disk/*/thin_provisioning) $(cat /sys/class/scsi_disk/*/provisioning_mode)"
discarded() { set -- $(cat /sys/block/sda/stat); echo $((${14} / 2048)); }
head -c 16777216 /dev/urandom > /tmp/file
data=none
mkfs.ext4 -q -F /dev/sda; made=$(discarded)
mount /dev/sda /mnt && cp /tmp/file /mnt/gone && cp /tmp/file /mnt/file && sync && rm /mnt/gone && sync && fstrim /mnt && umount /mnt \\
    && fsck.ext4 -fn /dev/sda > /tmp/said 2>&1 && mount /dev/sda /mnt && cmp /tmp/file /mnt/file && umount /mnt && data=same
trimmed=$(($(discarded) - made))
[ $made -ge 48 ] && made=most
[ $trimmed -ge 32 ] && trimmed=most
echo "RESULT trims $made$trimmed $data"
blkdiscard /dev/sda; status=$?
data=none
head -c 67108864 /dev/zero > /tmp/zeros && dd if=/dev/sda of=/tmp/read bs=1M iflag=direct 2> /dev/null; cmp /tmp/zeros /tmp/read && data=zeros
dmesg | grep -i 'sda.*error'
echo "RESULT discards $status $data"
"""
# What sg3-utils make of the commands that are no READ and no WRITE: the status of each, 14 where bytes differ.
COMMANDS_JOB = """
record
node --login > /tmp/said 2>&1 && has_disk
head -c 512 /dev/urandom > /tmp/one
head -c 512 /dev/urandom > /tmp/two
cat /tmp/one /tmp/two > /tmp/both
cat /tmp/two /tmp/one > /tmp/back
block() { dd if=/dev/sda bs=512 skip=$1 count=1 iflag=direct 2> /dev/null; }
dd if=/tmp/one of=/dev/sda bs=512 seek=7 oflag=direct 2> /dev/null
data=none
sg_opcodes /dev/sda > /tmp/said 2>&1; status=$?
grep -q 'Compare and write' /tmp/said && grep -q -i 'unmap' /tmp/said && grep -q 'Verify(16)' /tmp/said && data=all
cat /tmp/said
echo "RESULT opcodes $status $data"
sg_verify --lba=0 --count=64 /dev/sda > /tmp/said 2>&1; range=$?
sg_verify --lba=7 --count=1 --ndo=512 --in=/tmp/one /dev/sda > /tmp/said 2>&1; alike=$?
sg_verify --lba=7 --count=1 --ndo=512 --in=/tmp/two /dev/sda > /tmp/said 2>&1; other=$?
echo "RESULT verify $range,$alike,$other done"
data=none
sg_compare_and_write --lba=7 --num=1 --xferlen=1024 --in=/tmp/both /dev/sda > /tmp/said 2>&1; alike=$?
sg_compare_and_write --lba=7 --num=1 --xferlen=1024 --in=/tmp/both /dev/sda > /tmp/said 2>&1; other=$?
block 7 | cmp - /tmp/two && data=second
echo "RESULT compares $alike,$other $data"
data=none
sg_unmap --lba=4 --num=8 /dev/sda > /tmp/said 2>&1; status=$?
head -c 512 /dev/zero > /tmp/zeros
block 7 | cmp - /tmp/zeros && data=zeros
echo "RESULT unmaps $status $data"
data=none
sg_get_lba_status --lba=0 /dev/sda > /tmp/said 2>&1; status=$?
cat /tmp/said
grep -q 'mapped' /tmp/said && data=mapped
echo "RESULT maps $status $data"
"""
# A guest whose disk QEMU has from `serve`, and gives back what the guest discards.
DISCARD_JOB = """
head -c 16777216 /dev/urandom > /tmp/big
dd if=/tmp/big of=/dev/vda bs=1M oflag=direct 2> /tmp/said
blkdiscard /dev/vda; status=$?
data=none
head -c 16777216 /dev/zero > /tmp/zeros && dd if=/dev/vda of=/tmp/read bs=1M count=16 iflag=direct 2> /dev/null; cmp /tmp/zeros /tmp/read && data=zeros
echo "RESULT discards $status $data"
"""
# A guest that serves its own disk, and writes records of 4 KiB through it: each is flushed before it is told.
RECORDS_JOB = """
%s serve --file /dev/vda --write-back > /tmp/service &
for n in 1 2 3 4 5 6 7 8; do grep -q listening /tmp/service && break; sleep 1; done
record
node --login > /tmp/said 2>&1 && has_disk
n=0
while true; do
    n=$((n + 1))
    yes "record $n" | head -c 4096 > /tmp/block
    dd if=/tmp/block of=/dev/sda bs=4096 seek=$n oflag=direct conv=notrunc,fsync 2> /dev/null && echo "FLUSHED $n"
done
"""
RECORD = 4096
# A guest whose disk QEMU has from `serve`: it is written in large pieces, many at a time, and holds a file system.
LARGE_JOB = """
data=none
fio --name=large --filename=/dev/vda --size=64M --bs=1M --iodepth=32 --rw=write --ioengine=libaio --direct=1 --verify=crc32c > /tmp/said 2>&1
status=$?
grep -q 'err= 0' /tmp/said && data=same || cat /tmp/said
echo "RESULT fio $status $data"
data=none
head -c 67108864 /dev/urandom > /tmp/big
dd if=/tmp/big of=/dev/vda bs=16M oflag=direct 2> /tmp/said; status=$?
dd if=/dev/vda of=/tmp/read bs=16M count=4 iflag=direct 2>> /tmp/said && cmp /tmp/big /tmp/read && data=same || cat /tmp/said
echo "RESULT dd $status $data"
rm /tmp/big /tmp/read
keeps_files /dev/vda
echo "RESULT files $? $data"
echo "RESULT errors $(dmesg | grep -ci 'error.*vda\|vda.*error') none"
"""


class Service:
    """`serve` with these words, in which PORT is its port, and which ends with the block."""

    def __init__(self, program, *words):
        with socket.create_server(("127.0.0.1", 0)) as other:
            self.port = other.getsockname()[1]
        words = [word.replace("PORT", str(self.port)) for word in words]
        words = [program, "serve", "--size", "64M", "--port", str(self.port), *words]
        self.process = subprocess.Popen(words, stdin=subprocess.DEVNULL, stdout=subprocess.PIPE, stderr=subprocess.DEVNULL)
        if self.process.stdout.readline() != b"listening\n":
            raise OSError("the service did not start")

    def __enter__(self):
        return self

    def __exit__(self, *_):
        self.process.kill()
        self.process.wait()


def found(text):
    """The results that a job tells, by their names."""
    return {name: (status, data) for name, status, data in re.findall(r"RESULT (\S+) (\S+) (\S+)", text)}


def results(room, port, job):
    """The results that a job tells of the service at this port, and all that it printed."""
    text = guest.run(room, TOOLS % (TARGET, port) + job)
    return found(text), text


def logs_in_by_secret(program, room):
    """open-iscsi logs in by CHAP, one-way and mutual, and what it writes is read; with another secret, another name, or none, it is refused."""
    path = f"{room}/secrets"
    with open(path, "w") as file:
        file.write(SECRETS)
    os.chmod(path, 0o600)
    with Service(program, "--chap", path) as service:
        seen, text = results(room, service.port, CHAP)
    return seen == CHAP_RESULTS or (seen, text[-2000:])


def finds_the_portal(program, room):
    """iscsiadm finds the target at the portal that is told, and logs in there."""
    with Service(program, "--portal", "10.0.2.2:PORT") as service:
        seen, text = results(room, service.port, DISCOVERY)
    return seen == {"discovery": ("0", "same")} or (seen, text[-2000:])


def keeps_a_disk(program, room):
    """Linux knows a disk with a serial number, has a file system on it, resets it in the same session, and loses nothing by a reset while it writes."""
    with Service(program, "--serial", "disk-7") as service:
        seen, text = results(room, service.port, DISK_JOB)
    due = {"serial": ("disk-7", "write_through"), "files": ("0", "same"), "resets": ("00", "stays"), "in_write": ("00", "same")}
    return seen == due or (seen, text[-4000:])


def flushes(program, room):
    """Linux knows that a disk has a write cache, and flushes it for the files of a file system."""
    image = f"{room}/image"
    with Service(program, "--file", image, "--create", "--write-back") as service:
        seen, text = results(room, service.port, CACHE_JOB)
    due = {"cache": ("1", "write_back"), "files": ("flushed", "same")}
    return seen == due or (seen, text[-4000:])


def trims(program, room):
    """Linux discards what mkfs and fstrim name, and all of a disk; what is left reads as it was, and the others as zeros."""
    with Service(program) as service:
        seen, text = results(room, service.port, THIN_JOB)
    due = {"thin": ("1", "unmap"), "trims": ("mostmost", "same"), "discards": ("0", "zeros")}
    return seen == due or (seen, text[-4000:])


def keeps_what_was_flushed(program, room):
    """A guest that serves its own disk with a write cache is killed while it writes; each record that it said to be flushed is on the disk."""
    image, due, told = f"{room}/image", random.randint(10, 60), 0
    with open(image, "wb") as file:
        file.truncate(1 << 26)
    job = TOOLS.replace("10.0.2.2", "127.0.0.1") % (TARGET, 3260) + RECORDS_JOB % program
    for line in guest.lines(room, job, program, image):
        if line.startswith("FLUSHED"):
            told = int(line.split()[1])
            if told == due:
                time.sleep(random.random() / 20)
                break
    with open(image, "rb") as file:
        held = file.read()
    lost = [n for n in range(1, told + 1) if held[RECORD * n : RECORD * (n + 1)] != (b"record %d\n" % n * RECORD)[:RECORD]]
    return told == due and not lost or (told, lost)


def keeps_what_qemu_writes(program, room):
    """A guest writes a disk that QEMU has from `serve` by 1 MiB with 32 outstanding, by 16 MiB and as ext4, and reads the same."""
    image = f"{room}/image"
    with Service(program, "--file", image, "--create") as service:
        text = guest.run_with_fio(room, TOOLS % (TARGET, 0) + LARGE_JOB, f"iscsi://127.0.0.1:{service.port}/{TARGET}/0")
    seen = found(text)
    due = {"fio": ("0", "same"), "dd": ("0", "same"), "files": ("0", "same"), "errors": ("0", "none")}
    return seen == due or (seen, text[-4000:])


def does_other_commands(program, room):
    """sg3-utils find VERIFY, COMPARE AND WRITE, UNMAP and GET LBA STATUS in the list of commands, and each does what it is for."""
    with Service(program) as service:
        seen, text = results(room, service.port, COMMANDS_JOB)
    due = {
        "opcodes": ("0", "all"), "verify": ("0,0,14", "done"), "compares": ("0,14", "second"), "unmaps": ("0", "zeros"),
        "maps": ("0", "mapped"),
    }
    return seen == due or (seen, text[-4000:])


def discards_through_qemu(program, room):
    """What a guest discards of a virtio disk, QEMU gives back: it reads as zeros."""
    with Service(program) as service:
        disk = f"iscsi://127.0.0.1:{service.port}/{TARGET}/0,discard=unmap"
        text = guest.told(guest.words(guest.make(room, TOOLS % (TARGET, 0) + DISCARD_JOB, guest.INITIATOR), disk), 300)
    seen = found(text)
    return seen == {"discards": ("0", "zeros")} or (seen, text[-4000:])


CASES = [logs_in_by_secret, finds_the_portal, keeps_a_disk, flushes, trims, does_other_commands, keeps_what_was_flushed, keeps_what_qemu_writes,
         discards_through_qemu]


def outcome_of(case, program):
    """How one run of a case ended, and what is said of it."""
    with tempfile.TemporaryDirectory() as room:
        try:
            seen = case(program, room)
            return ("passed", "") if seen is True else ("failed", seen)
        except guest.Missing as missing:
            return "skipped", missing


def read_words():
    parser = argparse.ArgumentParser(description=__doc__, formatter_class=argparse.RawDescriptionHelpFormatter)
    parser.add_argument("program", nargs="?", default=f"{TOP}/crates/lanthovur/out/lanthovur", help="the program that serves")
    parser.add_argument("--only", default="", help="the cases whose name has this word")
    parser.add_argument("--times", type=int, default=1, help="how often each case runs")
    return parser.parse_args()


def main():
    words = read_words()
    counts = {"passed": 0, "failed": 0, "skipped": 0}
    for case in [case for case in CASES if words.only in case.__name__] * words.times:
        began = time.monotonic()
        outcome, more = outcome_of(case, os.path.abspath(words.program))
        counts[outcome] += 1
        print(f"{outcome:8} {time.monotonic() - began:4.0f} s  {case.__doc__} {more}", flush=True)
    print(", ".join(f"{count} {outcome}" for outcome, count in counts.items()))
    return 1 if counts["failed"] else 0


if __name__ == "__main__":
    sys.exit(main())
