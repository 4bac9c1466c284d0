"""A Linux guest with open-iscsi, for tools/guest/run.py: its file system is made of what this machine has.

It wants qemu-system-x86_64, busybox (static), cpio, kmod, open-iscsi, and a kernel with its modules: that of this machine, or one
that the variable KERNEL names, with its modules below MODULES (such as a kernel package that `dpkg -x` unpacked).
"""
import glob
import os
import re
import shutil
import subprocess
import threading

PROGRAMS = ["qemu-system-x86_64", "busybox", "cpio", "modprobe", "depmod", "iscsid", "iscsiadm", "ldd"]
# What is loaded, in this order.
MODULES = ["e1000", "virtio_pci", "virtio_blk", "iscsi_tcp", "sd_mod", "ext4"]
# Programs of this machine that the guest has, and those of busybox that it has not.
COPIED = ["iscsid", "iscsiadm", "mkfs.ext4", "fsck.ext4", "fstrim", "blkdiscard", "lsblk", "sg_reset", "sg_inq", "sg_vpd",
          "sg_opcodes", "sg_verify", "sg_compare_and_write", "sg_unmap", "sg_get_lba_status"]
INITIATOR = "iqn.2026-01.example:guest"
INIT = """#!/bin/busybox sh
/bin/busybox --install -s /bin
export PATH=/bin:/sbin:/usr/bin:/usr/sbin
mount -t proc proc /proc
mount -t sysfs sys /sys
mount -t devtmpfs dev /dev
mkdir -p /run/lock/iscsi /var/lib/iscsi /var/lock /tmp /mnt
for module in $(cat /modules); do insmod $module; done
ifconfig lo 127.0.0.1 up
ifconfig eth0 10.0.2.15 netmask 255.255.255.0 up
iscsid -f > /tmp/iscsid.log 2>&1 &
sleep 1
echo GUEST BEGINS
. /job
echo GUEST ENDS
poweroff -f
"""


class Missing(Exception):
    """What a guest wants is not here."""


def kernel():
    """The kernel, the folder above lib/modules, and the version."""
    image = os.environ.get("KERNEL") or f"/boot/vmlinuz-{os.uname().release}"
    root = os.environ.get("MODULES", "/")
    versions = sorted(glob.glob(f"{root}/lib/modules/*/kernel"))
    if not os.path.exists(image) or not versions:
        raise Missing("no kernel with modules: KERNEL and MODULES name one")
    return image, root, versions[-1].split("/")[-2]


def put(room, path):
    """Copies a file of this machine to the same place of the guest, with the libraries that it wants."""
    if os.path.exists(room + path):
        return
    os.makedirs(os.path.dirname(room + path), exist_ok=True)
    shutil.copy(os.path.realpath(path), room + path)
    wanted = subprocess.run(["ldd", path], capture_output=True, text=True).stdout
    for library in re.findall(r"(/\S+) \(0x", wanted):
        put(room, library)


def modules(root, version):
    """The files of the modules, each behind those that it wants."""
    if not os.path.exists(f"{root}/lib/modules/{version}/modules.dep.bin"):
        subprocess.run(["depmod", "-b", root, version], check=True)
    files = []
    for name in MODULES:
        said = subprocess.run(["modprobe", "-d", root, "-S", version, "--show-depends", name], capture_output=True, text=True, check=True)
        for line in said.stdout.splitlines():
            file = line.split()[1] if line.startswith("insmod") else None
            if file and file not in files:
                files.append(file)
    return files


def make(room, job, initiator, *programs):
    """Makes the archive of a guest that does this job, a shell script, as this initiator, and has these programs of this machine."""
    for name in PROGRAMS:
        if not shutil.which(name):
            raise Missing(f"{name} is not installed")
    _, root, version = kernel()
    folder = f"{room}/root"
    for name in ("bin", "dev", "proc", "sys", "etc/iscsi", "modules.d"):
        os.makedirs(f"{folder}/{name}", exist_ok=True)
    shutil.copy(shutil.which("busybox"), f"{folder}/bin/busybox")
    for name in COPIED:
        if shutil.which(name):
            put(folder, shutil.which(name))
    for program in programs:
        put(folder, program)
    listed = []
    for file in modules(root, version):
        shutil.copy(file, f"{folder}/modules.d/")
        listed.append(f"/modules.d/{os.path.basename(file)}")
    texts = {
        "modules": "\n".join(listed) + "\n",
        "job": job,
        "init": INIT,
        "etc/iscsi/initiatorname.iscsi": f"InitiatorName={initiator}\n",
        "etc/iscsi/iscsid.conf": "node.startup = manual\nnode.session.initial_login_retry_max = 1\nnode.conn[0].timeo.login_timeout = 15\n",
        "etc/passwd": "root:x:0:0:root:/:/bin/sh\n",
    }
    for name, text in texts.items():
        with open(f"{folder}/{name}", "w") as file:
            file.write(text)
    os.chmod(f"{folder}/init", 0o755)
    names = subprocess.run(["find", "."], cwd=folder, capture_output=True, check=True).stdout
    with open(f"{room}/initrd", "wb") as archive:
        subprocess.run(["cpio", "-o", "-H", "newc", "--quiet"], cwd=folder, input=names, stdout=archive, check=True)
    shutil.rmtree(folder)
    return f"{room}/initrd"


def words(initrd, disk=None, memory=512):
    """The words that start a guest of so many MB, which may have a disk: an image file, or a URL that QEMU opens."""
    image, _, _ = kernel()
    found = [
        "qemu-system-x86_64", "-cpu", "max", "-m", str(memory), "-nographic", "-no-reboot", "-kernel", image, "-initrd", initrd,
        "-append", "console=ttyS0 quiet panic=-1 no_timer_check", "-netdev", "user,id=net", "-device", "e1000,netdev=net",
    ]
    return found + (["-drive", f"file={disk},format=raw,if=virtio"] if disk else [])


def told(run_words, seconds):
    """What a guest's job prints."""
    done = subprocess.run(run_words, stdin=subprocess.DEVNULL, stdout=subprocess.PIPE, stderr=subprocess.STDOUT, timeout=seconds)
    text = done.stdout.decode(errors="replace").replace("\r", "")
    if "GUEST BEGINS" not in text:
        raise Missing("the guest does not start: " + text[-400:])
    return text.split("GUEST BEGINS\n", 1)[1].split("GUEST ENDS", 1)[0]


def run(room, job, initiator=INITIATOR, seconds=300):
    """What a guest that does this job prints. The host is 10.0.2.2 to it."""
    return told(words(make(room, job, initiator)), seconds)


def run_with_fio(room, job, disk, seconds=600):
    """What a guest that does this job prints. It has fio, whose libraries are large, and a disk."""
    if not shutil.which("fio"):
        raise Missing("fio is not installed")
    return told(words(make(room, job, INITIATOR, shutil.which("fio")), disk, 1024), seconds)


def lines(room, job, program, disk, seconds=300):
    """The lines of a guest that has a program and a disk, as they come. It is killed where the caller stops to take them."""
    guest_words = words(make(room, job, INITIATOR, program), disk)
    guest = subprocess.Popen(guest_words, stdin=subprocess.DEVNULL, stdout=subprocess.PIPE, stderr=subprocess.STDOUT)
    end = threading.Timer(seconds, guest.kill)
    end.start()
    try:
        for line in guest.stdout:
            yield line.decode(errors="replace").strip()
    finally:
        end.cancel()
        guest.kill()
        guest.wait()
