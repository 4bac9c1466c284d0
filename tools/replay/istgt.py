"""The target istgt (Debian: istgt), over a file."""
import socket
import subprocess
import time
from pathlib import Path

from taps import free_port

ISTGT = """
[Global]
  NodeBase "iqn.2026-01.example"
  PidFile ROOM/istgt.pid
  AuthFile ROOM/auth.conf
  MediaDirectory ROOM
  LogFacility "local7"
  Timeout 60
  NopInInterval 60
  DiscoveryAuthMethod None
  MaxSessions 16
  MaxConnections 1
  MaxR2T 32
  MaxOutstandingR2T 1
  DefaultTime2Wait 2
  DefaultTime2Retain 0
  FirstBurstLength 65536
  MaxBurstLength 262144
  MaxRecvDataSegmentLength 262144
  InitialR2T Yes
  ImmediateData Yes
  DataPDUInOrder Yes
  DataSequenceInOrder Yes
  ErrorRecoveryLevel 0
[UnitControl]
  AuthMethod None
  Portal UC1 127.0.0.1:CONTROL
  Netmask 127.0.0.1
[PortalGroup1]
  Portal DA1 127.0.0.1:PORT
[InitiatorGroup1]
  InitiatorName "ALL"
  Netmask 127.0.0.0/8
[LogicalUnit1]
  TargetName "iqn.2026-01.example:disk"
  Mapping PortalGroup1 InitiatorGroup1
  AuthMethod None
  UseDigest Auto
  UnitType Disk
  QueueDepth 32
  LUN0 Storage DISK auto
"""


class Istgt:
    """istgt, over a file."""

    title, unit, wants = "istgt", 0, ["istgt"]

    def __init__(self, program, room, size):
        self.port = free_port()
        disk = Path(room) / "istgt.img"
        disk.write_bytes(bytes(size))
        Path(room, "auth.conf").touch(mode=0o600)
        text = ISTGT.replace("ROOM", str(room)).replace("CONTROL", str(free_port())).replace("PORT", str(self.port))
        Path(room, "istgt.conf").write_text(text.replace("DISK", str(disk)))
        self.process = subprocess.Popen(["istgt", "-D", "-c", f"{room}/istgt.conf"], stdin=subprocess.DEVNULL,
                                        stdout=subprocess.DEVNULL, stderr=subprocess.DEVNULL)
        self.wait()

    def wait(self):
        """It listens before its disk is ready."""
        for _ in range(50):
            try:
                socket.create_connection(("127.0.0.1", self.port), 1).close()
                time.sleep(1)
                return
            except OSError:
                time.sleep(0.2)
        raise RuntimeError("istgt does not listen")

    def close(self):
        self.process.kill()
        self.process.wait()
