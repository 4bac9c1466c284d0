"""The families of iscsi-test-cu (Debian: libiscsi-bin): what each case says, and the cases that fail or are left out, with the reasons."""
import re
import subprocess
from collections import Counter
from dataclasses import dataclass

# A family that takes longer hangs.
SECONDS = 1800
# This family wants a second path to the disk: the same address again.
TWO_PATHS = "MultipathIO"

# The kinds of disk that a row is about, by their words; a row without any is about all.
MEMORY = ("in memory",)
BARE = ("--plain",)
THICK = ("--file", "--plain")
FULL = ("in memory", "--file")

# Each case that fails, with its reason and kinds of disk.
OTHER_LENGTH = "its WRITEs expect another length than their blocks: 5/24/00 (DECISIONS, Order of refusals)"
NO_LIMITS = "the bare profile has no page b0"
KNOWN = {
    "iSCSIResiduals.Read10Invalid": ("a READ whose PDU says that it writes: 5/24/00 (DECISIONS, Order of refusals)", ()),
    "iSCSIResiduals.Write10Residuals": (OTHER_LENGTH, ()),
    "iSCSIResiduals.Write12Residuals": (OTHER_LENGTH, FULL),
    "iSCSIResiduals.Write16Residuals": (OTHER_LENGTH, ()),
    "iSCSIResiduals.WriteVerify10Residuals": (OTHER_LENGTH, FULL),
    "iSCSIResiduals.WriteVerify12Residuals": (OTHER_LENGTH, FULL),
    "iSCSIResiduals.WriteVerify16Residuals": (OTHER_LENGTH, FULL),
    "iSCSIdatasn.iSCSIDataSnInvalid": ("a wrong DataSN ends the connection; libiscsi sends the command again, with a right one", ()),
    "Inquiry.BlockLimits": (NO_LIMITS, BARE),
    "WriteAtomic16.VPD": (NO_LIMITS, BARE),
    "iSCSITMF.AbortTaskSimpleAsync": ("the bare profile has no task management", BARE),
    "MultipathIO.Reset": ("a reset by one session is no unit attention for another", ()),
}

# What cases say that they leave out, with its reason and kinds of disk. The first ones say that a command is not implemented.
NOT_SERVED = ("the command is not served", ())
NO_HOST = ("the command is not served: no host is known to need it", ())
NOT_BARE = ("the bare profile has not this command", BARE)
NOT_THIN = ("the disk is not thin", THICK)
NOT_REMOVABLE = ("the disk is not removable", ())
NO_BLOCKS = ("a WRITE SAME of no blocks is refused, as page b0 says (WSNZ)", MEMORY)
ABSENT = {
    "READ6": NOT_BARE,
    "READ12": NOT_BARE,
    "WRITE12": NOT_BARE,
    "WRITEVERIFY10": NOT_BARE,
    "WRITEVERIFY12": NOT_BARE,
    "WRITEVERIFY16": NOT_BARE,
    "PREFETCH10": NOT_BARE,
    "PREFETCH16": NOT_BARE,
    "REPORT_SUPPORTED_OPCODES": ("a case takes the 5/24/00 that it asks for as a command that is not there; the bare profile has none", ()),
    "VERIFY10": NOT_BARE,
    "VERIFY12": NOT_BARE,
    "VERIFY16": NOT_BARE,
    "COMPAREANDWRITE": NOT_BARE,
    "UNMAP": NOT_THIN,
    "GET_LBA_STATUS": NOT_THIN,
    "GETLBASTATUS": NOT_THIN,
    "PERSISTENT RESERVE IN": NOT_SERVED,
    "ORWRITE": NO_HOST,
    "WRITEATOMIC16": NO_HOST,
    "READDEFECTDATA10": NO_HOST,
    "READDEFECTDATA12": NO_HOST,
    "EXTENDEDCOPY": NO_HOST,
    "RECEIVECOPYRESULT": NO_HOST,
    "RECEIVE_COPY_RESULTS": NO_HOST,
    "RESERVE6": NO_HOST,
    "MODESENSE6": ("the bare profile has no MODE SENSE", BARE),
    "WRITESAME10": NOT_THIN,
    "WRITESAME16": NOT_THIN,
}
LEFT_OUT = {
    **{f"{command} is not implemented": row for command, row in ABSENT.items()},
    "": ("the case prints nothing, so that nobody sees what it did", ()),
    "PROUT Not Supported": NOT_SERVED,
    "--allow-sanitize flag is not set. Skipping test": ("SANITIZE is not asked for: no host is known to need it", ()),
    "Logical unit is fully provisioned. Skipping test": NOT_THIN,
    "LBPPB < 2. Skipping test": ("a physical block is one logical block", MEMORY),
    "WRITESAME10 does not support 0-blocks": NO_BLOCKS,
    "WRITESAME16 does not support 0-blocks": NO_BLOCKS,
    "LUN is not removable. Skipping test": NOT_REMOVABLE,
    "Logical unit is not removable. Skipping test": NOT_REMOVABLE,
    "Media is not removable": NOT_REMOVABLE,
    "Logical unit is not write-protected. Skipping test": ("the disk takes writes", ()),
}


@dataclass
class Case:
    """A case, and why it skipped something: one text for each [SKIPPED], or "" if it printed nothing."""

    name: str
    failed: bool
    skips: list

    @property
    def outcome(self):
        return "failed" if self.failed else "skipped" if self.skips else "passed"


def families():
    """The names of all families that iscsi-test-cu has."""
    listed = subprocess.run(["iscsi-test-cu", "--list"], stdout=subprocess.PIPE, text=True, check=True).stdout
    return re.findall(r"^ALL\.([^.\n]+)$", listed, re.M)


def words_of(family, url):
    """The words that run a family at a target."""
    return ["iscsi-test-cu", "--dataloss", "--Verbose-scsi", f"--test=ALL.{family}", url, *([url] if family == TWO_PATHS else [])]


def cases_of(family, url):
    """The cases of a family at a target. What can't be read raises ValueError."""
    ran = subprocess.run(words_of(family, url), stdin=subprocess.DEVNULL, stdout=subprocess.PIPE, stderr=subprocess.STDOUT, timeout=SECONDS)
    text = ran.stdout.decode(errors="replace")
    said, _, summary = text.partition("Run Summary:")
    cases = [case_of(family, *found) for found in re.findall(r"^  Test: (\S+) \.\.\.(.*?)(?=^  Test: |\Z)", said, re.M | re.S)]
    counts = re.search(r"^ +tests +[0-9]+ +([0-9]+) +[0-9]+ +([0-9]+)", summary, re.M)
    if not cases or not counts or (len(cases), sum(case.failed for case in cases)) != (int(counts[1]), int(counts[2])):
        raise ValueError(f"what iscsi-test-cu says of {family} can't be read: status {ran.returncode}, {text[-200:]!r}")
    return cases


def case_of(family, name, said):
    """A case, of what it said. Behind its outcome stand the faults of its checks, and what the tool does in the end."""
    ended = re.search(r"^(passed|FAILED)", said, re.M)
    if not ended:
        raise ValueError(f"{family}.{name} has no outcome: {said[-200:]!r}")
    told = said[:ended.start()]
    skips = list(dict.fromkeys(plain(skip) for skip in re.findall(r"\[SKIPPED\](.*)", told)))
    return Case(f"{family}.{name}", ended[1] == "FAILED", skips if told.strip() else [""])


def plain(skip):
    """What a case leaves out, in one form of words."""
    return re.sub(r" on( this)? target$", "", " ".join(skip.split()).rstrip("."))


def counted(cases):
    """How many cases passed, were skipped and failed, in words."""
    counts = Counter(case.outcome for case in cases)
    return ", ".join(f"{counts[outcome]} {outcome}" for outcome in ("passed", "skipped", "failed"))


def is_known(table, key, kind):
    """Whether a table has a row for a kind of disk."""
    return key in table and kind in (table[key][1] or (kind,))


def faults(cases, kind):
    """What is not as the tables say, of cases that were tried with a kind of disk."""
    for case in cases:
        known = is_known(KNOWN, case.name, kind)
        if case.failed and not known:
            yield f"{case.name} fails, and the table has no reason"
        if known and not case.failed:
            yield f"{case.name} is said to fail ({KNOWN[case.name][0]}), and is {case.outcome}: its row has to go"
        for skip in case.skips if not case.failed else []:
            if not is_known(LEFT_OUT, skip, kind):
                yield f"{case.name} leaves out something, and the table has no reason for: {skip}"


def stale(tried):
    """The rows for what no case leaves out, of the cases that were tried with each kind of disk. Cases that fail don't count."""
    left = {kind: {skip for case in cases if not case.failed for skip in case.skips} for kind, cases in tried.items()}
    for skip, (_, kinds) in LEFT_OUT.items():
        if kinds and any(skip not in left[kind] for kind in kinds) or not any(skip in skips for skips in left.values()):
            yield f"no case says any more, with {' and '.join(kinds) or 'any disk'}: {skip or '(nothing)'}; its row has to go"
