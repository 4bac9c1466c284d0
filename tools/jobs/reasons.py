"""The reasons for differences between what was recorded at tgt and what targets answer in a replay: a row for each kind."""
import re

EACH = ("tgt", "istgt", "serve")
# The commands that a target has not, each with a row of its own, so that one that comes takes its row along.
SERVE_LACKS = (
    "EXTENDED COPY", "MODE SELECT(6)", "ORWRITE", "PERSISTENT RESERVE IN", "PERSISTENT RESERVE OUT", "READ DEFECT DATA(10)",
    "READ DEFECT DATA(12)", "RECEIVE COPY RESULTS", "RELEASE(6)", "RESERVE(6)", "WRITE ATOMIC(16)",
)
ISTGT_LACKS = ("GET LBA STATUS", "ORWRITE", "PREFETCH(10)", "PREFETCH(16)", "REPORT SUPPORTED OPERATION CODES")
BESIDE = "in the recording another session was beside this one; here they are done one after another"
THIN = "serve's disk in memory is thin, and tgt's is not"
OWN = "each target tells its own names, numbers, limits and pages"

# Families, targets, a pattern for the whole kind, and the reason. The first row that fits has the reason.
ANY = ".*"
SIDE_BY_SIDE = "MultipathIO|Reserve6|Prout.*"
ROWS = [
    *((ANY, ("serve",), rf"{re.escape(command)}: .*, now check 5/20/00( .*)?", "serve has not this command") for command in SERVE_LACKS),
    *((ANY, ("istgt",), rf"{re.escape(command)}: .*, now check 5/20/00( .*)?", "istgt has not this command") for command in ISTGT_LACKS),
    (ANY, ("istgt", "serve"), r"(INQUIRY|MODE SENSE\(6\)|READ CAPACITY\(16\)): good, now good with .*", OWN),
    (ANY, ("serve",), r"REPORT SUPPORTED OPERATION CODES: .*", OWN),
    # Sessions side by side.
    (SIDE_BY_SIDE, EACH, r"(READ|WRITE)\(10\): status 18, now good", BESIDE),
    (SIDE_BY_SIDE, EACH, r"(TEST UNIT READY|RESERVE\(6\)): status 18, now good", BESIDE),
    (SIDE_BY_SIDE, EACH, r"TEST UNIT READY: check 6/(2a/03|29/00), now good", BESIDE),
    ("MultipathIO", EACH, r"READ\(10\): good, now good with other data", BESIDE),
    (SIDE_BY_SIDE, ("tgt", "istgt"), r"PERSISTENT RESERVE IN: check 6/(2a/04|29/00), now good", BESIDE),
    (SIDE_BY_SIDE, ("tgt", "istgt"), r"PERSISTENT RESERVE IN: good, now good with .*", f"{BESIDE}: other keys are there, and other generations"),
    # serve.
    ("iSCSIResiduals", ("serve",), r"(WRITE|WRITE AND VERIFY)\((10|12|16)\): good, now check 5/24/00",
     "another expected length than that of the blocks is refused"),
    ("iSCSIResiduals", ("serve",), r"READ\((10|12|16)\): good, now good with other data", "the WRITE before it was refused"),
    ("iSCSIResiduals", ("serve",), r"READ\(10\): good, now check 5/24/00", "a READ that is said to write is refused"),
    ("OrWrite", ("serve", "istgt"), r"READ\((10|16)\): good, now good with other data", "the ORWRITE before it was refused"),
    ("ModeSense6", ("serve", "istgt"), r"WRITE\(10\): check 7/27/00, now good", "MODE SELECT(6), which asked for write protection, did not set it"),
    ("Verify.*", ("serve",), r"VERIFY\((10|12|16)\): check (5/21/00|5/24/00), now check \2 with another residual count",
     "tgt counts no residual where it refuses a VERIFY"),
    ("Verify.*", ("serve",), r"VERIFY\((10|12|16)\): check e/1d/00, now check e/1d/00 with another residual count and other sense data",
     "tgt counts no residual behind a miscompare, and does not tell where it is"),
    ("GetLBAStatus", ("serve",), r"GET LBA STATUS: check 5/21/00, now check 5/21/00 with another residual count", "tgt sends data beside this refusal"),
    ("GetLBAStatus", ("serve",), r"GET LBA STATUS: good, now check 5/21/00", "the block behind the last one is out of range"),
    ("Unmap", ("serve",), r"UNMAP: check 5/20/00, now good", THIN),
    ("WriteSame.*", ("serve",), r"WRITE SAME\((10|16)\): check 5/24/00, now good", THIN),
    ("WriteSame.*", ("serve",), r"WRITE SAME\((10|16)\): (good|check 5/21/00), now check 5/24/00", "serve's page b0 has WSNZ: no blocks are refused first"),
    # istgt.
    (ANY, ("istgt",), r".*: (check \S+), now \1 with (another residual count and )?other sense data", "istgt sets other bytes in sense data (f0 in byte 0)"),
    (ANY, ("istgt",), r".*: (check \S+|good), now status 02", "istgt gives CHECK CONDITION without sense data"),
    (ANY, ("istgt", "serve"), r"COMPARE AND WRITE: check 5/20/00, now (good|check e/1d/00)", "this target has the command, and tgt has not"),
    ("CompareAndWrite", ("istgt", "serve"), r"READ\(10\): good, now good with other data", "the COMPARE AND WRITE before it was done"),
    ("WriteSame.*", ("istgt",), r"WRITE SAME\((10|16)\): check 5/24/00, now good", "istgt passes over WRPROTECT, and over UNMAP"),
    ("Verify.*", ("istgt",), r"VERIFY\((10|12|16)\): check (5/21/00|5/24/00|e/1d/00), now good", "istgt compares nothing, and looks at no range"),
    ("Verify.*", ("istgt",), r"VERIFY\((10|12|16)\): good, now good with another residual count", "istgt counts the bytes to compare as residual"),
    (ANY, ("istgt",), r"(INQUIRY|PERSISTENT RESERVE IN): check 5/24/00, now good", "istgt has this page or service action, and tgt has not"),
    (ANY, ("istgt",), r"PERSISTENT RESERVE IN: good, now good with .*", "istgt tells other reservations than tgt, and its own capabilities"),
    (SIDE_BY_SIDE, ("istgt",), r"(PERSISTENT RESERVE OUT|READ\(10\)|WRITE\(10\)|RESERVE\(6\)): good, now status 18",
     "istgt keeps the reservation of a session that is over"),
    (SIDE_BY_SIDE, ("istgt",), r"PERSISTENT RESERVE OUT: (status 18, now good|good, now check 5/26/04)",
     "istgt keeps the reservation of a session that is over"),
    (SIDE_BY_SIDE, ("istgt",), r"RELEASE\(6\): good, now check 4/44/00", "istgt keeps the reservation of a session that is over"),
    (ANY, ("istgt",), r"(READ|WRITE).*: the replay ends: the target does not answer", "istgt does not answer one that moves no bytes"),
    (ANY, ("istgt",), r"a logout: the replay ends: the target closed the connection", "istgt closes now and then before its Logout Response"),
]


def reason_for(target, family, kind):
    """The row for a kind of difference of a family at a target, and its reason; None twice if there is none."""
    for row in ROWS:
        families, targets, pattern, reason = row
        if target in targets and re.fullmatch(families, family) and re.fullmatch(pattern, kind):
            return row, reason
    return None, None
