"""The differences that `replay --all` prints, as kinds: a command, its outcome in the recording, and its outcome now."""
import re

# Operation codes by SPC-4 and SBC-3, and those with service actions by both numbers.
NAMES = {
    "00": "TEST UNIT READY", "03": "REQUEST SENSE", "08": "READ(6)", "0a": "WRITE(6)", "12": "INQUIRY", "15": "MODE SELECT(6)",
    "16": "RESERVE(6)",
    "17": "RELEASE(6)", "1a": "MODE SENSE(6)", "1b": "START STOP UNIT", "1e": "PREVENT ALLOW", "25": "READ CAPACITY(10)", "28": "READ(10)",
    "2a": "WRITE(10)", "2e": "WRITE AND VERIFY(10)", "2f": "VERIFY(10)", "34": "PREFETCH(10)", "35": "SYNCHRONIZE CACHE(10)",
    "37": "READ DEFECT DATA(10)", "41": "WRITE SAME(10)", "42": "UNMAP", "48": "SANITIZE", "5e": "PERSISTENT RESERVE IN",
    "5f": "PERSISTENT RESERVE OUT", "83": "EXTENDED COPY", "84": "RECEIVE COPY RESULTS", "88": "READ(16)", "89": "COMPARE AND WRITE",
    "8a": "WRITE(16)", "8b": "ORWRITE", "8e": "WRITE AND VERIFY(16)", "8f": "VERIFY(16)", "90": "PREFETCH(16)", "91": "SYNCHRONIZE CACHE(16)",
    "93": "WRITE SAME(16)", "9c": "WRITE ATOMIC(16)", "9e/10": "READ CAPACITY(16)", "9e/12": "GET LBA STATUS", "a0": "REPORT LUNS",
    "a3/0c": "REPORT SUPPORTED OPERATION CODES", "a8": "READ(12)", "aa": "WRITE(12)", "ae": "WRITE AND VERIFY(12)", "af": "VERIFY(12)",
    "b7": "READ DEFECT DATA(12)",
}
# Requests that stand in a job by another word than `command`.
WORDS = {
    "tur": "TEST UNIT READY", "inquiry": "INQUIRY", "capacity": "READ CAPACITY(10)", "capacity16": "READ CAPACITY(16)", "luns": "REPORT LUNS",
    "read": "READ(16)", "write": "WRITE(16)", "sync": "SYNCHRONIZE CACHE(10)", "ping": "a ping", "text": "a text", "logout": "a logout",
    "task": "task management",
}


# The line of a request in a job, whose first line names the form.
REQUEST = r"^(?!job 2$)[a-z].*"


def command_of(line):
    """The name of the command that a line of a job asks."""
    words = line.split()
    if words[0] != "command":
        return WORDS.get(words[0], words[0])
    code, action = words[2][:2], int(words[2][2:4] or "0", 16) & 0x1F
    return NAMES.get(code) or NAMES.get(f"{code}/{action:02x}") or f"operation code {code}"


def outcome_of(line):
    """An outcome without its data: 'good', 'check K/AA/QQ', 'status SS', or what else it says."""
    words = line.split()[1:]
    if words[:2] == ["status", "02"] and words[2:3] == ["sense"]:
        sense = bytes.fromhex(words[3])
        key, code = (sense[1:2], sense[2:4]) if sense[0] & 0x7F in (0x72, 0x73) else (sense[2:3], sense[12:14])
        return f"check {key[0] & 0xF if key else 0:x}/{code[:1].hex() or '00'}/{code[1:2].hex() or '00'}"
    return "good" if words[0] == "good" else " ".join(words[:2])


def parts_of(line):
    """The residual count, the sense data and the data of an outcome, as texts."""
    found = [re.search(pattern, line) for pattern in (r" (?:under|over) [0-9]+", r" sense [0-9a-f]*", r" data .*")]
    return [part[0] if part else "" for part in found]


def kind_of(request, was, now):
    """The kind of a difference, as one text."""
    before, after = outcome_of(was), outcome_of(now)
    if before == after:
        names = ("another residual count", "other sense data", "other data")
        pairs = zip(names, parts_of(was), parts_of(now))
        # Data beside a status other than GOOD are shown, and not compared.
        others = [name for name, one, other in pairs if one != other and not (name == names[2] and before != "good")]
        after += f" with {' and '.join(others) or 'other words'}"
    return f"{command_of(request)}: {before}, now {after}"


def differences(told):
    """The kinds of all differences in what `replay --all` prints."""
    found = re.findall(r"^request [0-9]+: (.*)\n +(was .*)\n +(now .*)$", told, re.M)
    return [kind_of(*difference) for difference in found]


def ending(job, told):
    """The kind of what ended a replay before its last request: its request, and the fault."""
    fault = told.strip().splitlines()[-1] if told.strip() else "no word"
    found = re.search(r"request ([0-9]+): (.*)", fault)
    if not found:
        return f"the replay ends: {fault}"
    requests = re.findall(REQUEST, job, re.M)
    at, why = int(found[1]), re.sub(r" \(before .*| at [0-9.:]+$", "", found[2])
    return f"{command_of(requests[at - 1]) if at <= len(requests) else 'a request'}: the replay ends: {why}"
