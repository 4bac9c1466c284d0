#!/usr/bin/env python3
"""Holds documents and wrong bodies against the tree, in a few seconds. It proves nothing and is no part of the gate.

    tools/check_docs/check_docs.py [--lengths]

It looks at:
- links of all pages: the file is there, and has the heading;
- files that pages name between backquotes: they are there, below the top, crates/, the page's folder or some crate;
- Rust between fences: it stands so in a file of crates/;
- each row of docs/THEOREMS.md: the call stands in a file of its row, and a call of the row has each clause;
- each public call with two clauses or more, but in crates of tests: some row of docs/THEOREMS.md names it;
- the tables of docs/FORMATS.md: the fields of each kind of PDU against specs/Fields.antt, specs/Meaning.antt and the
  words of `show`; the text keys against both specs/Key.antt; the copy of the page that crates/format_tables holds
  against the code in the gate (rt ci takes no link in the place of a file);
- the figures of docs/TRUST.md: they are those that tools/reach counts;
- wrong bodies, in the gate and beside it: each old text stands in its file once;
- the table of promises in docs/GATE.md: it names each wrong body of the gate, with its crate, and no other;
- proof files that tools/wrong_bodies/answers wrote: the wrong bodies that they name stand in the gate;
- src/asserts.rt of the test crates: what several of them have is one text;
- other helpers that stand in several test crates: each is one text, wherever it stands;
- the names of definitions: no two have one name;
- the lengths of sentences and of table cells: those of the pages in PLAIN are within the limits of docs/STYLE.md.

It counts the longer ones of all pages in a line. With --lengths each is told, and there is a count for each page. Each fault is
a line. The last line is 'N looked at, M not so'; the status is 1 where M is not 0.
"""
import re
import subprocess
import sys
from fnmatch import fnmatch
from pathlib import Path

TOP = Path(__file__).resolve().parents[2]
sys.dont_write_bytecode = True
sys.path.insert(0, str(TOP / "tools/reach"))
import reach

CRATES = TOP / "crates"
# Names that stand for others: crates/NAME/src/THING.rt.
DEFINITION = re.compile(r"^(?:(?:abbrev|unfoldable|foldable) )?pub (?:(?:record|data) )?(?!mod |use )(\S+)", re.M)
# `do` asks for an operator of this name, and each type of steps has its own.
OF_DO = "◌>>=◌"
PLACEHOLDER = re.compile(r"\b(NAME|KIND|THING|MODULE|TYPE|CRATE|NN|F)\b")
# Pages of the toolchain, which `rt doc` leads to.
TOOLCHAIN = {"FIRST_PROOFS.md", "CONTRACTS.md", "GUIDELINES.md", "CONTRACT_STYLE.md"}

looked_at = 0
faults = []


def look(holds, where, what):
    global looked_at
    looked_at += 1
    if not holds:
        faults.append(f"{where}: {what}")


def read(path):
    return (TOP / path).read_text(encoding="utf8")


def without_code(text):
    return re.sub(r"```.*?```", lambda m: "\n" * m.group(0).count("\n"), text, flags=re.S)


def cells_of(line):
    return [cell.strip() for cell in line.strip().strip("|").split("|")]


def is_row(line):
    return line.startswith("|") and not set(line) <= set("|- :")


# ---- links and files

def anchors(page):
    headings = re.findall(r"^#+ (.*)$", without_code(page.read_text(encoding="utf8")), re.M)
    plain = (re.sub(r"[^\w\- ]", "", re.sub(r"[`*]", "", h).strip().lower()) for h in headings)
    return {h.replace(" ", "-") for h in plain}


def check_page(page):
    for number, line in enumerate(without_code(page.read_text(encoding="utf8")).split("\n"), 1):
        where = f"{page.relative_to(TOP)}:{number}"
        for link in re.findall(r"\]\(([^)\s]+)\)", line):
            if link.startswith("http"):
                continue
            path, _, anchor = link.partition("#")
            target = page.parent / path if path else page
            look(target.exists(), where, f"no file {path}")
            if anchor and target.is_file():
                look(anchor in anchors(target), where, f"no heading {link}")
        for name in re.findall(r"`([\w./\-]+)`", line):
            is_file = re.search(r"\.(rt|antt|md|py|c)$", name)
            if is_file and not PLACEHOLDER.search(name) and name not in TOOLCHAIN:
                look(file_is_there(page, name), where, f"no file {name}")


def file_is_there(page, name):
    if any((folder / name).exists() for folder in (TOP, CRATES, page.parent)):
        return True
    return any(True for _ in CRATES.glob(f"*/{name}")) or any(True for _ in CRATES.glob(f"*/*/**/{name}"))


def check_snippets(pages):
    code = "\n".join(squeezed(path.read_text(encoding="utf8")) for path in sorted(CRATES.glob("*/src/**/*.rt")))
    for page in pages:
        for snippet in re.findall(r"^```rust\n(.*?)^```", page.read_text(encoding="utf8"), re.M | re.S):
            look(squeezed(snippet) in code, page.relative_to(TOP), f"no code {snippet.split(chr(10))[0]}")


def squeezed(text):
    return " ".join(text.split())


# ---- claims

def contracts(text, function):
    """The text from each function of this name to its body."""
    for start in re.finditer(rf"\bfn {function}\b", text):
        rest = text[start.end():]
        body = re.search(r"\n\s*\{\s*(\n|\})", rest)
        yield rest[:body.start()] if body else rest


def check_claims():
    for number, line in enumerate(read("docs/THEOREMS.md").split("\n"), 1):
        cells = cells_of(line)
        if not is_row(line) or len(cells) < 4 or cells[2].startswith("File"):
            continue
        where = f"docs/THEOREMS.md:{number}"
        files = re.findall(r"`([\w/]+\.rt)`", cells[2])
        for file in files:
            look((CRATES / file).is_file(), where, f"no file {file}")
        text = "\n".join(read(CRATES / f) for f in files if (CRATES / f).is_file())
        calls = [c.split("::")[-1] for c in re.findall(r"`([\w:]+)`", cells[1])]
        found = []
        for call in calls:
            if call == "laws":
                found.append(text)
            elif not call.startswith("iscsi_"):
                here = list(contracts(text, call))
                named = here or re.search(rf"\b(struct|enum|trait) {call}\b", text)
                look(named, where, f"no {call} in {', '.join(files)}")
                found += here
        for clause in re.findall(r"`([a-z_]+)`", re.split(r", with|, over|; of", " ".join(cells[3:]))[0]):
            look(re.search(rf"ensures\*? {clause} ", "\n".join(found)), where, f"no clause {clause}")


def named_calls(page):
    """The calls that rows of a page name, each with its owner, if one is said."""
    return {"::".join(call.split("::")[-2:]) for call in re.findall(r"`([\w:]+)`", page)} | set(re.findall(r"`(?:\w+::)*(\w+)`", page))


def check_named():
    """A public call with two clauses or more stands in a row of docs/THEOREMS.md."""
    named = named_calls(read("docs/THEOREMS.md"))
    for crate in reach.Workspace().order:
        if crate.endswith("_tests"):
            continue
        for call, promises in reach.public_calls(crate):
            look(promises < 2 or call in named, f"crates/{crate}", f"no row of docs/THEOREMS.md names {call}")


# ---- tables of FORMATS

def documented_kinds():
    """For each kind: its opcode, its name in `show`, and its rows: field, place, condition, name."""
    kinds = {}
    for section in re.split(r"^### ", read("docs/FORMATS.md"), flags=re.M):
        head = re.search(r"^Opcode (\w\w), .*Code: `\w+` in `iscsi_pdu/src/head/(\w+)\.rt`\. `show` prints `([^`]+)`", section, re.M)
        if head:
            rows = [cells_of(line) for line in section.split("\n") if line.startswith("| `")]
            kinds[head.group(2)] = (int(head.group(1), 16), head.group(3),
                                    [(r[0].strip("`"), r[1], r[2], r[3].strip("`")) for r in rows])
    return kinds


def defined_rows(text, kind):
    """The rows of a kind in specs/Fields.antt: field, place, condition."""
    body = re.search(rf"^{kind} h =\n(.*?)\n\n", text + "\n\n", re.M | re.S).group(1)
    for word, first, second, value in re.findall(r"(bit|bits|bytes|raw) (\w+) (\w+) (\(.*\))(?=\n|$)", body):
        field = re.search(r"h\.(\w+)\)+$", value).group(1)
        if word in ("bit", "bits"):
            place = f"{first}:{int(second, 16):02x}"
        else:
            place = first if first == second else f"{first}-{second}"
        condition = re.match(r"\(only_if (.*) h\.\w+\)$", value)
        yield field, place, in_words(condition.group(1)) if condition else ""


def in_words(condition):
    """A condition of specs/Fields.antt as FORMATS writes it."""
    words = re.sub(r"^\((.*)\)$", r"\1", condition)
    words = re.sub(r"^is_tag (h\.\w+)$", r"\1 is not ffffffff", words)
    words = re.sub(r"^not \((h\.\w+) == (\w+)\)$", r"\1 is not \2", words)
    words = re.sub(r"^(h\.\w+) == (\w+) \|\| \1 == (\w+)$", r"\1 is \2 or \3", words)
    words = re.sub(r"^(h\.\w+) == (\w+)$", r"\1 is \2", words)
    return re.sub(r"h\.(\w+)", r"`\1`", words.replace("||", "or"))


def shown_words(text, kind):
    """The fields of a kind in the code of `show`, in their order: field, name."""
    body = re.search(rf"^fn {kind}\(.*?^\}}", text, re.M | re.S).group(0)
    for call, words in re.findall(r"^    line\.(\w+)\((.*?)\);$", body, re.M):
        fields = re.findall(r"h\.(\w+)", words)
        name = re.match(r'" (\w+)="', words)
        if call == "window":
            yield from zip(fields, ("expcmdsn", "maxcmdsn"))
        else:
            yield fields[0], name.group(1) if name else "lun"


def camel(kind):
    return "".join(word.capitalize() for word in kind.split("_"))


def check_copy():
    copy = "crates/format_tables/data/FORMATS.md"
    look(read(copy) == read("docs/FORMATS.md"), "docs/FORMATS.md", f"{copy} is another page: copy it there")


def check_kinds():
    fields, meaning = read("crates/iscsi_pdu/specs/Fields.antt"), read("crates/iscsi_pdu/specs/Meaning.antt")
    show = read("crates/iscsi_stream/src/lines/fields.rt")
    kinds = documented_kinds()
    look(len(kinds) == 17, "docs/FORMATS.md", f"{len(kinds)} kinds of PDU")
    for kind, (opcode, name, rows) in kinds.items():
        where = f"docs/FORMATS.md, {name}"
        look(f"opcode ({camel(kind)} h) = 0x{opcode:02x}" in meaning, where, f"opcode {opcode:02x} is not that of specs/Meaning")
        look(f'Head::{camel(kind)}(_) => " {name}"' in show, where, f"`show` does not print {name}")
        # a command's block, bytes 32 to 47, has a table of its own
        due = [row[:3] for row in rows if row[0] != "cdb"]
        look(due == list(defined_rows(fields, kind)), where, "the rows are not those of specs/Fields")
        look([(r[0], r[3]) for r in rows] == list(shown_words(show, kind)), where, "the names are not those of `show`")


def check_keys():
    text, table = read("crates/iscsi_text/specs/Key.antt"), read("crates/iscsi_text/specs/Negotiated.antt")
    body = re.search(r"^declared = (.*?)\n\n", text, re.M | re.S).group(1)
    types = dict(re.findall(r'\(codes "(\w+)", (\w+)\)', body))
    types |= {"TargetAddress": of for of in re.findall(r"\(target_address, (\w+)\)", body)}
    kinds = {"Minimum": "Number", "Maximum": "Number", "Or": "Boolean", "And": "Boolean", "NoneItem": "Items"}
    types |= {key: kinds[rule] for key, rule in re.findall(r'^row keys\.(\w+) = line \d+ \(codes "\1"\) \(?(\w+)', table, re.M)}
    section = re.search(r"^## 8\. .*?^## 9\. ", read("docs/FORMATS.md"), re.M | re.S).group(0)
    rows = [cells_of(line) for line in section.split("\n") if line.startswith("| `")]
    named = [(key, row) for row in rows for key in re.findall(r"`(\w+)`", row[0])]
    look(sorted(key for key, _ in named) == sorted(types), "docs/FORMATS.md, keys", "not the known keys of iscsi_text")
    results = {"minimum": "Minimum", "maximum": "Maximum", "OR": "Or", "AND": "And", "first common item": "NoneItem"}
    values = {"Yes": "answers.Flag true", "None": "answers.NoneItem"}
    for key, (first, kind, result, span, default) in named:
        where = f"docs/FORMATS.md, {key}"
        look(types.get(key) == kind, where, f"its type is {types.get(key)}")
        row = re.search(rf'^row keys\.{key} = line \d+ \(codes "{key}"\) (.*)$', table, re.M)
        look((row is not None) == (result in results), where, "negotiated here or there alone")
        if row and result in results:
            rule = results[result]
            if span:
                rule = f"({rule} (between {span.replace('..', ' ')}))"
            held = values.get(default.split(" ")[0], f"answers.Number {default}")
            held = held if held == "answers.NoneItem" else f"({held})"
            due = f"{rule} {held} {'true' if first.endswith('*') else 'false'}"
            look(row.group(1) == due, where, f"specs/Negotiated says {row.group(1)}")


# ---- figures

def check_figures():
    counted = subprocess.run([sys.executable, TOP / "tools/reach/reach.py", "--check"], capture_output=True, text=True)
    look(counted.returncode == 0, "tools/reach", counted.stderr.strip())


# ---- wrong bodies

def check_edits():
    for folder in ("crates/*/must-fail", "tools/wrong_bodies/*"):
        for edit in sorted(TOP.glob(f"{folder}/*.edit")):
            crate = edit.parent.parent.name if "crates" in folder else edit.parent.name
            texts, where = {}, edit.relative_to(TOP)
            for word, rest in re.findall(r"^(file|old|new): (.*)$", edit.read_text(encoding="utf8"), re.M):
                if word == "file":
                    path = CRATES / crate / rest
                    look(path.is_file(), where, f"no file {rest}")
                    texts.setdefault(path, path.read_text(encoding="utf8") if path.is_file() else "")
                elif word == "old":
                    old = rest
                    look(texts[path].count(old) == 1, where, f"stands {texts[path].count(old)} times: {old.strip()}")
                else:
                    texts[path] = texts[path].replace(old, rest)


def check_promises():
    page = read("docs/GATE.md")
    told = set()
    for line in page[page.index("| Promise |"):].split("\n\n")[0].split("\n")[2:]:
        _, crate, names = cells_of(line)
        told |= {(crate.strip("`"), name) for name in re.findall(r"`(\w+)`", names)}
    there = {(edit.parent.parent.name, edit.name.split(".")[1]) for edit in CRATES.glob("*/must-fail/*.edit")}
    for crate, name in sorted(told - there):
        look(False, "docs/GATE.md", f"no wrong body {name} in crates/{crate}/must-fail")
    for crate, name in sorted(there - told):
        look(False, f"crates/{crate}/must-fail", f"no promise in docs/GATE.md names {name}")
    look(True, "docs/GATE.md", "")


SEARCHED = "-- Searched for, since a wrong body breaks these goals: "


def check_answers():
    for path in sorted(CRATES.glob("*/proofs/**/Answers.antt")):
        first = path.read_text(encoding="utf8").split("\n", 1)[0]
        if first.startswith(SEARCHED):
            crate = CRATES / path.relative_to(CRATES).parts[0]
            for name in first.removeprefix(SEARCHED).removesuffix(".").split(", "):
                look((crate / "must-fail" / f"{name}.edit").is_file(), path.relative_to(TOP), f"no wrong body {name} in the gate")


# ---- what tests assert

def check_asserts():
    """A function that stands in the asserts.rt of several test crates stands there alike; so does the page's first line."""
    first, paths = {}, sorted(CRATES.glob("*_tests/src/asserts.rt"))
    for path in paths:
        text = path.read_text(encoding="utf8")
        for part in [text.split("\n", 1)[0], *re.findall(r"^///.*?^}$", text, re.M | re.S)]:
            name = re.search(r"fn (\w+)", part)
            key = name[1] if name else "the first line"
            known = first.setdefault(key, (path, part))
            look(part == known[1], path.relative_to(TOP), f"{key} is not as in {known[0].relative_to(TOP)}")


# Helpers that stand in several test crates, since no library may hold a function that can end the process, and the files.
TOP_FILES = {name: f"{name}_tests/src/tests.rt" for name in (
    "scsi_cdb", "scsi_disk", "scsi_file", "iscsi_text", "iscsi_pdu", "iscsi_login", "iscsi_initiator", "iscsi_pair",
)}
DIALOGUES = [f"{name}_tests/src/tests/dialogues.rt" for name in ("iscsi_initiator", "iscsi_target")]
REQUESTS = [TOP_FILES["iscsi_initiator"], "iscsi_pair_tests/src/tests/scripts.rt"]
DISKS = [TOP_FILES["scsi_disk"], DIALOGUES[1]]
REPEATED = {
    "same": ["iscsi_stream_tests/src/asserts.rt", *(TOP_FILES[name] for name in (
        "scsi_cdb", "scsi_disk", "scsi_file", "iscsi_text", "iscsi_pdu", "iscsi_login",
    ))],
    "block": [TOP_FILES["scsi_cdb"], TOP_FILES["scsi_disk"]],
    "text_of": [TOP_FILES["iscsi_login"], "iscsi_text_tests/src/tests/text.rt"],
    "standard_offers": [TOP_FILES["iscsi_login"], TOP_FILES["iscsi_initiator"], TOP_FILES["iscsi_pair"]],
    "Sent": DIALOGUES,
    "sent_nothing": DIALOGUES,
    "check_fill": DISKS,
    "check_block": DISKS,
    **{name: REQUESTS for name in ("request_of", "head_of", "in_of", "out_of", "data_of")},
}


def item_of(text, name):
    """A function or a struct with what is said of it, whoever may use it, or nothing."""
    found = re.search(rf"^((?://[^\n]*\n|#\[[^\n]*\n)*)(?:pub(?:\(\w+\))? )?((?:fn|struct) {name}\b.*?^\}}$)", text, re.M | re.S)
    return found and found[1] + found[2]


def check_repeated():
    """Each of these helpers is one text."""
    for name, paths in REPEATED.items():
        first = item_of(read(CRATES / paths[0]), name)
        for path in paths:
            item = item_of(read(CRATES / path), name)
            look(item is not None and item == first, path, f"{name} is not as in {paths[0]}")


# ---- lengths

# The most words of a sentence, and of a cell of a table.
SENTENCE, CELL = 30, 25
# A participle and its verb, before the subject.
OPENING = re.compile(r"(Proved|Seen|Tried|Wanted|Trusted|Measured|Kept|Taken|Given|Held|Asked|Written|Chosen) (is|are|was|were)\b")
# Pages that keep to all of that.
PLAIN = [
    "README.md", "CONTRIBUTING.md", "docs/*.md", "docs/session/README.md", "crates/*/README.md",
]


def check_names():
    """No two definitions of the repository have one name, but for the operator of `do`."""
    places = {}
    for path in sorted(CRATES.glob("*/specs/**/*.antt")):
        for name in DEFINITION.findall(read(path)):
            places.setdefault(name, []).append(str(path.relative_to(CRATES)))
    for name, paths in places.items():
        look(len(paths) == 1 or name == OF_DO, paths[-1], f"{name} is a definition of {paths[0]}, too")


def words_in(text):
    """How many words a text has. A list of names between backquotes is one, and a link's address is none."""
    text = re.sub(r"`[^`]*`", "code", re.sub(r"\]\([^)]*\)", "]", text))
    text = re.sub(r"\bcode(,? (and )?code\b)+", "code", text)
    return sum(any(letter.isalnum() for letter in word) for word in text.split())


def paragraphs_of(text):
    """Paragraphs and items of lists, each with the number of its first line; no code, headings or tables."""
    parts, number = [], 0
    for number, line in enumerate(without_code(text).split("\n"), 1):
        begins = re.match(r"\s*([-*]|[0-9]+\.)\s", line)
        if not line.strip() or line.startswith("#") or line.lstrip().startswith("|"):
            parts.append(None)
        elif begins or not parts or parts[-1] is None:
            parts.append((number, line[begins.end():] if begins else line))
        else:
            parts[-1] = parts[-1][0], f"{parts[-1][1]} {line.strip()}"
    return filter(None, parts)


def long_parts(page):
    """The line, the kind and the words of each sentence and cell of a page that is too long, or begins as none should."""
    text = page.read_text(encoding="utf8")
    for number, paragraph in paragraphs_of(text):
        for sentence in re.split(r"(?<=[.!?])[)*]*\s+(?=[^a-z])", paragraph):
            if words_in(sentence) > SENTENCE or OPENING.match(sentence):
                yield number, "sentence", sentence
    for number, line in enumerate(without_code(text).split("\n"), 1):
        for cell in cells_of(line.lstrip()) if is_row(line.lstrip()) else []:
            if words_in(cell) > CELL:
                yield number, "cell", cell


def check_lengths(pages, is_told):
    """Counts what is too long, by pages. On the pages in PLAIN it is a fault."""
    total = {"sentence": 0, "cell": 0}
    for page in pages:
        name, found = str(page.relative_to(TOP)), list(long_parts(page))
        counts = {kind: sum(each[1] == kind for each in found) for kind in total}
        total = {kind: total[kind] + counts[kind] for kind in total}
        if is_told and found:
            print(f"{name}: {counts['sentence']} long sentences, {counts['cell']} long cells")
            for number, kind, text in found:
                print(f"    {number}: a {kind} of {words_in(text)} words: {text[:90]}")
        if any(fnmatch(name, plain) for plain in PLAIN):
            look(not found, name, f"{counts['sentence']} sentences over {SENTENCE} words, {counts['cell']} cells over {CELL}: see --lengths")
    print(f"{total['sentence']} sentences over {SENTENCE} words, {total['cell']} cells over {CELL}, in {len(pages)} pages")


def main():
    pages = [TOP / "README.md", TOP / "CONTRIBUTING.md"]
    for pattern in ("docs/**/*.md", "crates/*/README.md", "crates/*/proofs/README.md", "tools/**/*.md"):
        pages += sorted(TOP.glob(pattern))
    for page in pages:
        check_page(page)
    check_snippets(pages)
    check_claims()
    check_named()
    check_copy()
    check_kinds()
    check_keys()
    check_figures()
    check_edits()
    check_promises()
    check_answers()
    check_asserts()
    check_repeated()
    check_names()
    check_lengths(pages, "--lengths" in sys.argv[1:])
    for fault in faults:
        print(fault)
    print(f"{looked_at} looked at, {len(faults)} not so")
    sys.exit(1 if faults else 0)


if __name__ == "__main__":
    main()
