#!/usr/bin/env python3
"""Tells which definitions each part of the headline reaches: the text that has to be believed for it.

    tools/reach/reach.py            prints the tables
    tools/reach/reach.py --write    puts them into docs/TRUST.md, each between its two marks
    tools/reach/reach.py --check    says which of them the page does not hold, and which definition of `specs/inner`
                                    a public clause reaches; the status is 1 if there is one

It begins at a clause of a public function (PARTS), and follows the names that stand in it: through the imports of the
file to the definitions of `specs/` and to the types of the code that these speak of, and from each to the names in its
own text. A name that a parameter bears too counts as a use of the definition, so the figures are upper bounds. What is
reached in the toolchain's own libraries is not followed; its modules are counted.

A line counts where it belongs to a definition: its comment, its type and its equations, but no blank line and no import.
"""
import argparse
import re
import sys
from collections import defaultdict
from dataclasses import dataclass, replace
from pathlib import Path

TOP = Path(__file__).resolve().parents[2]
PAGE = TOP / "docs/TRUST.md"
MARK = "<!-- written by tools/reach/reach.py --write: {} {} -->"


@dataclass(frozen=True)
class Part:
    """A clause that is looked at. Of a law, whose contract is one theorem, all clauses are.

    `says` is the sentence of the headline that the clause is, if it is one. A definition that is `unread` is counted
    and not followed: the headline holds whatever function it is. `model` names the type whose value the clause compares.
    `beside` is the clause that says what was done to get there: of the same function, or of one with the same owner.
    """

    title: str
    crate: str
    function: str
    clause: str | None = None
    owner: str | None = None
    unread: tuple[str, ...] = ()
    model: str | None = None
    says: str | None = None
    beside: tuple[str, str] | None = None

    def __str__(self):
        owner = f"{self.owner}::" if self.owner else "laws::" if self.clause is None else ""
        clause = f", clause `{self.clause}`" if self.clause else ""
        return f"`{self.crate}::{owner}{self.function}`{clause}"


PARTS = [
    Part("normalise", "iscsi_stream", "normalise", "ok", beside=("normalise", "end"),
         says="`normalise` writes the canonical stream of what it read"),
    Part("its faults", "iscsi_stream", "normalise", "fault", beside=("normalise", "end"),
         says="a fault comes where its cause is, after all that was due before it"),
    Part("one meaning", "iscsi_stream", "have_one_meaning", "same", beside=("have_one_meaning", "end"),
         says="`have_one_meaning` says yes exactly if two streams have one meaning"),
    Part("compare", "iscsi_compare", "compare", "same", beside=("compare", "tells"),
         says="`compare`, which holds one PDU of each, says that two streams are the same only if they have one meaning"),
    Part("served alike", "iscsi_serve", "serve_stream", "answered", unread=("answers_from",), beside=("serve_stream", "serves"),
         says="what the program answers and stores depends on settings, blocks and meaning alone"),
    Part("alike", "iscsi_target", "answers_alike", "alike", beside=("answers_alike", "first"),
         says="a target answers two streams of one meaning with the same bytes and holds the same blocks"),
    Part("params", "iscsi_pair", "params", "equal", owner="Pair", model="Pair", beside=("run", "ran"),
         says="two ends that have completed login hold equal values, over every schedule"),
    Part("outcomes", "iscsi_pair", "outcomes_over", "on_disk", beside=("outcomes_over", "ran"),
         says="the outcomes of such a pair are those of one local disk, over every schedule"),
    Part("own steps", "iscsi_pair", "serve_requests", "on_disk", beside=("serve_requests", "ran"),
         says="so are those of requests that are handed in one after another, in steps of the call's own"),
    Part("comes about", "iscsi_pair", "serve_requests", "served", beside=("serve_requests", "on_disk"),
         says="where memory holds, requests that any target takes are served so"),
    Part("feed", "iscsi_target", "feed", "fed", owner="Target", model="Target"),
    Part("served", "iscsi_serve", "serve_stream", "answered"),
    Part("canonical form", "iscsi_target", "canonical_form"),
    Part("login", "iscsi_pair", "login_agreement"),
    Part("one disk", "iscsi_pair", "one_local_disk"),
    Part("loop", "iscsi_loop", "run_over", "on_disk"),
    Part("filters", "iscsi_tool", "run_filter", "filters"),
]


@dataclass(frozen=True)
class Definition:
    """A definition of `specs/`, or a type of the code, and what stands in it."""

    file: str
    name: str
    lines: int
    text: str


# ---- reading the files

OPENS = re.compile(r"(?:(?:abbrev|unfoldable|foldable) )?pub (?:(?:record|data) )?(?!mod |use )(\S+)")
TYPE = re.compile(r"(?:pub(?:\(\w+\))? )?(?:struct|enum) (\w+)")
CONSTRUCTOR = re.compile(r"^  ([A-Z]\w*) :", re.M)
IMPORT = re.compile(r"^\s*(?:ghost )?use Rattle\.([\w.]+?)(?:\.\{([^}]*)\}| as (\w+))\s*;?\s*$", re.M)
NAME = re.compile(r"(?<![\w.'])([A-Za-z_][\w']*)((?:\.[A-Za-z_][\w']*)*)")
MIXFIX = "◌"


def without_comments(text):
    return re.sub(r"(?:--|//).*", "", text)


def without_labels(text):
    """The text without the names of record fields, where they are declared and where they are given a value."""
    text = re.sub(r"^ +pub [\w']+ :", " :", text, flags=re.M)
    return re.sub(r"(^ +|[{;]\s*)[\w']+ = ", r"\1", text, flags=re.M)


def definitions_of(path):
    """The definitions of a file of `specs/`, each with the comment right above it."""
    lines = path.read_text().splitlines()
    starts = [(n, found[1]) for n, line in enumerate(lines) if (found := OPENS.match(line))]
    heads = []
    for n, _ in starts:
        while n and re.match(r"--|infix", lines[n - 1]):
            n -= 1
        heads.append(n)
    for (start, name), head, end in zip(starts, heads, heads[1:] + [len(lines)]):
        while not lines[end - 1].strip() or lines[end - 1].startswith("--"):
            end -= 1
        body = "\n".join(lines[start:end])
        count = sum(1 for line in lines[head:end] if line.strip())
        yield Definition(str(path.relative_to(TOP)), name, count, without_labels(without_comments(body)))


def types_of(path):
    """The types of a file of code, each with its comment and its attributes."""
    lines = path.read_text().splitlines()
    for start, line in enumerate(lines):
        if not (found := TYPE.match(line)):
            continue
        end = start if re.search(r"[;}]$", line) else lines.index("}", start)
        head = start
        while head and re.match(r"///|#\[", lines[head - 1]):
            head -= 1
        body = "\n".join(lines[start:end + 1])
        yield Definition(str(path.relative_to(TOP)), found[1], end + 1 - head, without_comments(body))


def braced(text, start):
    """The end of the braces that open at this place."""
    depth = 0
    for place in range(start, len(text)):
        depth += {"{": 1, "}": -1}.get(text[place], 0)
        if depth == 0:
            return place + 1
    raise ValueError("braces that aren't closed")


def contract_of(text, part):
    """The clause that is asked for, or all of them, with the conditions of the call."""
    start = re.search(rf"pub fn {part.function}\b", text).end()
    clauses = []
    clause = re.compile(r"[^{}]*?\b(requires|ensures)\s*(\w*)\s*{")
    while found := clause.match(text, start):
        end = braced(text, found.end() - 1)
        if part.clause is None or found[1] == "requires" or found[2] == part.clause:
            clauses.append(text[found.end() - 1:end])
        start = end
    if not clauses:
        sys.exit(f"reach: no such clause: {part}")
    return "\n".join(clauses)


def value_of_model(model):
    """What a contract sees of a value of this type: the file of its `impl Model`, and the value there."""
    for path in sorted(TOP.glob("crates/*/src/**/*.rt")):
        text = without_comments(path.read_text())
        if found := re.search(rf"impl Model for {model} {{", text):
            block = text[found.end() - 1:braced(text, found.end() - 1)]
            return str(path.relative_to(TOP)), re.search(r"ghost Value = ({[^}]*})", block)[1]
    sys.exit(f"reach: no model of {model}")


# ---- following names

class Workspace:
    """All definitions of the crates, by file and name (a constructor names its definition too), and all their types."""

    def __init__(self):
        self.order = [
            line.split(":")[0] for line in (TOP / "crates.txt").read_text().splitlines() if not line.startswith("#")
        ]
        self.names = defaultdict(dict)
        self.types = defaultdict(dict)
        self.imports = {}
        for crate in self.order:
            folder = TOP / "crates" / crate
            for path in sorted(folder.glob("specs/**/*.antt")):
                for one in definitions_of(path):
                    for name in [one.name, *CONSTRUCTOR.findall(one.text)]:
                        self.names[one.file].setdefault(name, one)
            for path in sorted(folder.glob("src/**/*.rt")):
                for one in types_of(path):
                    self.types[crate][one.name] = one

    def imports_of(self, file):
        if file not in self.imports:
            self.imports[file] = Imports(self, file)
        return self.imports[file]

    def target(self, path, name):
        """What an imported name stands for: a definition, a type, or the toolchain's module that has it."""
        parts = path.split(".")
        crate, rest = parts[0], parts[2:]
        if crate not in self.order:
            return f"{crate}.{'.'.join(rest)}"
        if rest[0] == "declared":
            kind = [part for part in rest if part != "TheVariants"][-1]
            return self.types[crate].get(kind)
        inner = rest[0] == "inner"
        names = self.names[f"crates/{crate}/specs/{'/'.join(rest[:1 + inner])}.antt"]
        return names.get(rest[1 + inner] if len(rest) > 1 + inner else name)


class Imports:
    """The names that a file brings in, and the modules that it calls by a short name."""

    def __init__(self, workspace, file):
        self.workspace = workspace
        self.crate = file.split("/")[1]
        self.own = workspace.names[file]
        self.names = {}
        self.short = {}
        text = (TOP / file).read_text()
        for path, names, short in IMPORT.findall(text):
            if short:
                self.short[short] = path
            for name in filter(None, (name.strip() for name in names.split(","))):
                self.names[name] = path
        self.types = dict(workspace.types[self.crate]) if file.endswith(".rt") else {}
        for crate, names in re.findall(r"^use (\w+)::(.*?);", text, re.M | re.S):
            for name in re.findall(r"\w+", names):
                if name in workspace.types.get(crate, {}):
                    self.types[name] = workspace.types[crate][name]

    def imported(self, name):
        target = self.workspace.target(self.names[name], name)
        # What a trait declares is no definition of ours.
        if target is None and ".specs." in self.names[name] and ".declared." not in self.names[name]:
            sys.exit(f"reach: no definition of {name} of {self.names[name]}")
        return target

    def used(self, text):
        """What the names of a text stand for."""
        for head, tail in NAME.findall(text):
            if head in self.own:
                yield self.own[head]
            elif head in self.names:
                yield self.imported(head)
            elif head in self.types:
                yield self.types[head]
            elif head in self.short and tail:
                yield self.workspace.target(self.short[head], tail.split(".")[1])
        for name in [*self.own, *self.names]:
            if MIXFIX in name and all(piece in text for piece in name.split(MIXFIX)):
                yield self.own.get(name) or self.imported(name)


def reach(workspace, part):
    """The definitions and types that a part reaches, and the modules of the toolchain."""
    files = [
        path for path in sorted((TOP / "crates" / part.crate / "src").glob("**/*.rt"))
        if re.search(rf"pub fn {part.function}\b", path.read_text())
    ]
    if len(files) != 1:
        sys.exit(f"reach: not one function of this name: {part}")
    source = without_comments(files[0].read_text())
    waiting = [(str(files[0].relative_to(TOP)), contract_of(source, part))]
    if part.model:
        waiting.append(value_of_model(part.model))
    reached, modules = set(), set()
    while waiting:
        file, text = waiting.pop()
        for one in workspace.imports_of(file).used(text):
            if isinstance(one, str):
                modules.add(one)
            elif one and one not in reached:
                reached.add(one)
                if one.name not in part.unread:
                    waiting.append((one.file, one.text))
    return reached, modules


# ---- what a reader has to believe

CLAUSE = re.compile(r"[^{}]*?\b(?:requires|ensures)\s*\w*\s*{")
IMPL = re.compile(r"^impl(?:<[^{]*?>)? (?:(\w+)(?:<[^{]*?>)? for )?(\w+)[^{]*{", re.M)


def clauses_from(text, start):
    """The clauses of the function whose name ends here."""
    while found := CLAUSE.match(text, start):
        start = braced(text, found.end() - 1)
        yield text[found.end() - 1:start]


def public_names(crate):
    """The names that a library makes public, and its public modules."""
    lib = TOP / "crates" / crate / "src/lib.rt"
    said = without_comments(lib.read_text()) if lib.exists() else ""
    names = {name for use in re.findall(r"pub use ([^;]+);", said) for name in re.findall(r"\w+", use)}
    return names, set(re.findall(r"pub mod (\w+);", said))


def impls_of(text):
    """Each block of an `impl`: where it begins and ends, its trait, and its type."""
    return [(one.start(), braced(text, one.end() - 1), one[1], one[2]) for one in IMPL.finditer(text)]


def public_calls(crate):
    """Each public function of a library, by its name behind that of its type, and how many things it promises."""
    names, modules = public_names(crate)
    for path in sorted((TOP / "crates" / crate / "src").glob("**/*.rt")):
        text = without_comments(path.read_text())
        blocks = impls_of(text)
        for one in re.finditer(r"pub fn (\w+)\b", text):
            owner = next((kind for start, end, _, kind in blocks if start < one.start() < end), None)
            if (owner or one[1]) in names or path.stem in modules:
                yield f"{owner}::{one[1]}" if owner else one[1], promises_from(text, one.end())


def promises_from(text, start):
    """How many clauses the function whose name ends here ensures."""
    count = 0
    while found := CLAUSE.match(text, start):
        count += "ensures" in found[0]
        start = braced(text, found.end() - 1)
    return count


def public_texts(crate):
    """The clauses of what a crate makes public, and the values of its types: each with its file."""
    names, modules = public_names(crate)
    for path in sorted((TOP / "crates" / crate / "src").glob("**/*.rt")):
        text, file = without_comments(path.read_text()), str(path.relative_to(TOP))
        is_public = path.stem in modules or path.parent.name in modules
        blocks = impls_of(text)
        for one in re.finditer(r"pub fn (\w+)\b", text):
            owner = next((kind for start, end, _, kind in blocks if start < one.start() < end), one[1])
            if is_public or owner in names:
                yield from ((file, clause) for clause in clauses_from(text, one.end()))
        for start, end, trait, kind in blocks:
            if is_public or kind in names or trait not in (None, "Model"):
                block = text[start:end]
                for one in re.finditer(r"ghost (?!use|invariant)\w+[^={]*= ({)", block):
                    yield file, block[one.end() - 1:braced(block, one.end() - 1)]
                for one in re.finditer(r"\bfn \w+\b", block) if trait not in (None, "Model") else ():
                    yield from ((file, clause) for clause in clauses_from(block, one.end()))
        for one in re.finditer(r"pub trait \w+[^{]*{", text):
            yield file, text[one.end() - 1:braced(text, one.end() - 1)]


def reached_by_public(workspace):
    """The definitions and types that public clauses reach."""
    waiting, reached = [one for crate in workspace.order for one in public_texts(crate)], set()
    while waiting:
        file, text = waiting.pop()
        for one in workspace.imports_of(file).used(text):
            if isinstance(one, Definition) and one not in reached:
                reached.add(one)
                waiting.append((one.file, one.text))
    return reached


def inner_of(reached):
    """The definitions of `specs/inner` among these: a public clause reaches none."""
    return sorted(f"{one.file}: {one.name}" for one in reached if "/specs/inner/" in one.file)


# ---- the tables

def in_order(workspace, files):
    """The files by crate, the lowest first, and in a crate as its list of modules has them."""
    def key(file):
        crate = file.split("/")[1]
        modules = re.findall(r"pub mod (\w+)", (TOP / "crates" / crate / "specs/Lib.antt").read_text())
        stem = Path(file).stem
        return workspace.order.index(crate), modules.index(stem) if stem in modules else -1, file
    return sorted(files, key=key)


def shown(file):
    return f"`{file.removeprefix('crates/')}`"


def row(cells):
    return f"| {' | '.join(str(cell) for cell in cells)} |"


def lines_by_file(definitions):
    lines = defaultdict(int)
    for one in definitions:
        if "/specs/" in one.file:
            lines[one.file] += one.lines
    return lines


def defined_in(reached):
    return [one for one in reached if "/specs/" in one.file]


def lines_of(reached):
    return sum(one.lines for one in defined_in(reached))


def headline(workspace, reaches):
    """The lines of definitions that each sentence of the headline takes, and those of the clause beside it."""
    yield row(["The headline says", "Clause", "Lines", "Beside it", "Lines"])
    yield row(["---"] * 5)
    for part, (reached, _) in zip(PARTS, reaches):
        if part.says:
            function, clause = part.beside
            other = replace(part, function=function, clause=clause, unread=(), says=None, beside=None)
            name = f"`{clause}`" if function == part.function else f"{other}"
            yield row([part.says, part, lines_of(reached), name, lines_of(reach(workspace, other)[0])])


def summary(reaches):
    yield row(["Column", "Clause", "Definitions", "Lines", "In files", "Types of the code", "Lines", "Toolchain's modules"])
    yield row(["---"] * 8)
    for part, (reached, modules) in zip(PARTS, reaches):
        specs = defined_in(reached)
        types = [one for one in reached if "/src/" in one.file]
        yield row([
            part.title, part, len(specs), sum(one.lines for one in specs), len({one.file for one in specs}),
            len(types), sum(one.lines for one in types), len(modules),
        ])


def matrix(workspace, reaches):
    columns = [lines_by_file(reached) for reached, _ in reaches]
    files = in_order(workspace, {file for column in columns for file in column})
    whole = lines_by_file({one for file in files for one in workspace.names[file].values()})
    yield row(["File, below `crates/`", "Lines of its definitions", *(part.title for part in PARTS)])
    yield row(["---"] * (len(PARTS) + 2))
    for file in files:
        cells = [column.get(file, "") for column in columns]
        yield row([shown(file), whole[file], *cells])
    yield row(["all", *(sum(column.values()) for column in [whole, *columns])])


def others(workspace, reaches, public):
    """The files of definitions that no part reaches: those that clauses of other public calls do, and the rest."""
    reached = {one.file for definitions, _ in reaches for one in definitions}
    all_files = {file for file in list(workspace.names) if workspace.names[file] and "/inner/" not in file}
    cited = {one.file for one in public}
    yield "No part reaches these, and clauses of other public calls do:"
    yield ""
    by_crate = defaultdict(list)
    for file in in_order(workspace, (all_files - reached) & cited):
        by_crate[file.split("/")[1]].append(f"`{file.split('/specs/')[1].removesuffix('.antt')}`")
    for crate, files in by_crate.items():
        yield f"- `{crate}`: {', '.join(files)}"
    rest = in_order(workspace, all_files - reached - cited)
    yield ""
    yield f"No public clause reaches these: {', '.join(map(shown, rest))}." if rest else "Every other file is reached by none but its own crate."


def range_of(reaches):
    """What README says of the lines that a sentence of the headline takes."""
    lines = [lines_of(reached) for part, (reached, _) in zip(PARTS, reaches) if part.says]
    return f"from {min(lines)} to {max(lines)}"


def written(page, name, table):
    """The page with this table between the marks of its name."""
    begin, end = (MARK.format(name, side) for side in ("begin", "end"))
    before, rest = page.split(begin)
    return f"{before}{begin}\n\n{table}\n\n{end}{rest.split(end)[1]}"


def main():
    parser = argparse.ArgumentParser(description="Which definitions each part of the headline reaches.")
    choice = parser.add_mutually_exclusive_group()
    choice.add_argument("--write", action="store_true", help="put the tables into docs/TRUST.md")
    choice.add_argument("--check", action="store_true", help="fail if docs/TRUST.md does not hold the tables")
    asked = parser.parse_args()
    workspace = Workspace()
    reaches = [reach(workspace, part) for part in PARTS]
    public = reached_by_public(workspace)
    first = "\n".join(headline(workspace, reaches))
    tables = "\n".join([*summary(reaches), "", *matrix(workspace, reaches), "", *others(workspace, reaches, public)])
    if not asked.write and not asked.check:
        print(f"{first}\n\n{tables}")
        return
    old = PAGE.read_text()
    new = written(written(old, "headline", first), "tables", tables)
    if asked.write:
        PAGE.write_text(new)
    elif new != old:
        sys.exit("docs/TRUST.md: its figures are old: tools/reach/reach.py --write")
    elif (told := range_of(reaches)) not in (TOP / "README.md").read_text():
        sys.exit(f"README.md: the lines of definitions are not '{told}'")
    elif inner := inner_of(public):
        sys.exit("a public clause reaches what stands apart from it: " + ", ".join(inner))


if __name__ == "__main__":
    main()
