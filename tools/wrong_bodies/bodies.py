"""Wrong bodies: edits of a crate's code that the prover must refuse. Many are tried in one check.

A contract stays as it is when a body changes, so callers are checked against the contract, and the prover tells of each
function by itself. So one check tries an edit of each of many functions. An edit counts as refused if a goal of the function in
which its line stands stays open. One that has no such goal is tried alone: it may be refused in another function.
"""
import re
import shutil
import tempfile
import time
from dataclasses import dataclass, field
from pathlib import Path

# The head of a function, and the lines above it that are its own.
HEAD = re.compile(r"\s*(?:pub(?:\([a-z]+\))? )?(?:const |unsafe )*fn \w")
ABOVE = re.compile(r"\s*(?:///|#\[)")
# A goal that stayed open: its file, its line, and what is said of it.
OPEN = re.compile(r"note: (src/\S+?):(\d+):\d+: (.*\bnot proved\b.*)")
# What isn't Rust: its file and its line.
NO_CODE = re.compile(r"^(src/\S+?):(\d+):\d+: error", re.M)


@dataclass
class Body:
    """An edit: its file, its changes as pairs of lines below each path, and the functions in which these lines stand."""

    path: Path
    changes: list = field(default_factory=list)
    functions: set = field(default_factory=set)

    @property
    def name(self):
        return self.path.name.removesuffix(".edit")


def starts_of(text):
    """The line at which each function of a file begins, with its doc comment and attributes; lines count from 1."""
    lines = text.split("\n")
    starts = []
    for number, line in enumerate(lines, 1):
        if HEAD.match(line):
            start = number
            while start > 1 and ABOVE.match(lines[start - 2]):
                start -= 1
            starts.append(start)
    return starts


def function_at(starts, line):
    """The start of the function in which a line stands, or None in front of the first one."""
    return max((it for it in starts if it <= line), default=None)


class Sources:
    """The files of a crate, and where their functions begin."""

    def __init__(self, folder):
        self.folder = Path(folder)
        self.texts, self.starts = {}, {}

    def text(self, path):
        if path not in self.texts:
            self.texts[path] = (self.folder / path).read_text(encoding="utf8")
            self.starts[path] = starts_of(self.texts[path])
        return self.texts[path]

    def body(self, file):
        """Reads an edit. One whose lines don't fit the crate has no functions, and is tried alone, where rt says why."""
        body, path, old = Body(Path(file)), "", None
        for word, rest in re.findall(r"^(file|old|new):(.*)$", body.path.read_text(encoding="utf8"), re.M):
            rest = rest.removeprefix(" ")
            if word == "file":
                path = rest.strip()
            elif word == "old":
                old = rest
            else:
                body.changes.append((path, old, rest))
        for path, old, _ in body.changes:
            if not (self.folder / path).is_file() or self.text(path).count(old) != 1:
                body.functions.clear()
                break
            line = self.text(path)[: self.text(path).index(old)].count("\n") + 1
            body.functions.add((path, function_at(self.starts[path], line)))
        return body

    def edited(self, bodies):
        """The texts with these edits in them, or None if two of them change the same line."""
        texts = {}
        for body in bodies:
            for path, old, new in body.changes:
                text = texts.get(path, self.text(path))
                if text.count(old) != 1:
                    return None
                texts[path] = text.replace(old, new)
        return texts


def rounds_of(sources, bodies):
    """The edits in rounds: no two of a round change one function or one line."""
    rounds = []
    for body in bodies:
        fits = (
            it for it in rounds
            if not any(body.functions & other.functions for other in it) and sources.edited([*it, body]) is not None
        )
        there = next(fits, None)
        if there is None:
            rounds.append([body])
        else:
            there.append(body)
    return rounds


def refusals(sources, said):
    """The functions of which a goal stayed open, each with the first thing said of it."""
    found = {}
    for path, line, what in OPEN.findall(said):
        if path in sources.starts:
            found.setdefault((path, function_at(sources.starts[path], int(line))), f"{path}:{line}: {what}")
    return found


def tried_together(rt, crate, sources, bodies, kept):
    """Tries a round in one check over a copy of what the crate's check kept. Returns why each was refused, as far as it was.

    An edit that isn't Rust would hide all others. So it is left out, and the rest is tried again."""
    while bodies:
        with tempfile.TemporaryDirectory(prefix="wrong-bodies-") as room:
            shutil.copytree(kept, f"{room}/kept")
            ran = rt.checked(crate, sources.edited(bodies), ["--jobs", "1"], f"{room}/kept")
        if ran.returncode == 1 and ran.stdout.rstrip("\n").split("\n")[-1].startswith("logic=not-proved"):
            found = refusals(sources, ran.stdout)
            own = {body.name: next((found[it] for it in body.functions if it in found), None) for body in bodies}
            return {name: why for name, why in own.items() if why}
        places = NO_CODE.findall(ran.stdout)
        faulty = {(path, function_at(sources.starts[path], int(line))) for path, line in places if path in sources.starts}
        rest = [body for body in bodies if not body.functions & faulty]
        if len(rest) == len(bodies):
            break
        bodies = rest
    return {}


def tried_alone(rt, crate, body, kept):
    """Tries an edit by rt's own code over a copy of what the crate's check kept. Returns whether it was refused, and rt's words."""
    with tempfile.TemporaryDirectory(prefix="wrong-bodies-") as room:
        shutil.copytree(kept, f"{room}/kept")
        came, text = rt.must_fail(crate, str(body.path), ["--jobs", "1"], f"{room}/kept")
    return came in (rt.REFUSED, rt.AT_LIMIT), text


def try_all(rt, crate, files, tell):
    """Tries each edit of a crate over what its check kept in out/, and tells of each whether it was refused, with why."""
    sources, kept = Sources(crate.folder), f"{crate.folder}/out/incremental"
    bodies = [sources.body(it) for it in files]
    # one that stands in no function, or doesn't fit, goes alone
    together = [it for it in bodies if it.functions and all(start for _, start in it.functions)]
    alone = [it for it in bodies if it not in together]
    for number, bodies in enumerate(rounds_of(sources, together), 1):
        start = time.time()
        refused = tried_together(rt, crate, sources, bodies, kept)
        for body in bodies:
            if body.name in refused:
                tell(True, f"{crate.name}/{body.name}: {refused[body.name][:150]}")
            else:
                alone.append(body)
        tell(None, f"{crate.name}: round {number}: {len(refused)} of {len(bodies)} refused ({time.time() - start:.1f} s)")
    for body in alone:
        start = time.time()
        is_refused, text = tried_alone(rt, crate, body, kept)
        tell(is_refused, f"{text[:190]} (alone, {time.time() - start:.1f} s)")
