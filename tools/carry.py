"""The answers of a proof, brought over to the names that an edit gives its goals. An importer sets sys.dont_write_bytecode first.

A goal is named after the conditions on the way to it: `returns-then-n-lt10` stands behind `if n < 10`. An edit of that number
gives the goal another name, and the answer to it is lost, which says nothing of what the function does. So the answers get the
new names, and are tried again: what then fails is a fact, and what does not is proved.
"""
import difflib
import re
from collections import namedtuple

import edits

# In a file of answers, what stood behind a dash, and what is to.
Renamed = namedtuple("Renamed", "file old new")
# In a line of it, the first step of a name from a column on, and its new name.
Stepped = namedtuple("Stepped", "file line column old new")

GONE = re.compile(r"^(?P<file>proofs/(?:[^/]+/)+Answers\.antt):.*?module `Rattle\.\S+\.Goals` has no `(?P<name>[^`]+)`(?P<names>[^.]*)")
STEP = re.compile(r"^(?P<file>proofs/(?:[^/]+/)+Answers\.antt):.*? has no field `(?P<name>[^`]+)` \(nearest: (?P<names>[^)]*)\)")
# What the prover says below a function of the goals that it has in the place of a lost one.
OFFERED = re.compile(r"^help: `Goals` has no `(?P<name>[^`]+)`; rattle asks for (?P<names>[^;]*)", re.M)
ASKED = re.compile(r"^note: .*?: it is not proved that .*?\(`(?P<name>[^`]+)`\)", re.M)
# Behind these words stand the conditions.
BEFORE = {"then", "else", "if", "in", "bounds", "returns"}


def lost(log, form, quoted):
    """The names of this form that files have and the edited code has not, each with those that are most like it, by file."""
    found = {}
    for error in edits.errors_of(log):
        it = form.match(f"{edits.place_of(error)}: {error['text']}")
        if it:
            found.setdefault(it["file"], []).append((it["name"], re.findall(quoted, it["names"])))
    return found


def function_of(crate, file):
    """The function whose answers stand in the file; the folder of one that calls itself has a `+`."""
    return "::".join([crate, *file.replace("+", "").split("/")[1:-1]])


def asked(log, path):
    """The goals of a function that are not proved, by its notes."""
    return ASKED.findall(edits.notes_of(log, path))


def start(one, other):
    """Where in two names, part by part, the conditions begin that are not the same."""
    first = next((i for i, (a, b) in enumerate(zip(one, other)) if a != b), min(len(one), len(other)))
    while first > 0 and one[first - 1] not in BEFORE:
        first -= 1
    return first


def pair(name, names):
    """What stands in the name in the place of a condition, and what in that of the names which is most like it; or nothing."""
    best = max(names, key=lambda other: difflib.SequenceMatcher(None, name, other).ratio(), default="")
    old, new = name.split("-"), best.split("-")
    first = start(old, new)
    if not first:
        return None
    old, new = old[first:], new[first:]
    while old and new and old[-1] == new[-1]:
        old, new = old[:-1], new[:-1]
    return ("-".join(old), "-".join(new)) if old and new else None


def one_each(pairs):
    """Two new texts for one old one are none."""
    pairs = dict.fromkeys(filter(None, pairs))
    return {old: new for old, new in pairs if sum(old == other for other, _ in pairs) == 1}


def called(log):
    """The steps that are named after a function which the edited code does not call there, where one other is offered."""
    for error in edits.errors_of(log):
        it = STEP.match(f"{edits.place_of(error)}: {error['text']}")
        names = re.findall(r"\.([^\s,]+)", it["names"]) if it else []
        if len(names) == 1 and not pair(it["name"], names):
            line, column = map(int, edits.place_of(error).split(":")[1:3])
            yield Stepped(it["file"], line, column, it["name"], names[0])


def renames(log, crate, text_of):
    """What to rename, in which file: by the goals that are lost, and by the steps. `text_of` gives a file's text: a name that it
    has already stands for something else."""
    offered = {it["name"]: re.findall(r"`([^`]+)`", it["names"]) for it in OFFERED.finditer(log)}
    goals, steps = lost(log, GONE, r"`([^`]+)`"), lost(log, STEP, r"\.([^\s,]+)")
    found = []
    for file in {**goals, **steps}:
        known = set(re.findall(r"[\w-]+", text_of(file)))
        new = asked(log, function_of(crate, file))
        by_goals = one_each(pair(name, [it for it in [*new, *like, *offered.get(name, ())] if it not in known])
                            for name, like in goals.get(file, ()))
        by_steps = one_each(pair(name, [it for it in like if it not in known]) for name, like in steps.get(file, ()))
        found += [Renamed(file, *it) for it in {**by_steps, **by_goals}.items()]
    # first what goes by its place
    return list(called(log)) + found


def renamed(text, one):
    if isinstance(one, Stepped):
        lines = text.split("\n")
        line = lines[one.line - 1]
        lines[one.line - 1] = line[:one.column - 1] + re.sub(rf"\.{re.escape(one.old)}(?![\w-])", f".{one.new}", line[one.column - 1:], count=1)
        return "\n".join(lines)
    return re.sub(rf"(?<=[\w]-){re.escape(one.old)}(?![\w-])", one.new, text)
