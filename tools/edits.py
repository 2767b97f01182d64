"""The must-fail edits, and what the prover said of each (tools/refusals). An importer sets sys.dont_write_bytecode first.

An edit F.WHAT changes the text of the function F, public or not. A file together.WHAT.edit holds edits of
several functions, one of each: each begins with the line `# F.WHAT: what is wrong`. A file F.WHAT.edit is one
edit by itself: of a definition or a constant, which F then does not meet, or of more than one function. Its
comment says what is wrong.

An edit keeps its name where its function has gone into another one: tools/renamed says which.
"""
import re
from collections import namedtuple

import sources

# A file of one edit or more, and the log of its refusal.
EditFile = namedtuple("EditFile", "crate label file log")
# `pairs` has (file, old, new).
Edit = namedtuple("Edit", "label says pairs")

# The name of a file of several edits begins with this.
TOGETHER = "together."
HEAD = re.compile(r"# (?P<label>\w+(?:\.\w+)+): (?P<says>\S.*)")


# ---- the files

def files_of(root, crate):
    for file in sorted((root / "crates" / crate / "must-fail").glob("*.edit")):
        label = file.name.removesuffix(".edit")
        yield EditFile(crate, label, file, root / "target/must-fail" / crate / f"{label}.log")


def is_together(file):
    return file.label.startswith(TOGETHER)


def prefix_of(label):
    return label.rpartition(".")[0]


RENAMED = re.compile(r"^(\w+) (\S+) +(\S.*)$", re.M)


def renamed(root):
    """By crate and what a label begins with: the paths of the functions that have taken the named one's place."""
    file = root / "tools/renamed"
    found = RENAMED.findall(file.read_text()) if file.is_file() else []
    return {(crate, prefix): paths.split() for crate, prefix, paths in found}


def is_of(root, function, label):
    """Whether the label can be of this function; one that begins with a trait's name is of it in every `impl`."""
    now = renamed(root).get((function.path.split("::")[0], prefix_of(label)))
    in_trait = f"{sources.trait_name(function)}.{function.name}"
    return function.path in now if now else prefix_of(label) in (sources.label_of(function), in_trait)


def read_lines(lines, edits):
    """Adds what the lines say to the edits, and yields each line that is none of an edit."""
    place = old = None
    for line in filter(str.strip, lines):
        head, value = HEAD.match(line), line.partition(":")[2].removeprefix(" ")
        if head:
            edits.append(Edit(head["label"], [head["says"]], []))
        elif edits and line.startswith("file: "):
            place = value
        elif edits and line.startswith("old: "):
            old = value
        elif edits and line.startswith("new:"):
            edits[-1].pairs.append((place, old, value))
        else:
            yield line


def read_one(file):
    """The edit of a file of one; all other lines are what it says."""
    edit = Edit(file.label, [], [])
    edit.says.extend(line.removeprefix("#").strip() for line in read_lines(file.file.read_text().splitlines(), [edit]))
    return edit


def read_together(file):
    """The edits of a file of several, and what is wrong with the file's form, or nothing."""
    edits, wrong = [], []
    for line in read_lines(file.file.read_text().splitlines(), edits):
        stands = "neither a line `# F.WHAT: ..` nor one of a pair is" if edits else "before its first line `# F.WHAT: ..` stands"
        wrong.append(f"{stands} `{line}`")
    for i, edit in enumerate(edits):
        if prefix_of(edit.label) in [prefix_of(other.label) for other in edits[:i]]:
            wrong.append(f"{edit.label} is the second edit of its function: one error cannot show both")
    wrong += [f"{edit.label} has no pair" for edit in edits if not edit.pairs]
    return edits, next(iter(wrong), None if edits else "it holds no edit")


def edits_of(files):
    """All edits, also of those that stand in one file."""
    for file in files:
        yield from read_together(file)[0] if is_together(file) else [read_one(file)]


def changed(root, crate, functions, edit):
    """The functions whose text the edit changes."""
    edited = {}
    for place, old, new in edit.pairs:
        file = root / "crates" / crate / place
        text = edited.get(file) or (file.read_text() if file.is_file() else "")
        edited[file] = text.replace(old, new, 1)
    after = {function.path: function.text for function in sources.crate_functions(root, crate, edited)[1]}
    return [function for function in functions if after.get(function.path) != function.text]


def meant(root, crate, functions, edit):
    """The functions that the edit's label can be of: of several those whose text it changes, if any."""
    found = [function for function in functions if is_of(root, function, edit.label)]
    paths = [function.path for function in changed(root, crate, functions, edit)] if len(found) > 1 else []
    return [function for function in found if function.path in paths] or found


def turns_type(root, crate, function, edit):
    """Whether the edit changes a type that the function's `impl` names and nothing else: a conversion can be said there, by the
    numbers of an enum."""
    names = [word for word in function.head or () if re.match(r"[A-Z]", word)]
    for place, old, _ in edit.pairs:
        file = root / "crates" / crate / place
        text = file.read_text() if file.is_file() else ""
        types = [re.search(rf"^(?:pub )?(?:enum|struct) {name}\b.*?^\}}", text, re.M | re.S) for name in names]
        if not any(found and old in found.group() for found in types):
            return False
    return bool(edit.pairs)


# ---- the logs

ERROR = re.compile(r"^(?!note: |fn |\s)(?P<place>.*?): error(?P<code>\[[\w-]+\])?: (?:`(?P<lemma>[^`]*)`: )?(?P<text>.*)")
# An error that only follows from another one.
FOLLOWS = re.compile(r"was not admitted")
# What the prover says where a fact does not hold. Anything else, also a wording that is new, shows nothing.
FACTS = re.compile("|".join([
    r"`omega`: .*does not follow from what it read",
    r"`search`: no proof of `",
    r"`(?:simp|rw)`: no (?:equation of the list has an instance|occurrence of the path's (?:left|right) endpoint) in the (?:goal|hypothesis's type)",
    r"`(?:simp|rw)` has no last argument, so what it leaves must be a path whose two ends are equal, and ",
    r"the two (?:types|values|sides) (?:first differ|differ only) where one has `",
    r"expected type `.*`,? but this has type `",
    r"` ≟ `.*`:? does not hold",
]))
# In the same wordings the prover says that an edit left names or forms which do not fit: nothing was to be proved.
UNFIT = [
    (r"\.Goals` has no `", "the proof names a goal that the edited code does not have"),
    (r"that can be named from here|^`[^`]*` is not in scope", "a name is unknown"),
    (r"has no field `", "the proof names a step that the edited code does not take"),
    (r"^expected a type, but|^this is applied to an argument but has type `Type|^this pattern needs a function",
     "the proof is for code with other loops or steps"),
    (r"^expected type `[^`]*[gG]oals?\.[^`]*`, but this has type `[^`]*[gG]oals?\.|first differ where one has `(\(c : )?\S*[lL]ts\.(After|Then|Else|Start)",
     "the edited code asks for other goals than the proof answers"),
    (r"has no function `", "the function of a proof is gone"),
    (r"`Prim\.Unit \{0\}` \(expected\)", "the contract is gone, so nothing was to be proved"),
]


def errors_of(log):
    """The errors; a long one goes on in the indented lines below it."""
    whole = re.sub(r"\n[ \t]+(?=\S)", " ", log)
    return [m for m in map(ERROR.match, whole.splitlines()) if m]


def first_cause(errors):
    """The first error that does not only follow from another one."""
    return next((e for e in errors if not FOLLOWS.search(e["text"])), None)


def place_of(error):
    """Where the error is, from the crate's folder."""
    return error["place"].removeprefix("./")


def is_refused(log):
    return bool(re.search(r"^logic=not-proved", log, re.M))


def unjudged(log, first):
    """Why the prover has not refused the edited code, or nothing."""
    if first and first["code"]:
        return f"the compiler refuses the source: error{first['code']}: {first['text'][:100]}"
    if not is_refused(log):
        return "not refused: its log does not say logic=not-proved"
    return None


def malformed(error):
    """Why the error leaves nothing to be proved, or nothing."""
    for part, what in (("specs/", "a definition"), ("src/", "a contract")):
        if place_of(error).startswith(part):
            return f"{what} is not well formed: {error['text'][:100]}"
    return None


def unfit(error):
    """Why the error says nothing of what was to be proved, or nothing."""
    for pattern, fault in UNFIT:
        if re.search(pattern, error["text"]):
            return f"{fault}: {error['text'][:100]}"
    return None if FACTS.search(error["text"]) else f"no wording that shows a fact failing: {error['text'][:100]}"


def untried(log):
    """Why nothing was tried of what was to be proved without a proof file, or nothing."""
    tried = re.search(r"^note: .*: it is not proved that ", log, re.M)
    return None if tried else "no obligation was tried: the edited code needs another proof"


def empty_refusal(log):
    """Why the log shows no obligation that is not met, or nothing."""
    first = first_cause(errors_of(log))
    fault = unjudged(log, first)
    if fault or not first:
        return fault or untried(log)
    return malformed(first) or unfit(first)


def notes_of(log, path):
    """What stands above the line of a function, down from the item before."""
    above, line, _ = log.partition(f"\nfn {path}: ")
    return re.split(r"^(?:fn|struct|enum) ", above, flags=re.M)[-1] if line else ""


# Of a goal for which it has found such values.
FALSE = re.compile(r"^note: .*: it is not proved that .*; the facts known there allow values at which this goal is false", re.M)


def is_false(log, function):
    """Whether the prover says of one of the function's goals that it is false."""
    return bool(FALSE.search(notes_of(log, function.path)))


def is_lost(log, function):
    return bool(re.search(rf"^fn {re.escape(function.path)}: (not proved|no proof)", log, re.M))


def unread(file):
    """Why there is no log to judge by, or nothing."""
    if re.search(r"^file: proofs/", file.file.read_text(), re.M):
        return "it edits a proof, and so shows nothing of the code"
    if not file.log.is_file():
        return "no log of its refusal: it has not been tried"
    bad = re.search(r"^BAD EDIT: .*", file.log.read_text(errors="replace"), re.M)
    return bad.group() if bad else None


# ---- of several edits in one file, each by its function's own error

def shared_fault(file):
    """What is wrong with a file of several edits as a whole, or nothing."""
    fault = read_together(file)[1] or unread(file)
    if fault:
        return fault
    log = file.log.read_text(errors="replace")
    errors = errors_of(log)
    fault = unjudged(log, first_cause(errors))
    return fault or next(filter(None, (malformed(error) for error in errors)), None)


def own_errors(log, function):
    """The errors in the function's own proof; that of a function which calls itself has a `+`."""
    *modules, name = map(re.escape, function.path.split("::")[1:])
    folder = re.compile("/".join(["proofs", *modules, rf"\+?{name}/"]))
    return [error for error in errors_of(log) if folder.match(place_of(error))]


def own_notes(log, function):
    """What is said of a function without a proof file; else nothing."""
    return notes_of(log, function.path) if f"\nfn {function.path}: no proof" in log else None


def own_fault(log, function):
    """Why the log shows no obligation of this function that is not met, or nothing."""
    if not is_lost(log, function):
        return f"{function.path} is still proved: the edit shows nothing of it"
    first, notes = first_cause(own_errors(log, function)), own_notes(log, function)
    if is_false(log, function):
        return None
    if first:
        return unfit(first)
    if notes is None:
        return f"{function.path} has no error of its own: it is lost with another"
    return untried(notes)
