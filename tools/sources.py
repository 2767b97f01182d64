"""The crates and their functions, as the sources have them. An importer sets sys.dont_write_bytecode first."""
import re
from collections import namedtuple

# `clauses` has the texts of `ensures` and of `requires`; `text` is all from `fn` to the closing bracket. `head` has the words of the
# `impl` or the trait in which it stands, and `owner` its name in a path, which is also that of a folder in proofs/. A function that an
# `impl` of a trait has is as public as the trait, and its `ensures` are those of the `impl`'s ghost members where it has none of its own;
# a trait of another crate or of the kit's is public.
Function = namedtuple("Function", "path owner name public clauses text head")


class Unreadable(Exception):
    pass


# ---- words

# Line comments, strings and characters (a lifetime has no closing quote).
QUIET = re.compile(r"""//[^\n]*|b?"(?:\\.|[^"\\])*"|b?'(?:\\.[^\n']*|[^'\\\n])'""", re.S)
PAIRS = {"{": "}", "(": ")", "[": "]"}


class Word(str):
    """A word or sign of a source, which knows where it stands."""

    def __new__(cls, found, source):
        word = super().__new__(cls, found.group())
        word.source, word.start, word.end = source, found.start(), found.end()
        return word


def between(first, last):
    """The source from one word to another, with both."""
    return first.source[first.start:last.end]


def comment_end(text, at):
    """Where the block comment at `at` ends; they nest."""
    depth = 0
    for mark in re.compile(r"/\*|\*/").finditer(text, at):
        depth += 1 if mark.group() == "/*" else -1
        if depth == 0:
            return mark.end()
    raise Unreadable("a comment is not closed")


def words_of(text):
    """The words and signs of a source, without comments and strings."""
    out, at = [], 0
    while at < len(text):
        quiet = QUIET.match(text, at)
        if quiet or text.startswith("/*", at):
            end = quiet.end() if quiet else comment_end(text, at)
            out.append(" " * (end - at))
            at = end
        else:
            out.append(text[at])
            at += 1
    return [Word(found, text) for found in re.finditer(r"\w+|->|\S", "".join(out))]


def closing(words, at):
    """The place of the bracket that closes the one at `at`."""
    opens, depth = words[at], 0
    for i in range(at, len(words)):
        depth += (words[i] == opens) - (words[i] == PAIRS[opens])
        if depth == 0:
            return i
    raise Unreadable(f"a `{opens}` is not closed")


def angle_closing(words, at):
    """The place of the `>` that closes the `<` at `at`."""
    depth = 0
    for i in range(at, len(words)):
        depth += (words[i] == "<") - (words[i] == ">")
        if depth == 0:
            return i
    raise Unreadable("a `<` is not closed")


# ---- what an `impl` is of

def parted(words, sign):
    """The words between the signs that stand in no bracket."""
    parts, depth = [[]], 0
    for word in words:
        depth += (word in ("(", "[", "{", "<")) - (word in (")", "]", "}", ">"))
        if word == sign and depth == 0:
            parts.append([])
        else:
            parts[-1].append(word)
    return [part for part in parts if part]


def impl_parts(head):
    """Of the words between `impl` and its body: the names of its own parameters, the trait's words, if any, and the type's."""
    own = []
    if head[:1] == ["<"]:
        end = angle_closing(head, 0)
        own, head = [part[1] if part[0] == "const" else part[0] for part in parted(head[1:end], ",")], head[end + 1:]
    if "where" in head:
        head = head[:head.index("where")]
    at = head.index("for") if "for" in head else None
    return own, head[:at] if at else [], head[at + 1:] if at else head


SHAPES = {"[": "Slice", "(": "Tuple"}


def camel(words, own):
    """The words of a type as one name, as the kit names the folder of an `impl`: its own parameters are left out."""
    shape = ["Array"] if words[:1] == ["["] and ";" in words else [SHAPES[words[0]]] if words[:1] in (["["], ["("]) else []
    names = [word for i, word in enumerate(words)
             if re.match(r"[^\W\d_]", word) and words[i - 1:i] != ["'"] and word not in own and word not in ("mut", "dyn", "const")
             and words[i + 1:i + 3] != [":", ":"]]
    ref = ["Ref"] if words[:1] == ["&"] else []
    return "".join(ref + shape + [name[0].upper() + name[1:] for name in names])


def folder_of(head):
    """The name of an `impl` in a path: of a type's own, the type's; of a trait's, that of both."""
    own, trait, of = impl_parts(head)
    if not trait:
        return str(of[0])
    return (camel(of, own) or "Any") + camel(trait, own)


def type_of(head):
    """The type that a function belongs to, as it is named in labels."""
    own, _, of = impl_parts(head)
    return camel(of, own) if of[0] in PAIRS or of[0] == "&" else str(of[0])


# ---- functions

# What may stand before `fn`.
BEFORE = ("extern", "const", "unsafe")


def function_at(words, at, path, head, gives=()):
    """The function whose `fn` stands at `at`, and the place of its body."""
    opens = at + 2
    if words[opens] == "<":
        opens = angle_closing(words, opens) + 1
    clauses, i = {"ensures": [], "requires": []}, closing(words, opens) + 1
    while words[i] not in ("{", ";"):
        if words[i] in clauses:
            opens = words.index("{", i)
            closes = closing(words, opens)
            clauses[words[i]].append(between(words[opens + 1], words[closes - 1]))
            i = closes + 1
        else:
            i = closing(words, i) + 1 if words[i] in PAIRS else i + 1
    clauses["ensures"] = clauses["ensures"] or list(gives)
    first = at
    while first > 0 and words[first - 1] in BEFORE:
        first -= 1
    in_trait = bool(head) and (head[0] == "trait" or "for" in head)
    public = in_trait or first > 0 and words[first - 1] == "pub"
    name = str(words[at + 1])
    owner = None if not head else str(head[1]) if head[0] == "trait" else folder_of(head[1:])
    text = between(words[at], words[closing(words, i) if words[i] == "{" else i])
    return Function("::".join(path + ([owner] if owner else []) + [name]), owner, name, public, clauses, text, head), i


def members_of(words):
    """The ghost members of an `impl`, each with its name before its text."""
    found = []
    for at, word in enumerate(words):
        if word == "ghost" and words[at + 2] == "=" and words[at + 3] == "{":
            found.append(between(words[at + 1], words[closing(words, at + 3)]))
    return found


def functions_of(words, path, head, folder, edited):
    """The functions of some items. A `pub fn` of a private module counts as public, since a
    `pub use` can hand it out; `pub(crate)` keeps one inside. `head` has the words of the `impl` or trait that they stand in."""
    found, at, gives = [], 0, members_of(words) if head and head[0] == "impl" else []
    while at < len(words):
        word, then = words[at], words[at + 2:at + 3]
        if word == "fn" and re.match(r"[^\W\d]", words[at + 1]):
            function, at = function_at(words, at, path, head, gives)
            if words[at] == "{":
                found.append(function)
                at = closing(words, at)
        elif word in ("impl", "trait") and not head:
            body = words.index("{", at)
            inner = words[at:body]
            at = closing(words, body)
            found += functions_of(words[body + 1:at], path, [str(one) for one in inner], folder, edited)
        elif word == "mod" and then in (["{"], [";"]):
            name, at = str(words[at + 1]), at + 2
            if then == ["{"]:
                inner, at = words[at + 1:closing(words, at)], closing(words, at)
            else:
                inner = module(folder, name, edited)
            found += functions_of(inner, path + [name], None, folder / name, edited)
        elif word in PAIRS:
            at = closing(words, at)
        else:
            at += 1
    return found


def module(folder, name, edited):
    """The words of a module's file, or of what an edit makes of it."""
    file = folder / f"{name}.rt"
    if not file.is_file():
        raise Unreadable(f"no file for `mod {name}`")
    return words_of(edited[file] if file in edited else file.read_text())


def owner_of(function):
    """The type or trait that the function belongs to, by its own name."""
    if not function.head:
        return None
    return function.owner if function.head[0] == "trait" else type_of(function.head[1:])


def label_of(function):
    """What the labels of the function's edits begin with."""
    return ".".join(filter(None, [owner_of(function), function.name]))


def trait_of(function):
    """The trait whose function this is, with its parameters, or nothing."""
    words = impl_parts(function.head[1:])[1] if function.head and function.head[0] == "impl" else []
    return re.sub(r" (?=[,;])|(?<=[\[(]) | (?=[\])])", "", re.sub(r" ?(::|[<>.&]) ?", r"\1", " ".join(words).replace(": :", "::")))


def trait_name(function):
    """The name of the trait whose function this is, also where the trait itself has it; or nothing."""
    if function.head and function.head[0] == "trait":
        return function.owner
    return re.sub(r".*::|<.*", "", trait_of(function))


def outside(function):
    """A function's name without its modules: a private module's items are handed out at the crate's root."""
    crate, trait = function.path.split("::")[0], trait_of(function)
    owner = f"<{owner_of(function)} as {trait}>" if trait else owner_of(function)
    return "::".join(filter(None, [crate, owner, function.name]))


# ---- crates

# What crates.txt says of a crate: whether C links it as a static library, and what it names itself, the kit's libraries too.
Row = namedtuple("Row", "is_static uses")
ROW = re.compile(r"^\s*(?P<name>\w+)(?P<static> +staticlib)? *:(?P<uses>[^#\n]*)", re.M)


def rows(root):
    text = (root / "crates.txt").read_text()
    return {found["name"]: Row(bool(found["static"]), found["uses"].split()) for found in ROW.finditer(text)}


def crate_names(root):
    return list(rows(root))


def crate_row(root, crate):
    return rows(root)[crate]


INNER = re.compile(r"^(?!pub trait)(?:pub\([^)]*\) )?trait (\w+)", re.M)


def crate_functions(root, crate, edited=None):
    """Whether the crate is a library, and its functions; `edited` has files with other texts than they have."""
    src = root / "crates" / crate / "src"
    library = (src / "lib.rt").is_file()
    functions = functions_of(module(src, "lib" if library else "main", edited or {}), [crate], None, src, edited or {})
    inner = {name for file in src.rglob("*.rt") for name in INNER.findall(file.read_text())}
    return library, [f._replace(public=False) if trait_name(f) in inner else f for f in functions]
