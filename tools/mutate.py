"""The wrong forms of a file of definitions, each with one place changed. An importer sets sys.dont_write_bytecode first.

Changed are numbers, comparisons, connectives, truth values, names of cases and of operations, texts; conjuncts, rungs, summands
and a record's conditions are left out; rungs, arguments and a record's values are exchanged.
"""
import re
from collections import namedtuple

TOKEN = re.compile(r'''"(?:[^"\\]|\\.)*"|0x[0-9A-F_]+|\d[\d_]*(?![\w'])|\.?«\w+»|[.]?[^\W\d][\w'₁₂-]*|[(){};]|--[^\n]*|[^\s\w(){};"«»]+''')
OTHER = {
    "&&": "||", "||": "&&", "ltb": "leb", "leb": "ltb", "nat_lt": "nat_le", "nat_le": "nat_lt", "true": "false", "false": "true", "min": "max", "max": "min",
    "take": "drop", "drop": "take", "/": "%", "%": "/", "+": "*", "*": "+", "high_byte": "low_byte", "low_byte": "high_byte",
    "≤": "<", "<": "≤",
}
# Where they come from, for a file that names only the one.
FROM = {
    "Rattle.std.specs.Prelude": ["◌&&◌", "◌||◌", "true", "false", "ltb", "leb", "nat_lt", "nat_le", "take", "drop",
                                 "◌+◌", "◌*◌", "◌/◌", "◌%◌", "min", "max", "◌<◌", "◌≤◌"],
    "Rattle.uncoded.specs.wire_Bytes": ["high_byte", "low_byte"],
}
# What stands between the parts of an expression; an application is what stands between two of these.
BETWEEN = {"(", ")", "{", "}", ";", "=", "if", "then", "else", "let", "in", "→", "×", "≡", "∷", "++", "&&", "||", "+", "-", "*", "/", "%", "^", "-ℤ", ":", "λ", ".", "≤", "<", "==", "≢", "record", ","}
SYMMETRIC = {"eqb", "min", "max"}  # whose arguments exchanged say the same
JOINED = ["&&", "||", "++", "×"]  # a side of these can be left out
SWAPPED = ["++", "∷", "-", "/", "%", "-ℤ", "≤", "<"]  # and of these the sides can be exchanged
BOUND = re.compile(r"\([\w '₁₂]+ : ")
Token = namedtuple("Token", "text start end")


def tokens(text, start, end):
    return [Token(m.group(), m.start(), m.end()) for m in TOKEN.finditer(text, start, end) if not m.group().startswith("--")]


def greater(number):
    plain = number.replace("_", "")
    return f"0x{int(plain, 16) + 1:X}" if plain.startswith("0x") else str(int(plain) + 1)


def bodies(text):
    """Where the right sides of the equations stand, and the conditions of a record (`pub NAME : ..`)."""
    equations, conditions = [], []
    lines = list(re.finditer(r"[^\n]*\n?", text))
    for i, line in enumerate(lines):
        whole = line.group()
        if re.match(r"\s*(--|use |infix|module |(pub )?(record|data|mod) |\w* ?unfolding)", whole) or not whole.strip():
            continue
        indent = len(whole) - len(whole.lstrip())
        end, j = line.end(), i + 1
        while j < len(lines) and lines[j].group().strip() and len(lines[j].group()) - len(lines[j].group().lstrip()) > indent:
            end, j = lines[j].end(), j + 1
        condition = re.match(r"\s+pub [\w-]+ :", whole)
        if condition:
            conditions.append((line.start(), end))
        elif re.match(r"\s*(abbrev|unfoldable|pub) ", whole):
            continue
        elif indent <= 2 and (found := re.search(r"(?<![=≡])=(?= |\n)", text[line.start():end])):
            equations.append((line.start() + found.end(), end))
    return equations, conditions


def with_name(text, word):
    """The text, with a line that brings the word in where it has none."""
    for home, names in FROM.items():
        for name in names:
            if word == name.strip("◌") and not re.search(rf"^use [\w.]+\.\{{[^}}]*(?<![\w-]){re.escape(name)}(?![\w-])", text, re.M):
                if not re.search(rf"^\s*(abbrev|unfoldable|pub)[^\n]* {re.escape(word)} :", text, re.M):
                    return re.sub(r"^use ", f"use {home}.{{{name}}}\nuse ", text, count=1, flags=re.M)
    return text


def groups(toks):
    """For each opening bracket its closing one, by place."""
    pairs, stack = {}, []
    for i, token in enumerate(toks):
        if token.text in "({":
            stack.append(i)
        elif token.text in ")}" and stack:
            pairs[stack.pop()] = i
    return pairs


def applications(toks):
    """The runs of atoms: a function and its arguments, each as (first, last) places."""
    pairs, found = groups(toks), []
    between = BETWEEN if any(token.text == "if" for token in toks) else BETWEEN - {"then"}

    def walk(at, end):
        atoms = []
        while at < end:
            word = toks[at].text
            if word == "(" or (word == "{" and atoms):
                last = pairs.get(at, end - 1)
                walk(at + 1, last)
                atoms.append((at, last))
                at = last + 1
            elif word == "{":
                last = pairs.get(at, end - 1)
                walk(at + 1, last)
                at = last + 1
            elif word == "record" and at + 1 < end and toks[at + 1].text == "{":
                last = pairs.get(at + 1, end - 1)
                walk(at + 2, last)
                atoms.append((at, last))
                at = last + 1
            elif word in between:
                if len(atoms) > 1:
                    found.append(atoms)
                atoms, at = [], at + 1
            elif word.startswith(".") and len(word) > 1 and atoms:
                atoms[-1] = (atoms[-1][0], at)
                at += 1
            else:
                atoms.append((at, at))
                at += 1
        if len(atoms) > 1:
            found.append(atoms)

    walk(0, len(toks))
    return found


class Changes:
    """The wrong forms of one text, gathered as (where, new text)."""

    def __init__(self, text, cases):
        self.text, self.cases, self.found = text, cases, []

    def put(self, start, end, new):
        wrong = self.text[:start] + new + self.text[end:]
        if wrong != self.text:
            self.found.append((start, with_name(wrong, new)))

    def swap(self, one, other):
        """Two pieces (start, end) exchanged, the first before the second; but names that are bound come in their order."""
        first, second = self.text[one[0]:one[1]], self.text[other[0]:other[1]]
        if BOUND.match(first) or BOUND.match(second):
            return
        self.put(one[0], other[1], second + self.text[one[1]:other[0]] + first)

    def words(self, toks):
        for token in toks:
            word = token.text
            if re.fullmatch(r"0x[0-9A-F_]+|\d[\d_]*", word):
                self.put(token.start, token.end, greater(word))
            elif word.startswith('"'):
                self.put(token.start, token.end, word[:-1] + 'x"')
            elif word in OTHER:
                self.put(token.start, token.end, OTHER[word])
            elif word in ("not", "suc"):
                self.put(token.start, token.end, "")
            for case in self.cases.get(word, ()):
                self.put(token.start, token.end, case)

    def calls(self, toks):
        def piece(atom):
            return toks[atom[0]].start, toks[atom[1]].end

        for atoms in applications(toks):
            head = toks[atoms[0][0]].text
            for one, other in zip(atoms[1:], atoms[2:]) if head not in SYMMETRIC else ():
                self.swap(piece(one), piece(other))
            for part in {"refuse": [3], "cond": [2, 3], "then": [1, 2]}.get(head, []):
                if len(atoms) > part:
                    start, end = piece(atoms[part])
                    self.put(toks[atoms[0][0]].start, toks[atoms[-1][1]].end, self.text[start:end])
            if head in ("refuse", "cond") and len(atoms) > 3:
                self.rungs(toks, atoms, piece)

    def rungs(self, toks, atoms, piece):
        """This rung and the next exchanged: their tests with what they give. It says the same where both give the same, or where
        the tests ask one thing for two numbers."""
        first, last = atoms[3]
        for nested in applications(toks[first + 1:last]):
            if nested[0][0] == 0 and toks[first + 1].text == toks[atoms[0][0]].text and len(nested) > 3:
                pieces = [piece((first + 1 + a, first + 1 + b)) for a, b in nested[1:3]]
                tests = [self.text[slice(*at)] for at in (piece(atoms[1]), pieces[0])]
                gives = [self.text[slice(*at)] for at in (piece(atoms[2]), pieces[1])]
                asked = [re.fullmatch(r"\((?:eqb (.*) (\w+)|(.*) == (\w+))\)", test) for test in tests]
                if gives[0] != gives[1] and not (all(asked) and (asked[0][1] or asked[0][3]) == (asked[1][1] or asked[1][3])):
                    self.swap((piece(atoms[1])[0], piece(atoms[2])[1]), (pieces[0][0], pieces[1][1]))

    def sides(self, toks):
        """Sides of an operation left out or exchanged, as far as brackets, commas and weaker operations reach."""
        stop = {"(", ")", "{", "}", ";", "=", "if", "then", "else", "in", "→", "λ", ".", ","}
        pairs = groups(toks)
        back = {last: first for first, last in pairs.items()}
        for i, token in enumerate(toks):
            if token.text not in JOINED + SWAPPED:
                continue
            left, right = i - 1, i + 1
            while left >= 0 and toks[left].text not in stop - {")", "}"} and toks[left].text not in JOINED + SWAPPED + ["≡"]:
                left = back.get(left, left) - 1
            while right < len(toks) and toks[right].text not in stop - {"(", "{"} and toks[right].text not in JOINED + SWAPPED + ["≡"]:
                right = pairs.get(right, right) + 1
            one, other = (toks[left + 1].start, toks[i - 1].end), (toks[i + 1].start, toks[right - 1].end)
            if one[0] >= one[1] or other[0] >= other[1]:
                continue
            if token.text in JOINED and not BOUND.match(self.text, one[0]) and not BOUND.match(self.text, other[0]):
                self.put(one[0], other[1], self.text[one[0]:one[1]])
                self.put(one[0], other[1], self.text[other[0]:other[1]])
            if token.text in SWAPPED:
                self.swap(one, other)

    def fields(self, toks):
        """Neighbouring values of a record exchanged."""
        pairs = groups(toks)
        for i, token in enumerate(toks):
            if token.text != "{" or i == 0 or toks[i - 1].text != "record":
                continue
            values, at, first = [], i + 1, None
            while at < pairs.get(i, i):
                if toks[at].text == "=":
                    first = at + 1
                elif toks[at].text == ";" and first:
                    values.append((toks[first].start, toks[at - 1].end))
                    first = None
                at = pairs.get(at, at) + 1
            if first and first < pairs[i]:
                values.append((toks[first].start, toks[pairs[i] - 1].end))
            for one, other in zip(values, values[1:]):
                self.swap(one, other)


def cases_of(text):
    """Each case that the file names, with the one that is named after it."""
    found = {}
    for names in re.findall(r"\.TheVariants\.\{([^}]*)\}", text):
        listed = [name.strip() for name in names.split(",")]
        for one, other in zip(listed, listed[1:] + listed[:1]):
            if one != other:
                found[one] = [other]
    for names in re.findall(r"^  (?!pub )((?:[a-z]\w* )+)(?=: \w+$)", text, re.M):
        listed = names.split()
        for one, other in zip(listed, listed[1:] + listed[:1]):
            if one != other:
                found[one] = [other]
    return found


def wrongs(text):
    """The line, and the whole text with one place there changed; no two texts are the same."""
    changes = Changes(text, cases_of(text))
    equations, conditions = bodies(text)
    for start, end in equations + conditions:
        toks = tokens(text, start, end)
        changes.words(toks)
        changes.calls(toks)
        changes.sides(toks)
        changes.fields(toks)
    statement = re.compile(r"[≡≤<×]| → ")
    for start, end in conditions:
        if statement.search(text, start, end):
            changes.put(start, end, "")
    seen = set()
    for start, wrong in sorted(changes.found, key=lambda change: change[0]):
        if wrong not in seen:
            seen.add(wrong)
            yield text.count("\n", 0, start) + 1, wrong


def differing(text, wrong):
    """The changed lines of the wrong text, in one; not a name that was brought in."""
    old, new = ([line for line in lines.split("\n") if not line.startswith("use ")] for lines in (text, wrong))
    first = next(i for i, (a, b) in enumerate(zip(old, new)) if a != b)
    more = len(new) - len(old)
    last = next((i for i in range(len(new), first, -1) if i - more < 1 or old[i - more - 1] != new[i - 1]), first)
    return " ".join(" ".join(new[first:last]).split()) or f"without: {old[first].strip()}"
