"""The definitions and worked answers of all crates as one crate without code. An importer sets sys.dont_write_bytecode first.

A definition is then judged by what is worked out of it, and not by the proofs of functions, whose code could be wrong with it.
Module M of a crate's specs/ or proofs/ is here the module CRATE_M. Of the sources only the types are kept.
"""
import re
from collections import namedtuple

from sources import crate_names

CRATE = "uncoded"
TYPE = re.compile(r"^((?:#\[[^\n]*\]\n)*)(?:pub(?:\(crate\))? )?((?:struct|enum) (\w+)(?:<[^>{]*>)? \{\n.*?^\})", re.M | re.S)
# What a type keeps true of itself, and the imports that this reads.
FACT = re.compile(r"\bghost \w+: \{([^{}]*)\}")
IMPORT = re.compile(r"^ghost use ([\w.]+)\.\{([^{}]*)\};", re.M)
ALIAS = re.compile(r"^()pub (type (\w+)\b[^;{]*;)", re.M)

# Where a module stands (`specs` or `proofs`), its name here, its text, and those of these modules that it uses.
Module = namedtuple("Module", "folder name text uses")


def renamed(text, crates):
    """The text with every name of a crate's module as it is here."""
    crate = rf"\bRattle\.({'|'.join(map(re.escape, crates))})"
    text = re.sub(rf"{crate}\.specs\.declared\.([a-z]\w*)\.", rf"Rattle.{CRATE}.specs.declared.\1_\2.", text)
    text = re.sub(rf"{crate}\.specs\.declared\.", rf"Rattle.{CRATE}.specs.declared.\1.", text)
    return re.sub(rf"{crate}\.(specs|proofs)\.(\w+)", rf"Rattle.{CRATE}.\2.\1_\3", text)


def used(text):
    found = re.findall(rf"\bRattle\.{CRATE}\.(specs|proofs)\.(\w+)", text)
    return {f"{folder}/{name}" for folder, name in found if name != "declared"}


def modules(root, worked):
    """The modules of every specs/, and of proofs/ those named `worked` with what they use, by `FOLDER/NAME`."""
    found = {}
    for crate in crate_names(root):
        for path in sorted((root / "crates" / crate).glob("*/*.antt")):
            folder, name = path.parent.name, path.stem
            if folder in ("specs", "proofs") and name != "Lib":
                text = renamed(path.read_text(), crate_names(root))
                found[f"{folder}/{crate}_{name}"] = Module(folder, f"{crate}_{name}", text, used(text))
    kept = {key for key in found if key.startswith("specs/") or key.split("_")[-1] in worked}
    new = kept
    while new:
        new = set().union(*(found[key].uses for key in new)) - kept
        kept |= new
    return {key: module for key, module in found.items() if key in kept}


def imports(text, crates):
    """Of a source's imports those that the facts of its types read."""
    facts = " ".join(FACT.findall(text))
    for path, names in IMPORT.findall(text):
        kept = [name for name in names.split(", ") if name.strip("◌") in re.findall(r"[^\s(){}]+", facts)]
        if kept:
            yield renamed(f"ghost use {path}.{{{', '.join(kept)}}};\n", crates)


def types(root):
    """The crates' types, by the module that they are put in here, and the imports that these need."""
    found, needed = {}, {}
    crates = crate_names(root)
    for crate in crates:
        for path in sorted((root / "crates" / crate / "src").glob("*.rt")):
            place = crate if path.stem in ("lib", "main") else f"{crate}_{path.stem}"
            text = path.read_text()
            needed[place] = "".join(imports(text, crates))
            for attributes, item, name in TYPE.findall(text) + ALIAS.findall(text):
                found.setdefault(place, {})[name] = f"{attributes}pub {item}\n"
    return found, needed


def sources(root):
    """The files of src/: a module for each crate's types, which names those that it uses of others."""
    found, needed = types(root)
    place = {name: module for module, items in found.items() for name in items}
    files = {"lib.rt": "#![tactic(auto)]\n\n" + "".join(f"pub mod {module};\n" for module in found)}
    for module, items in found.items():
        text = "\n".join(items.values())
        foreign = sorted({name for name in re.findall(r"\b[A-Z]\w*", text) if place.get(name, module) != module})
        files[f"{module}.rt"] = needed[module] + "".join(f"use crate::{place[name]}::{name};\n" for name in foreign) + "\n" + text
    return files


def write(folder, root, found):
    """The crate, in a repository of its own."""
    crate = folder / "crates" / CRATE
    for part in ("src", "specs", "proofs"):
        (crate / part).mkdir(parents=True, exist_ok=True)
    (folder / "crates.txt").write_text(f"{CRATE}:\n")
    for name, text in sources(root).items():
        (crate / "src" / name).write_text(text)
    put(folder, found.values())


def put(folder, found):
    """These modules in the crate's specs/ and proofs/, and no others."""
    crate = folder / "crates" / CRATE
    for part in ("specs", "proofs"):
        mine = {f"{module.name}.antt": module.text for module in found if module.folder == part}
        mine["Lib.antt"] = "".join(f"pub mod {name[:-5]}\n" for name in mine)
        for path in (crate / part).glob("*.antt"):
            if path.name not in mine:
                path.unlink()
        for name, text in mine.items():
            path = crate / part / name
            if not path.exists() or path.read_text() != text:
                path.write_text(text)
