"""What the tools need of the kit beyond the commands of `rt`. An importer sets sys.dont_write_bytecode first.

`rt ci` leaves the libraries that it has proved in crates/NAME/out/rlib. Over these a crate is checked and built in the words
in which rt does it, and what lies below is not proved once more. Where they are missing, or older than their sources, `rt lib`
makes them.
"""
import os
import shutil
import subprocess
from pathlib import Path

import trial
from sources import crate_names, crate_row

_below = trial.load("below")
PARTS = ("src", "specs", "proofs")


class Failed(Exception):
    pass


def below(root, crate):
    """The crates that a crate stands on, lowest first."""
    return [name for name in _below.closure(root, crate) if name != crate]


def folder():
    """Where the kit stands: the command `rt` lies in its bin/."""
    rt = shutil.which("rt")
    if not rt:
        raise Failed("this machine has no command rt, the Rattle kit's")
    return Path(rt).resolve().parent.parent


def version():
    return subprocess.run(["rt", "version"], stdout=subprocess.PIPE, text=True, check=True).stdout.strip()


def files_of(root, crate):
    """All that a crate is proved from, but the libraries below it."""
    found = [file for part in PARTS for file in (root / "crates" / crate / part).rglob("*")]
    return sorted(file for file in found if file.is_file())


def is_program(root, crate):
    return (root / "crates" / crate / "src/main.rt").is_file()


def out(root, crate):
    return root / "crates" / crate / "out"


def rlib(root, crate):
    return out(root, crate) / f"rlib/{crate}.rlib"


def newest(root, crate):
    return max(file.stat().st_mtime for file in [*files_of(root, crate), root / "crates.txt"])


def made_by_ci(root, crates):
    """Whether `rt ci` made the libraries that stand there, from what is in the tree now. Those of other commands have a stamp,
    which only rt can read, and one of theirs does not go with one of rt ci's."""
    return all(
        rlib(root, crate).is_dir()
        and not (out(root, crate) / "rlib/stamp").exists()
        and rlib(root, crate).stat().st_mtime >= newest(root, crate)
        for crate in crates
    )


def rt(root, crate, *words):
    """Runs a command of rt in the crate's folder; what it says goes to the standard error."""
    ran = subprocess.run(["rt", *words], cwd=root / "crates" / crate, stdin=subprocess.DEVNULL, stdout=2)
    if ran.returncode:
        raise Failed(f"`rt {' '.join(words)}` in crates/{crate}: exit status {ran.returncode}")


def make_libraries(root, crate):
    """Has the libraries below the crate stand there."""
    under = below(root, crate)
    if not made_by_ci(root, under):
        for name in under:
            rt(root, name, "lib")


def words(root, crate):
    """What rt says to its compiler of a crate whose folder it is called in, over the libraries in the tree."""
    root, kit, row = root.resolve(), folder(), crate_row(root, crate)
    said = ["--crate-name", crate, "src/main.rt" if is_program(root, crate) else "src/lib.rt"]
    for name in ["std", *(name for name in row.uses if name not in crate_names(root))]:
        said += ["--extern", f"{name}={kit}/rlibs/{name}.rlib"]
    said += ["-L", f"dependency={kit}/rlibs"]
    for name in row.uses:
        if name in crate_names(root):
            said += ["--extern", f"{name}={rlib(root, name)}"]
    for name in below(root, crate):
        said += ["-L", f"dependency={rlib(root, name).parent}"]
    said += ["--antt-project", f"{kit}/rattle/logic/antt-project.json", "--logic-built", f"{kit}/logic_built"]
    said += ["--jobs", "1", "--links", f"{crate}="]
    return said + (["--crate-type", "staticlib"] if row.is_static else [])


def check(folder_of_crate, said, kept=None):
    """What the prover says of the crate in a folder, and whether that is a proof; `kept` has what an earlier run proved."""
    command = [folder() / "bin/rattle", "check", *said, *(["--incremental", kept] if kept else [])]
    ran = subprocess.run(command, cwd=folder_of_crate, stdin=subprocess.DEVNULL, stdout=subprocess.PIPE,
                         stderr=subprocess.STDOUT, text=True, errors="replace")
    return ran.stdout, ran.returncode == 0


def is_current(root, crate, file):
    """Whether the file is newer than all that it was built from."""
    return file.is_file() and file.stat().st_mtime >= max(newest(root, name) for name in [*below(root, crate), crate])


def build_archive(root, crate):
    """Writes out/libNAME.a of a static library: over what rt ci made, or by `rt lib`."""
    archive = out(root, crate) / f"lib{crate}.a"
    if is_current(root, crate, archive):
        return archive
    if made_by_ci(root, below(root, crate)):
        archive.parent.mkdir(exist_ok=True)
        archive.unlink(missing_ok=True)
        made = ["--toolchain", folder() / "toolchain", "--backend", "llvm", "-o", archive.resolve()]
        ran = subprocess.run([folder() / "bin/rattle", "build", *words(root, crate), *made], cwd=root / "crates" / crate,
                             stdin=subprocess.DEVNULL, stdout=2)
        if ran.returncode:
            raise Failed(f"crates/{crate} is not built: exit status {ran.returncode}")
    else:
        rt(root, crate, "lib")
    return archive


def build_program(root, crate):
    """The program that rt ci has built from what is in the tree now, or that `rt run` does."""
    program = out(root, crate) / crate
    if not is_current(root, crate, program):
        ran = subprocess.run(["rt", "run"], cwd=root / "crates" / crate, stdin=subprocess.DEVNULL, stdout=subprocess.PIPE)
        if not is_current(root, crate, program):
            raise Failed(f"`rt run` in crates/{crate} does not build it: exit status {ran.returncode}")
    return program
