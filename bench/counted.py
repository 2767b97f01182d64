"""Counts the instructions of a program's one call of a function, with all that it calls. An importer sets
sys.dont_write_bytecode first.

By callgrind; where the processor is not x86-64, by the emulator, which logs every instruction that it runs. Each
iteration of a repeated string instruction is logged and counts once, as callgrind has it.
"""
import fnmatch
import platform
import re
import subprocess

EMULATOR = "qemu-x86_64-static"
# An instruction's place, and the function that it is of.
RUN = re.compile(r"Trace \d+: \S+ \[[0-9a-f]+/([0-9a-f]+)/.*?\] ?(.*)")
LONGEST = 15  # bytes of an instruction


def by_callgrind(function, program, words):
    run = subprocess.run(
        ["valgrind", "--tool=callgrind", "--callgrind-out-file=/dev/null", f"--toggle-collect={function}", program, *words],
        check=True, capture_output=True, text=True)
    return int(re.search(r"Collected : (\d+)", run.stderr).group(1))


def within(log, function):
    """The places that were run, from the function's first to the one behind the call of it."""
    last = called = None
    for line in log:
        run = RUN.match(line)
        if not run:
            continue
        at = int(run[1], 16)
        if called is None and fnmatch.fnmatch(run[2], function):
            called = last
        elif called is not None and called < at <= called + LONGEST:
            return
        if called is not None:
            yield at
        last = at


def by_emulator(function, program, words):
    with subprocess.Popen([EMULATOR, "-singlestep", "-d", "nochain,exec", program, *words], stderr=subprocess.PIPE,
                          stdout=subprocess.DEVNULL, text=True) as run:
        count, last = 0, None
        for at in within(run.stderr, function):
            count += at != last
            last = at
        for _ in run.stderr:
            pass
    if run.returncode or not count:
        raise SystemExit(f"{program}: ended with {run.returncode}, {count} instructions of {function}")
    return count


def instructions(function, program, *words):
    count = by_callgrind if platform.machine() == "x86_64" else by_emulator
    return count(function, str(program), words)
