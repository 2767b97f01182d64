"""Boards of examples/board.c that run, and what is asked of them, for tools/test_board. An importer sets
sys.dont_write_bytecode first."""
import errno
import itertools
import os
import select
import socket
import subprocess
import time
from pathlib import Path

from board import PATIENCE

HOST = 0x40


def frame(address, command, *values):
    begin = bytes([0xA5, address, command, 8, *values, *bytes(8 - len(values))])
    return begin + bytes([sum(begin) % 256])


def request(command, *values):
    return frame(HOST, command, *values)


def unlike(wanted, found):
    return None if wanted == found else f"wanted {wanted!r} found {found!r}"


def first(faults):
    """The first fault, and no work behind it."""
    return next((fault for fault in faults if fault), None)


class Bench:
    """A program, and a folder for states."""

    def __init__(self, program, folder):
        self.program, self.folder, self.numbers = program, Path(folder), itertools.count()

    def path(self, text):
        path = self.folder / f"state{next(self.numbers)}"
        path.write_bytes(text.encode() if isinstance(text, str) else text)
        return path

    def start(self, *words):
        """What is printed and told where there is nothing to hear, and the exit status."""
        ran = subprocess.run([self.program, *words], stdin=subprocess.DEVNULL, capture_output=True, timeout=PATIENCE)
        return ran.stdout.decode(), ran.stderr.decode(), ran.returncode

    def run(self, state, options, stream):
        """What is sent for a stream that then ends; or a fault."""
        ran = subprocess.run([self.program, self.path(state.text), "--stdio", *options], input=stream,
                             capture_output=True, timeout=PATIENCE)
        return ran.stdout, unlike((b"", 0), (ran.stderr, ran.returncode))


class Running:
    """A board that runs while this is open."""

    def __exit__(self, *_):
        self.ran.kill()
        self.ran.communicate()
        self.close()


class OnTerminal(Running):
    def __init__(self, bench, state, options=()):
        self.ran = subprocess.Popen([bench.program, bench.path(state.text), *options], stdin=subprocess.DEVNULL,
                                    stdout=subprocess.PIPE, stderr=subprocess.PIPE, text=True)

    def __enter__(self):
        self.path = self.ran.stdout.readline().rstrip("\n")
        self.port = os.open(self.path, os.O_RDWR | os.O_NOCTTY)
        return self

    def close(self):
        if self.port is not None:
            os.close(self.port)

    def reopen(self):
        """After a while in which nobody has the port. A fault where it is gone then: its path may soon be another's."""
        self.close()
        self.port = None
        time.sleep(0.05)
        if self.ran.poll() is not None:
            return f"{self.path}: the board has ended"
        try:
            self.port = os.open(self.path, os.O_RDWR | os.O_NOCTTY)
        except OSError as gone:
            return f"{self.path}: {gone.strerror}"
        return None

    def read(self, most):
        """What came. A line whose board has ended is at its end for one reader and fails another: here it fails both."""
        came = os.read(self.port, most)
        if not came:
            raise OSError(errno.EIO, os.strerror(errno.EIO), self.path)
        return came

    def comes(self, seconds):
        return bool(select.select([self.port], [], [], max(0, seconds))[0])

    def hear(self, silence):
        """What comes until nothing did for so many seconds."""
        heard = b""
        while self.comes(silence):
            heard += self.read(4096)
        return heard

    def ask(self, question, length):
        """So many bytes, or what there is."""
        os.write(self.port, question)
        heard, until = b"", time.monotonic() + PATIENCE
        while len(heard) < length and self.comes(until - time.monotonic()):
            heard += self.read(length - len(heard))
        return heard


class OnSocket(Running):
    """Standard input and output are a socket that keeps the pieces in which each side writes."""

    def __init__(self, bench, state, options=()):
        self.socket, end = socket.socketpair(socket.AF_UNIX, socket.SOCK_SEQPACKET)
        self.socket.settimeout(PATIENCE)
        with end:
            self.ran = subprocess.Popen([bench.program, bench.path(state.text), "--stdio", *options], stdin=end,
                                        stdout=end, stderr=subprocess.PIPE)

    def __enter__(self):
        return self

    def close(self):
        self.socket.close()

    def rest(self):
        """The pieces that come once nothing more is asked."""
        self.socket.shutdown(socket.SHUT_WR)
        return list(iter(lambda: self.socket.recv(4096), b""))
