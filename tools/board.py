"""A board played on a pseudo-terminal, for tools/test_controllers. An importer sets sys.dont_write_bytecode first."""
import fcntl
import os
import select
import termios
import threading
import time
import tty
from collections import namedtuple

# What is to be asked, in hexadecimal, what the board sends, in bytes, and after how many seconds.
Exchange = namedtuple("Exchange", "question sends late", defaults=[0])
HANG_UP = object()  # instead of what is sent
# How a line of two wires sends each question back, before anything else: how often, and whether in pieces.
Echo = namedtuple("Echo", "times cut")
PATIENCE = 30  # seconds for a controller to end


def frame(*content):
    """A reply's frame: the command and eight bytes, with their sum."""
    command, *values = content
    begin = bytes([0xA5, 0x01, command, 0x08, *values])
    return begin + bytes([sum(begin) % 256])


class Board:
    """Answers questions in their order. `faults` says where it was not asked what it was to be asked."""

    def __init__(self, exchanges, draw, raw=True, echo=None):
        self.exchanges, self.draw, self.echo, self.faults = exchanges, draw, echo, []
        self.board, self.line = os.openpty()
        if raw:
            tty.setraw(self.line)
        self.hung_up = None  # when
        self.over = threading.Event()  # nothing more will be asked
        self.playing = threading.Thread(target=self.play)

    def __enter__(self):
        return self

    def __exit__(self, *_):
        self.finish()
        if not self.hung_up:
            os.close(self.board)
        os.close(self.line)

    @property
    def path(self):
        return os.ttyname(self.line)

    def start(self):
        self.playing.start()

    def finish(self):
        """Waits for no question that has not come."""
        self.over.set()
        if self.playing.ident:
            self.playing.join()

    def play(self):
        for asked, sends, late in self.exchanges:
            question = self.read(13)
            if question != bytes.fromhex(asked):
                self.faults.append(f"the question was {question.hex(' ')}, not {asked}")
                return
            if self.echo:
                self.send_back(question)
            time.sleep(late)
            if sends is HANG_UP:
                self.await_read()
                self.hang_up()
                return
            self.send(sends)

    def await_read(self):
        """Until what was sent is read: a line that hangs up may lose it."""
        time.sleep(0.1)  # what was written moves on for a while
        while any(fcntl.ioctl(self.line, termios.FIONREAD, bytes(4))) and not self.over.is_set():
            time.sleep(0.01)

    def hang_up(self):
        os.close(self.board)
        self.hung_up = time.monotonic()

    def read(self, length):
        found = b""
        while len(found) < length:
            if select.select([self.board], [], [], 0.1)[0]:
                found += os.read(self.board, length - len(found))
            elif self.over.is_set():
                break
        return found

    def send_back(self, question):
        content = question * self.echo.times
        if self.echo.cut:
            self.send_pieces(content, self.draw.choice([1, 3, 5]))
        else:
            os.write(self.board, content)

    def send(self, content):
        self.send_pieces(content, self.draw.choice([1, 3, 13, 40]) if len(content) < 200 else 60)

    def send_pieces(self, content, longest):
        """With pauses."""
        while content:
            length = self.draw.randint(1, longest)
            os.write(self.board, content[:length])
            content = content[length:]
            time.sleep(self.draw.uniform(0, 0.004))

    def fill(self):
        """Writes on the line until it has no room for a question: how many bytes lie there."""
        os.set_blocking(self.line, False)
        filled, tries = 0, 0
        while tries < 5:  # what was written moves on for a while
            try:
                filled, tries = filled + os.write(self.line, bytes(100)), 0
            except BlockingIOError:
                tries += 1
                time.sleep(0.05)
        return filled

    def close(self):
        """The controller has ended. What was wrong: another question than was to come, or one more, or less."""
        self.finish()
        if not self.hung_up and not self.faults and select.select([self.board], [], [], 0)[0]:
            self.faults.append(f"one more question: {os.read(self.board, 99).hex(' ')}")
        return self.faults
