"""Writes lines with times to a file that is put aside when it has grown, and leaves out what repeats, without ever holding up who reads."""

import enum
import io
import os
import queue
import sys
import threading
import time
from collections import OrderedDict
from typing import Callable, List, NamedTuple, Optional, Protocol, Union

from nozhgiva_tools.told.lines import Line

REPEAT = 60.0  # seconds; a line that says the same again sooner is left out
REMEMBERED = 256  # lines whose last time is kept
AGAIN = 5.0  # seconds after which a log that couldn't be opened is tried again
NEVER = float("-inf")
MOST_WAITING = 20_000  # lines that wait to be written; more are dropped, and counted


def private(path: str, flags: int) -> int:
    """Opens a file, as `open` has it done: one that is made is for its owner alone, whatever the umask is."""
    return os.open(path, flags, 0o600)


def stamp(seconds: float) -> str:
    """A time since the epoch in UTC, to milliseconds."""
    whole = time.strftime("%Y-%m-%dT%H:%M:%S", time.gmtime(seconds))
    return f"{whole}.{int(seconds % 1 * 1000):03d}Z"


class Thinner:
    """Tells which lines are worth writing: one of those that say the same in a minute (messages have numbers, which aren't looked at; all heartbeats
    say the same), and at most so many of any kind in a second. What an operator has to see is always written, once a minute."""

    ALWAYS = ("start", "choose", "wait", "halt", "unknown")

    def __init__(self, most: int) -> None:
        self.most = most  # lines a second
        self.second = 0.0
        self.count = 0
        self.last: "OrderedDict[bytes, float]" = OrderedDict()
        self.left_out = 0

    def keeps(self, now: float, text: bytes, line: Line) -> bool:
        """Whether this line is written. `now` is in seconds."""
        keep = self.is_news(now, text, line) and self.has_room(now, line)
        self.left_out += not keep
        return keep

    def is_news(self, now: float, text: bytes, line: Line) -> bool:
        if line.kind == "start":
            self.last.clear()
        key = b"beat" if line.kind == "beat" else text.split(b" ", 2)[-1] if text.startswith(b"send ") else text
        last = self.last.get(key)
        if last is not None and now - last < REPEAT:
            return False
        self.last[key] = now
        self.last.move_to_end(key)
        if len(self.last) > REMEMBERED:
            self.last.popitem(last=False)
        return True

    def has_room(self, now: float, line: Line) -> bool:
        if now - self.second >= 1:
            self.second, self.count = now, 0
        self.count += 1
        return self.count <= self.most or line.kind in self.ALWAYS


class Log(Protocol):
    """Where a writer's lines go. `name`: what it is called where it can't be written."""

    name: str

    def open(self) -> None:
        """Opens it anew, where it has a path."""

    def write(self, text: bytes) -> None:
        """Adds the text; OSError where it can't be written whole."""


class Rotating:
    """A file that lines are added to. Once it has `most` bytes it is put aside as FILE.1, what was FILE.1 as FILE.2, and so on to FILE.`kept`.
    Where it can't be opened, that is tried again with the next lines, at most once in AGAIN seconds."""

    def __init__(self, path: str, most: int, kept: int) -> None:
        self.path, self.most, self.kept = path, most, kept
        self.name = f"the log {path}"
        self.file: Optional[io.FileIO] = None
        self.size, self.tried = 0, NEVER

    def open(self) -> None:
        """Opens it anew, by its path: what somebody moved away is left alone from then on."""
        self.opened()

    def opened(self) -> io.FileIO:
        """The file, opened anew."""
        fresh = open(self.path, "ab", buffering=0, opener=private)
        self.close()
        self.file, self.size = fresh, fresh.tell()
        return fresh

    def close(self) -> None:
        if self.file is not None:
            self.file.close()
        self.file = None

    def write(self, text: bytes) -> None:
        """Adds the text; OSError where it can't be written whole."""
        file = self.try_again() if self.file is None else self.file
        while text:
            count = file.write(text)
            self.size += count
            text = text[count:]
        if self.size >= self.most:
            self.put_aside()

    def try_again(self) -> io.FileIO:
        if time.monotonic() - self.tried < AGAIN:
            raise OSError("the log isn't open")
        self.tried = time.monotonic()
        return self.opened()

    def put_aside(self) -> None:
        for number in range(self.kept, 1, -1):
            if os.path.exists(f"{self.path}.{number - 1}"):
                os.replace(f"{self.path}.{number - 1}", f"{self.path}.{number}")
        if self.kept:
            os.replace(self.path, f"{self.path}.1")
        fresh = open(self.path, "wb", buffering=0, opener=private)
        self.close()
        self.file, self.size = fresh, 0


class Waiting(NamedTuple):
    """A line that waits to be written: when it came, in seconds since the epoch, and whether it is said too."""

    seconds: float
    text: bytes
    said: bool


class Order(enum.Enum):
    """What is done behind the lines that wait: the file is opened anew, or nothing more is written."""

    REOPEN = enum.auto()
    END = enum.auto()


class Writer:
    """Writes lines in a thread of its own: who gives them never waits, neither for a slow disk nor for a full one. What can't be written, or
    comes while MOST_WAITING lines wait, is dropped and counted. `spell` gives what is written of a line."""

    def __init__(self, file: Optional[Log], say: Callable[[str], None] = lambda text: None, spell: Callable[[bytes], bytes] = bytes) -> None:
        self.file, self.say, self.spell = file, say, spell
        self.waiting: "queue.Queue[Union[Waiting, Order]]" = queue.Queue(MOST_WAITING)
        self.dropped = 0
        self.complained: Optional[str] = None  # why the log couldn't be written last
        self.thread = threading.Thread(target=self.work, daemon=True)
        self.thread.start()

    def put(self, text: bytes, said: bool = False) -> None:
        """A line, with the present time before it; one that is said goes to standard error too."""
        try:
            self.waiting.put_nowait(Waiting(time.time(), self.spell(text), said))
        except queue.Full:
            self.dropped += 1

    def reopen(self) -> None:
        """The file is opened anew, behind the lines that wait: it may have been moved away."""
        try:
            self.waiting.put_nowait(Order.REOPEN)
        except queue.Full:
            pass  # A disk that hangs: nothing is opened there.

    def work(self) -> None:
        more = True
        while more:
            batch = self.take()
            more = Order.END not in batch
            self.write(batch)

    def take(self) -> List[Union[Waiting, Order]]:
        """What waits, at least one and at most a thousand."""
        batch = [self.waiting.get()]
        while len(batch) < 1000 and not self.waiting.empty():
            batch.append(self.waiting.get())
        return batch

    def write(self, batch: List[Union[Waiting, Order]]) -> None:
        """Writes the lines, in runs between which the file is opened anew."""
        run: List[Waiting] = []
        for item in batch:
            if isinstance(item, Waiting):
                run.append(item)
            elif item is Order.REOPEN:
                self.write_run(run)
                self.open_anew()
                run = []
        self.write_run(run)

    def open_anew(self) -> None:
        if self.file is None:
            return
        try:
            self.file.open()
        except OSError as error:
            self.complain(self.file, error)

    def write_run(self, run: List[Waiting]) -> None:
        self.say_all(run)
        if self.file is None or not run:
            return
        try:
            self.file.write(b"".join(stamp(item.seconds).encode() + b" " + item.text + b"\n" for item in run))
            self.complained = None
        except OSError as error:
            self.dropped += len(run)
            self.complain(self.file, error)

    def say_all(self, run: List[Waiting]) -> None:
        for item in run:
            if item.said:
                self.try_say(item.text.decode("ascii", "replace"))

    def try_say(self, text: str) -> None:
        try:
            self.say(text)
        except (OSError, ValueError):
            pass  # Nobody reads it any more.

    def complain(self, file: Log, error: OSError) -> None:
        """Says once why the log can't be written."""
        if error.strerror is not None and error.strerror != self.complained:
            self.complained = error.strerror
            self.try_say(f"{file.name} can't be written: {error.strerror}; its lines are dropped, and the member runs all the same")

    def end(self, most: float = 2.0) -> None:
        """Writes what waits, for at most so many seconds."""
        try:
            self.waiting.put(Order.END, timeout=most)
        except queue.Full:
            return
        self.thread.join(most)


def to_standard_error(text: str) -> None:
    print(text, file=sys.stderr, flush=True)
