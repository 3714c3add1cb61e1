"""Has the group write all slots anew, after a start at which the file couldn't tell of some: sixty-four gets, one after the other, in one session.

Each operation of the group is written to the next slot of each member, so after sixty-four of them no slot holds what it held before."""

import os
import random
import subprocess
from typing import Callable, IO, List, NamedTuple, Optional

from .processes import pipe

GETS = 64
TURNS = "1000"  # of each line: at most ten seconds where nobody answers
FIRST_PAUSE, MOST_PAUSE = 1.0, 60.0  # seconds, until a client that wasn't answered is followed by the next
KEY = "-"  # that is read; it needn't be there


class Asking(NamedTuple):
    """What a client of the group needs."""

    program: str
    cluster: int
    addresses: List[str]

    def command(self, version: int) -> List[str]:
        number = str(random.SystemRandom().randrange(1, 2 ** 64 - 1))
        return [self.program, "client", str(self.cluster), number, TURNS] + self.addresses + (["--v2"] if version == 2 else [])


class Client:
    """A client's process: the pipe that it reads, and the one that it writes to."""

    def __init__(self, command: List[str]) -> None:
        self.process = subprocess.Popen(command, stdin=subprocess.PIPE, stdout=subprocess.PIPE, stderr=subprocess.DEVNULL)
        self.input, self.output = pipe(self.process.stdin), pipe(self.process.stdout)
        os.set_blocking(self.output.fileno(), False)

    def get(self) -> None:
        """Asks it a get; OSError where it has ended."""
        self.input.write(f"get {KEY}\n".encode())
        self.input.flush()

    def end(self) -> None:
        self.process.kill()
        self.output.close()
        try:
            self.input.close()
        except OSError:
            pass
        self.process.wait()


class Renewal:
    """One such run, of gets that are `gap` seconds apart. Who holds it hears, by `begun` and `ended`, of each client's output, has it read there, and lets it
    look at the clock."""

    def __init__(self, asking: Asking, version: int, gap: float, now: float, begun: Callable[[IO[bytes]], None], ended: Callable[[IO[bytes]], None]) -> None:
        self.asking, self.version, self.gap, self.begun, self.ended = asking, version, gap, begun, ended
        self.client: Optional[Client] = None
        self.answers, self.rest, self.pause = 0, b"", FIRST_PAUSE
        self.due: Optional[float] = now  # when the next client is begun, or the next get asked

    @property
    def is_done(self) -> bool:
        return self.answers >= GETS

    def look_at_clock(self, now: float) -> None:
        if self.due is None or now < self.due:
            return
        self.due = None
        if self.client is None:
            self.begin(now)
        else:
            self.get(now, self.client)

    def begin(self, now: float) -> None:
        try:
            self.client = Client(self.asking.command(self.version))
        except OSError:
            self.try_later(now)
            return
        self.begun(self.client.output)

    def get(self, now: float, client: Client) -> None:
        try:
            client.get()
        except OSError:
            self.drop(now)

    def read(self, now: float) -> None:
        """What the client says: `session`, and then an answer to each get."""
        if self.client is None:
            return
        try:
            piece = os.read(self.client.output.fileno(), 4096)
        except BlockingIOError:
            return
        *lines, self.rest = (self.rest + piece).split(b"\n")
        for line in lines:
            if line == b"absent" or line.startswith(b"value "):
                self.answers += 1
                self.pause = FIRST_PAUSE
            if line in (b"session", b"absent") or line.startswith(b"value "):
                self.due = now + self.gap
        if self.is_done:
            self.end()
        elif not piece:
            self.drop(now)

    def drop(self, now: float) -> None:
        """This client has no answer: another one asks on, later."""
        self.end()
        self.try_later(now)

    def try_later(self, now: float) -> None:
        self.due = now + self.pause
        self.pause = min(2 * self.pause, MOST_PAUSE)

    def end(self) -> None:
        self.due = None
        if self.client is None:
            return
        self.ended(self.client.output)
        self.client.end()
        self.client, self.rest = None, b""
