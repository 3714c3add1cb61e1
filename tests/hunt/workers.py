"""Clients at work: each a process that a thread tells what to ask, and that writes down when it was asked and what was answered."""

from __future__ import annotations

import random
import subprocess
import threading
import time
from typing import List, Optional

from .history import Operation, UNTOLD

KEYS = ("red", "green", "blue")
LONGEST = {1: 1_024, 2: 3_000}
MOST_SESSIONS = 31
"""In one group, so that no session is given up, and no number begins a second one."""
SLOW, FAST = 0.05, 0.0
"""Pauses: a member that was away catches up with slow clients; fast ones are many at one time."""
PATIENCE = 3.0
HASTE = 0.1
REGISTERING = 20.0


class Board:
    """What the workers of a group share."""

    def __init__(self) -> None:
        self.version = 1
        self.going = True
        self.over = False
        """Whether clients are ended, whatever they do."""
        self.pause = SLOW
        """How long a client rests between two operations, in seconds, on average."""
        self.history: List[Operation] = []
        self.faults: List[str] = []
        self.sessions = self.lost = 0
        self.lock = threading.Lock()

    def take_session(self, most: int = MOST_SESSIONS) -> bool:
        """Whether one more session may be begun."""
        with self.lock:
            self.sessions += self.sessions < most
            return self.sessions < most


class Worker(threading.Thread):
    """One client. Its operations are drawn from a number; when they are asked depends on the answers."""

    def __init__(self, name: str, words: List[str], board: Board, draw: random.Random) -> None:
        super().__init__(name=name, daemon=True)
        self.board, self.draw = board, draw
        self.process = subprocess.Popen(words, stdin=subprocess.PIPE, stdout=subprocess.PIPE, stderr=subprocess.PIPE, text=True, bufsize=1)
        self.version: Optional[int] = None
        """Of its session; None where it has none."""
        self.pending: Optional[Operation] = None
        """The operation of its session of which nothing is known."""
        self.count = 0

    def run(self) -> None:
        try:
            while self.board.going and self.has_session():
                self.step()
                time.sleep(self.board.pause * self.draw.expovariate(1))
            if self.pending is not None:
                self.settle(1)
            self.give_up()
        except (OSError, ValueError) as error:
            if not self.board.over:
                self.board.faults.append(f"{self.name}: {error}")
        finally:
            self.process.kill()
            self.process.communicate()

    def say(self, line: str) -> str:
        """What the process answers to a line."""
        stdin, stdout, stderr = self.process.stdin, self.process.stdout, self.process.stderr
        assert stdin and stdout and stderr  # it was started with pipes
        stdin.write(line + "\n")
        answer = stdout.readline()
        if not answer:
            raise ValueError(f"the client ended at `{line[:80]}`: {stderr.read().strip()[-2000:]}")
        return answer.strip()

    def has_session(self) -> bool:
        """Whether there is a session of the version that is asked now, begun where there was none."""
        while self.board.going and self.version != self.board.version:
            self.give_up()
            if not self.board.take_session():
                return False
            version = self.board.version
            if self.say(f"register {version} {REGISTERING}") == "session":
                self.version = version
        return self.board.going

    def give_up(self) -> None:
        """Ends the session; of what is pending nothing will be known."""
        if self.pending is not None:
            self.board.history.append(self.pending)
        self.pending = self.version = None

    def lose(self) -> None:
        """Gives up a session with which the group doesn't go on."""
        self.board.lost += 1
        self.give_up()

    def drawn(self) -> Operation:
        """The next operation."""
        kind = self.draw.choices(("put", "get", "delete"), (4, 4, 2))[0]
        value = None
        if kind == "put":
            self.count += 1
            value = f"{self.name}.{self.count}."
            if self.draw.random() < 0.2:
                assert self.version is not None  # an operation is drawn within a session
                value = value.ljust(self.draw.randint(len(value), LONGEST[self.version]), "x")
        return Operation(self.name, time.monotonic_ns(), None, kind, self.draw.choice(KEYS), value, UNTOLD)

    def step(self) -> None:
        """Asks the next operation, and writes down what comes of it."""
        asked = self.drawn()
        seconds = HASTE if self.draw.random() < 0.05 else PATIENCE
        answer = self.say(f"{asked.kind} {asked.key} {asked.value or ''} {seconds}")
        if answer == "unsent":
            return
        if answer.startswith("lost "):
            self.board.history.append(asked)
            self.lose()
            return
        self.told(self.pending, UNTOLD)
        self.pending = None
        if answer != "unknown":
            self.told(asked, answer)
            return
        self.pending = asked
        if self.draw.random() < 0.7:
            self.settle(3)
        elif self.draw.random() < 0.3:
            self.give_up()

    def settle(self, tries: int) -> None:
        """Asks for the answer of what is pending, so many times at most, while its version is still the group's."""
        for _ in range(tries):
            if self.version != self.board.version:
                return
            answer = self.say(f"settle {PATIENCE}")
            if answer.startswith("lost "):
                self.lose()
                return
            if answer != "unknown":
                self.told(self.pending, answer)
                self.pending = None
                return

    def told(self, asked: Optional[Operation], answer: str) -> None:
        """Writes down that an operation was executed by now, and what it gave."""
        if asked is None:
            return
        word, _, value = answer.partition(" ")
        if word not in {"put": ("ok",), "get": ("value", "absent"), "delete": ("ok", "absent")}[asked.kind] + (UNTOLD,):
            raise ValueError(f"a {asked.kind} was answered by {answer[:80]}")
        self.board.history.append(asked._replace(returned=time.monotonic_ns(), answer=word, value=value or asked.value))
