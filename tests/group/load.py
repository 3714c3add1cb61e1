"""Clients that ask a group, and what their answers have to be: those of one register for each key."""

import itertools
import random
import subprocess
import threading
import time
from typing import Callable, Dict, Iterable, List, NamedTuple, Optional

from nozhgiva_tools.run.group import Group

NEVER = float("inf")
TURNS = "1000"  # of each ask: at most ten seconds where nobody answers


class Zone(NamedTuple):
    """When a register has a value: throughout these seconds, or at one moment of them."""

    low: float
    high: float
    value: Optional[str]


class Asked(NamedTuple):
    """One ask. Times are seconds; an end that isn't known is NEVER."""

    is_put: bool
    key: str
    value: Optional[str]  # that was put, or was read; None for an absent one
    begun: float
    ended: float


def first_fault(history: Iterable[Asked]) -> Optional[str]:
    """Why the asks of one key can't have been answered by one register, into which each value is put once; None where they can.

    Each value has a zone, from the first end to the last begin of what speaks of it. Where that goes forward the register surely has the value
    throughout, so two such zones may not meet; where it goes backward it has it at one moment there, which may not lie within another's forward one."""
    by_value: Dict[Optional[str], List[Asked]] = {}
    for asked in history:
        by_value.setdefault(asked.value, []).append(asked)
    forward: List[Zone] = []
    backward: List[Zone] = []
    for value, group in by_value.items():
        puts = [asked for asked in group if asked.is_put]
        reads = [asked for asked in group if not asked.is_put]
        if not puts and value is not None:
            return f"{value} was read, and never put"
        if puts and any(asked.ended < puts[0].begun for asked in reads):
            return f"{value} was read before it was put"
        if value is None:
            puts = [Asked(True, "", None, -NEVER, -NEVER)]
        if not reads and puts[0].ended == NEVER:
            continue  # It may never have been executed.
        low, high = min(asked.ended for asked in puts + reads), max(asked.begun for asked in puts + reads)
        (forward if low < high else backward).append(Zone(min(low, high), max(low, high), value))
    return first_meeting(sorted(forward, key=lambda zone: (zone.low, zone.high)), backward)


def first_meeting(forward: List[Zone], backward: List[Zone]) -> Optional[str]:
    """Two zones that can't both be; None where there are none."""
    for before, after in zip(forward, forward[1:]):
        if after.low < before.high:
            return f"the register had {before.value} and {after.value} at one time"
    for one in backward:
        for zone in forward:
            if zone.low < one.low and one.high < zone.high:
                return f"the register had {zone.value} when {one.value} was put and overwritten"
    return None


class Client:
    """One client: asks one line after the other, as another client again where it got no answer."""

    numbers = itertools.count(int(time.time()) << 20)

    def __init__(self, group: Group, is_over: Callable[[], bool] = lambda: False) -> None:
        self.group, self.is_over = group, is_over
        self.child: "Optional[subprocess.Popen[str]]" = None

    def ask(self, line: str) -> Optional[str]:
        """The answer; None where there is none. A client that never gets a session tries on until all is over."""
        while self.child is None:
            if self.is_over():
                return None
            self.register()
        words, answers = self.child.stdin, self.child.stdout
        assert words is not None and answers is not None
        try:
            words.write(line + "\n")
            words.flush()
            answer = answers.readline().strip()
        except OSError:
            answer = ""
        if answer in ("", "old", "gap", "evicted"):
            self.end()
            return None
        return answer

    def register(self) -> None:
        self.child = subprocess.Popen(self.group.asking(next(Client.numbers), TURNS), stdin=subprocess.PIPE, stdout=subprocess.PIPE, stderr=subprocess.DEVNULL, text=True)
        assert self.child.stdout is not None
        if self.child.stdout.readline() != "session\n":
            self.end()
            time.sleep(0.1)

    def end(self) -> None:
        if self.child is not None:
            self.child.kill()
            self.child.wait()
            self.child.stdin = None
            if self.child.stdout is not None:
                self.child.stdout.close()
        self.child = None


class Load:
    """Clients at work, each in a thread: puts and gets of its own choice, at a rate."""

    def __init__(self, group: Group, clients: int, rate: float, keys: int, size: int, puts: float, seed: int, held: Callable[[], bool] = lambda: False) -> None:
        self.group, self.rate, self.keys, self.size, self.puts, self.held = group, rate / clients, keys, size, puts, held
        self.history: List[Asked] = []
        self.answers: List[float] = [time.monotonic()]
        self.stopping = False
        self.threads = [threading.Thread(target=self.work, args=(number, random.Random(seed * 1000 + number)), daemon=True) for number in range(clients)]

    def start(self) -> None:
        for thread in self.threads:
            thread.start()

    def stop(self) -> None:
        self.stopping = True
        for thread in self.threads:
            thread.join()

    def work(self, number: int, chance: random.Random) -> None:
        client, due = Client(self.group, lambda: self.stopping), time.monotonic()
        for count in itertools.count():
            due = max(due + 1 / self.rate, time.monotonic() - 1)
            time.sleep(max(0.0, due - time.monotonic()))
            while self.held() and not self.stopping:
                time.sleep(0.05)
            if self.stopping:
                break
            key = f"k{chance.randrange(self.keys)}"
            self.do(client, key, f"{number}.{count}." if chance.random() < self.puts else None)
        client.end()

    def do(self, client: Client, key: str, value: Optional[str]) -> None:
        """One ask, and its place in the history: what got no answer and read nothing has none."""
        begun = time.monotonic()
        text = None if value is None else value + "x" * (self.size - len(value))
        answer = client.ask(f"get {key}" if text is None else f"put {key} {text}")
        ended = time.monotonic()
        if answer is not None:
            self.answers.append(ended)
        if text is not None:
            self.history.append(Asked(True, key, text, begun, ended if answer == "ok" else NEVER))
        elif answer is not None:
            self.history.append(Asked(False, key, None if answer == "absent" else answer.split(" ", 1)[1], begun, ended))

    def longest_silence(self) -> float:
        """The longest time, in seconds, in which no client got an answer."""
        times = sorted(self.answers)
        return max((after - before for before, after in zip(times, times[1:])), default=0.0)

    def read_all(self, seconds: float) -> bool:
        """Reads each key once more, so that what was acknowledged and is lost is seen. False where that has no answer in so many seconds."""
        end = time.monotonic() + seconds
        client = Client(self.group, lambda: time.monotonic() > end)
        for number in range(self.keys):
            before = len(self.history)
            while len(self.history) == before:
                if time.monotonic() > end:
                    client.end()
                    return False
                self.do(client, f"k{number}", None)
        client.end()
        return True

    def fault(self) -> Optional[str]:
        """What no register for each key can have answered; None where all answers are right."""
        by_key: Dict[str, List[Asked]] = {}
        for asked in self.history:
            by_key.setdefault(asked.key, []).append(asked)
        for key, history in by_key.items():
            fault = first_fault(history)
            if fault is not None:
                return f"{key}: {fault}"
        return None
