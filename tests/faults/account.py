"""A client that puts and reads, and keeps account of what it was told: each answer has to be one that a single store of keys and values could have given."""

from __future__ import annotations

import random
import time
from typing import Callable, Iterable, List, Optional, Sequence, Union

from nozhgiva import Get, Group, Put, Retry, Session, SessionLost, Unknown
from nozhgiva.messages import Outcome
from nozhgiva_tools.run.group import NUMBER
from tests.hunt.history import Operation, UNTOLD
from tests.hunt.order import by_key, judge

HASTY = Retry(first=0.05, factor=1.5, most=0.25, jitter=0.3)
STEP = 0.3  # seconds that one ask waits; it is asked again, under its number, as long as there is patience


def never() -> bool:
    return False


class Account:
    """One client at a time, with a new session where the old one is lost. What others were told before may stand in `history` too."""

    def __init__(self, name: str, addresses: Sequence[str], version: int = 1, history: Iterable[Operation] = (), keys: int = 6, seed: int = 0) -> None:
        self.name, self.history, self.draw, self.count = name, list(history), random.Random(seed), 0
        self.group = Group(NUMBER, addresses, version=version, retry=HASTY)
        self.keys = [f"k{number}" for number in range(keys)]
        self.session: Optional[Session] = None
        self.answers: List[float] = []  # when each came, by the monotonic clock

    def registered(self) -> Session:
        if self.session is None:
            self.session = self.group.register(timeout=STEP)
        return self.session

    def close(self) -> None:
        if self.session is not None:
            self.session.close()
        self.session = None

    def ask(self, operation: Union[Put, Get], patience: float, is_over: Callable[[], bool] = never) -> bool:
        """Asks, again and again under one number, until it is answered, there is no more patience (in seconds), or all is over; whether it was answered."""
        end, asked = time.monotonic() + patience, None
        while time.monotonic() < end and not is_over():
            try:
                session = self.registered()
                if session.pending is not None:
                    outcome = session.settle(STEP)
                else:
                    asked = self.begun(operation)
                    outcome = session.ask(operation, STEP)
                if asked is not None and outcome is not None:
                    return self.told(asked, outcome)
            except Unknown:
                continue
            except SessionLost:
                self.close()
                if asked is not None:
                    break
        if asked is not None:
            self.history.append(asked)
        return False

    def begun(self, operation: Union[Put, Get]) -> Operation:
        value = operation.value if isinstance(operation, Put) else None
        return Operation(self.name, time.monotonic_ns(), None, "get" if value is None else "put", operation.key, value, UNTOLD)

    def told(self, asked: Operation, outcome: Outcome) -> bool:
        answer = outcome.kind.name.lower()
        self.answers.append(time.monotonic())
        self.history.append(asked._replace(returned=time.monotonic_ns(), answer=answer, value=outcome.value if answer == "value" else asked.value))
        return True

    def put(self, patience: float, is_over: Callable[[], bool] = never) -> bool:
        """Puts a value that was never put before under one of the keys."""
        self.count += 1
        return self.ask(Put(self.draw.choice(self.keys), f"{self.name}.{self.count}"), patience, is_over)

    def get(self, key: str, patience: float, is_over: Callable[[], bool] = never) -> bool:
        return self.ask(Get(key), patience, is_over)

    def work(self, count: int, patience: float, is_over: Callable[[], bool] = never) -> int:
        """So many puts with a read between two of them, each with so much patience; how many were answered. It ends at the first that wasn't."""
        for done in range(count):
            if not (self.put(patience, is_over) if done % 2 == 0 else self.get(self.draw.choice(self.keys), patience, is_over)):
                return done
        return count

    def work_for(self, seconds: float) -> None:
        """Puts, with a read after each fourth, for so long; where no answer comes it asks on."""
        end = time.monotonic() + seconds
        while (left := end - time.monotonic()) > 0:
            self.put(left)
            if self.count % 4 == 0:
                self.get(self.draw.choice(self.keys), max(0.01, end - time.monotonic()))

    def read_all(self, patience: float) -> bool:
        """Reads each key once more, so that what was answered and is lost is seen; whether all had an answer in so many seconds."""
        end = time.monotonic() + patience
        return all(self.get(key, end - time.monotonic()) for key in self.keys)

    def lost(self) -> List[str]:
        """The keys of which no single store could have given all answers, each with why."""
        wrong = []
        for key, operations in by_key(self.history).items():
            verdict = judge(operations)
            if verdict.fits is not True:
                wrong.append(f"{key}: the answers fit no order; around it: " + "; ".join(map(str, verdict.around[-4:])))
        return wrong

    def longest_silence(self, since: float, until: float) -> float:
        """The longest time between two answers, from one moment to another."""
        times = [since, *(at for at in self.answers if since <= at <= until), until]
        return max(after - before for before, after in zip(times, times[1:]))
