"""Random schedules of all lines of the language, by a number: both versions, strict and careful, from one to six replicas."""

import random
from typing import Callable, Dict, List

SECTORS = {1: 1424, 2: 3984}
LONGEST = {1: 1024, 2: 3000}
FRESH = 24


class Writer:
    """Writes the lines of one schedule. It doesn't know what they come to: it counts how many messages there may be."""

    def __init__(self, seed: int) -> None:
        self.draw = random.Random(seed)
        self.version = self.draw.choice((1, 2))
        self.size = self.draw.randint(1 if self.version == 2 else 2, 6)
        self.requests: Dict[int, int] = {}

    def first(self) -> str:
        """The line that makes the group."""
        return f"cluster {self.size}{self.draw.choice(('', ' careful'))}{' v2' if self.version == 2 else ''}"

    def replica(self) -> int:
        """A replica, rather an early one, so that something is committed."""
        return min(self.draw.randrange(self.size), self.draw.randrange(self.size))

    def sector(self) -> int:
        """A sector, rather one that is in use."""
        near = self.draw.choice((0, 20, 40, 60, 80 + self.draw.randrange(8), (144 if self.version == 1 else 1424) + self.draw.randrange(40), 400, 912))
        return self.draw.choice((near, self.draw.randrange(SECTORS[self.version])))

    def request(self) -> str:
        """A client's next request, or one that is over or to come."""
        client = self.draw.choice((7, 7, 7, 8, 2**64 - 1))
        number = self.requests.get(client, -1) + self.draw.choice((1, 1, 1, 1, 0, 2))
        number = max(0, number)
        self.requests[client] = number
        key = self.draw.choice(("a", "b", "k" * 64))
        value = "v" * self.draw.choice((1, 5, LONGEST[self.version]))
        operation = "register" if number == 0 else self.draw.choice((f"put {key} {value}", f"get {key}", f"del {key}"))
        return f"request {self.replica()} {client} {number} {operation}"

    def line(self) -> str:
        """The next line."""
        kinds: List[Callable[[], str]] = [self.request] * 14 + [lambda: f"tick {self.replica()}"] * 22
        kinds += [lambda: f"stop {self.replica()}"] + [lambda: f"start {self.replica()}"] * 4 + [lambda: f"migrate {self.replica()}"]
        kinds += [lambda: f"fuse {self.replica()} {self.draw.choice((1, 3, 6, 40, 700))} {self.draw.choice((0, 26, 3**20 - 1, 2**64 - 1))}"]
        kinds += [lambda: f"{self.draw.choice(('damage', 'stale', 'unread'))} {self.replica()} {self.sector()}"] * 3
        kinds += [self.misdirect] + [lambda: f"deliver {self.draw.choice((self.draw.randrange(2**64), self.draw.randrange(400)))}"] * 30
        return self.draw.choice(kinds)()

    def misdirect(self) -> str:
        """A write that went astray to another sector."""
        one, other = self.sector(), self.sector()
        return f"misdirect {self.replica()} {one} {other if other != one else (one + 1) % SECTORS[self.version]}"


def settled(size: int, replies: int) -> List[str]:
    """Messages in their order, some of them twice."""
    return [f"deliver {number}" for number in range(size * replies)]


def schedule(seed: int, count: int) -> List[str]:
    """A schedule of so many lines: its beginning lets messages arrive in order, so that there is a log to lose."""
    writer = Writer(seed)
    lines = [writer.first(), "request 0 7 0 register", *settled(writer.size, 2), "request 0 7 1 put a b", *settled(writer.size, 4)]
    writer.requests[7] = 1
    while len(lines) < count:
        lines.append(writer.line())
        if lines[-1].startswith("stop") and writer.draw.random() < 0.7:
            lines.append(lines[-1].replace("stop", "start"))
    return lines[:count]
