"""The schedules that are replayed where the program is measured. The same words make the same lines, everywhere."""

import itertools
from typing import Dict, Iterator, List

MOST_REPLICAS, HOSTILE = 6, 3  # over three replicas view after view, else plain


class Asking:
    """Eight clients that register, and then put and get in turn, each key of a hundred over and over."""

    def __init__(self, first: int) -> None:
        self.op = first
        self.asked: Dict[int, int] = {}

    def request(self) -> str:
        """The next client's next request: its number, the request's, and the operation."""
        client = self.op % 8 + 1
        number = self.asked.get(client, 0)
        self.asked[client] = number + 1
        return f"{client} {number} {self.operation(number)}"

    def operation(self, number: int) -> str:
        if number == 0:
            return "register"
        key = f"key{self.op % 100:02d}"
        return f"put {key} value{self.op:010d}" if self.op // 8 % 2 else f"get {key}"


def plain(replicas: int) -> Iterator[str]:
    """Each operation is delivered to as many backups as commit it, and each acknowledgement to the primary. After every tenth operation its client
    asks again, and after every hundredth a backup is asked."""
    yield f"cluster {replicas}"
    backups = 2 if replicas > 4 else 1
    asking, sent = Asking(1), 0
    for asking.op in itertools.count(1):
        request = asking.request()
        yield f"request 0 {request}"
        first, sent = sent, sent + replicas - 1
        yield from (f"deliver {first + backup}" for backup in range(backups))
        yield from (f"deliver {sent + backup}" for backup in range(backups))
        sent += backups
        if asking.op % 10 == 0:
            yield f"request 0 {request}"
        if asking.op % 100 == 0:
            yield f"request 1 {request}"


class Views:
    """Three replicas, view after view. In each view clients put and get, each operation delivered to both backups; one backup is stopped in the midst
    of a write, started, and given the operation again. Then the primary stops, and its disk begins to lie about the last entry and about a copy of
    the superblock. The next replica takes over; the old one is started, is told the log, and asks for the entry that it lost."""

    def __init__(self) -> None:
        self.asking, self.sent = Asking(0), 0

    def lines(self) -> Iterator[str]:
        yield "cluster 3"
        for view in itertools.count():
            primary, following, other = view % 3, (view + 1) % 3, (view + 2) % 3
            yield from self.work(primary)
            yield from self.stop_in_a_write(primary, following, other)
            yield from self.change_view(primary, following, other)
            yield from self.come_back(primary, following)

    def ask(self, primary: int) -> str:
        self.asking.op += 1
        self.sent += 2
        return f"request {primary} {self.asking.request()}"

    def agree(self) -> List[str]:
        """The operation that was asked last reaches both backups, and one acknowledgement the primary."""
        first = self.sent - 2
        self.sent += 2
        return [f"deliver {first}", f"deliver {first + 1}", f"deliver {first + 2}"]

    def work(self, primary: int) -> Iterator[str]:
        for _ in range(8):
            yield self.ask(primary)
            yield from self.agree()
        if (self.asking.op + 1) % 32 == 0:  # so that the last one is not in the checkpoint of the one that stops
            yield self.ask(primary)
            yield from self.agree()

    def stop_in_a_write(self, primary: int, following: int, other: int) -> Iterator[str]:
        yield self.ask(primary)
        first = self.sent - 2
        to_following, to_other = (first, first + 1) if following < other else (first + 1, first)
        yield f"deliver {to_following}"
        yield f"fuse {other} 3 26"
        yield f"deliver {to_other}"
        yield f"start {other}"
        yield f"deliver {to_other}"
        yield f"deliver {self.sent}"
        self.sent += 2

    def change_view(self, primary: int, following: int, other: int) -> Iterator[str]:
        op, sent = self.asking.op, self.sent
        yield f"stop {primary}"
        yield f"damage {primary} {80 + op % 64}"
        yield f"unread {primary} {144 + op % 64 * 4}"
        yield f"damage {primary} 20"
        yield from [f"tick {following}"] * 5
        lower = 0 if lower_of_the_others(following) == other else 1
        yield from (f"deliver {sent + place}" for place in (lower, 4, 5 + lower, 9))
        self.sent += 10

    def come_back(self, primary: int, following: int) -> Iterator[str]:
        sent = self.sent
        yield f"start {primary}"
        yield f"deliver {sent if lower_of_the_others(primary) == following else sent + 1}"
        yield f"deliver {sent + 2}"
        yield f"tick {primary}"
        yield f"deliver {sent + 3}"
        yield f"deliver {sent + 4}"
        self.sent += 5


def lower_of_the_others(replica: int) -> int:
    return 1 if replica == 0 else 0


def lines(count: int, replicas: int) -> Iterator[str]:
    """So many lines of a schedule: a plain one over so many replicas, or view after view where they are three."""
    made = Views().lines() if replicas == HOSTILE else plain(replicas)
    return itertools.islice(made, count)


def text(count: int, replicas: int) -> str:
    return joined(lines(count, replicas))


def joined(made: Iterator[str]) -> str:
    return "".join(f"{line}\n" for line in made)


def rounds(count: int, backups: int) -> List[str]:
    """Over three replicas client 7 registers and puts values of 100 bytes, so often; each operation is delivered to so many backups of two, and what
    they answer to the primary."""
    made = ["cluster 3"]
    for op in range(count):
        made.append(f"request 0 7 {op} " + (f"put key{op % 10} {'v' * 100}" if op else "register"))
        first = op * (2 + backups)
        made += [f"deliver {first + place}" for place in (*range(backups), *range(2, 2 + backups))]
    return made
