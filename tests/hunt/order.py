"""Whether a history is linearizable: whether for each key all operations fit one order, in which each stands between the times at which it was
called and returned, and each answer is what a map gives.

The search is that of Wing and Gong, with the memory of Lowe: it goes through what may come next, and never looks twice at the same set of
operations that are done with the same value behind them. Keys are apart, since a history is linearizable where it is so for each key.

What put, get and delete mean is said here once more, apart from nozhgiva_tools/told/store.py, with which tools are made: the answers that are judged are not to be
right by a mistake that both share.

An operation of which nothing is known may stand anywhere after its call, or nowhere. It is only ever put directly before an operation whose answer
needs it. Nothing is lost by that, as long as no two puts have one value: where an order has it anywhere else, what follows it either writes again,
or answers as it would without it; so it can be left out, and what remains is an order still.
"""

from __future__ import annotations

from typing import Dict, Iterator, List, NamedTuple, Optional

from .history import FOREVER, Operation, UNTOLD

MOST_NODES = 1_000_000


class Verdict(NamedTuple):
    """What the search came to."""

    fits: Optional[bool]
    """None where it was given up."""
    key: str = ""
    """The key that doesn't fit, or was given up."""
    around: List[Operation] = []
    """The operations around the one that couldn't be placed."""


class _Node(NamedTuple):
    """How far an order has come."""

    low: int
    """The first operation that isn't done."""
    done: int
    """Which after it are, as bits."""
    used: int
    """Which of those that aren't known are, as bits."""
    value: Optional[str]


def after(operation: Operation, value: Optional[str]) -> Optional[str]:
    """The value of the key after an operation."""
    return {"put": operation.value, "get": value, "delete": None}[operation.kind]


def agrees(operation: Operation, value: Optional[str]) -> bool:
    """Whether an operation's answer is that of a map where the key has a value, or None has."""
    if operation.answer == UNTOLD or operation.kind == "put":
        return True
    if operation.kind == "delete":
        return (operation.answer == "ok") == (value is not None)
    return operation.value == value


class _Search:
    """The search for one key."""

    def __init__(self, operations: List[Operation]) -> None:
        operations = sorted((one for one in operations if one.kind != "get" or one.answer != UNTOLD), key=lambda one: one.called)
        self.known = [one for one in operations if one.returned is not None]
        self.unknown = [one for one in operations if one.returned is None]
        self.furthest = 0

    def fits(self) -> Optional[bool]:
        """Whether there is an order; None where the search takes too long."""
        stack = [_Node(0, 0, 0, None)]
        seen = set(stack)
        while stack:
            node = stack.pop()
            self.furthest = max(self.furthest, node.low)
            if node.low == len(self.known):
                return True
            fresh = [one for one in self.next(node) if one not in seen]
            seen.update(fresh)
            stack.extend(reversed(fresh))
            if len(seen) > MOST_NODES:
                return None
        return False

    def next(self, node: _Node) -> Iterator[_Node]:
        """What may come next: one of the operations that were called before any that isn't done returned."""
        limit, at, candidates = FOREVER, node.low, []
        while at < len(self.known) and self.known[at].called <= limit:
            if not node.done >> (at - node.low) & 1:
                limit = min(limit, self.known[at].end)
                candidates.append(at)
            at += 1
        for at in candidates:
            if agrees(self.known[at], node.value):
                yield self.with_done(node, at, node.used, node.value)
        for at in candidates:
            if not agrees(self.known[at], node.value):
                yield from self.with_help(node, at, limit)

    def with_help(self, node: _Node, at: int, limit: float) -> Iterator[_Node]:
        """An operation done once one that isn't known has made its answer right."""
        for number, one in enumerate(self.unknown):
            if one.called > limit:
                return
            if not node.used >> number & 1 and agrees(self.known[at], after(one, node.value)):
                yield self.with_done(node, at, node.used | 1 << number, after(one, node.value))

    def with_done(self, node: _Node, at: int, used: int, value: Optional[str]) -> _Node:
        low, done = node.low, node.done | 1 << (at - node.low)
        while done & 1:
            low, done = low + 1, done >> 1
        return _Node(low, done, used, after(self.known[at], value))

    def around(self) -> List[Operation]:
        """The operations around the first one that no order came past, and those that aren't known and were called before."""
        last = self.known[min(self.furthest + 4, len(self.known) - 1)]
        near = self.known[max(0, self.furthest - 8):self.furthest + 5]
        return sorted(near + [one for one in self.unknown if one.called <= last.called][-8:], key=lambda one: one.called)


def by_key(history: List[Operation]) -> Dict[str, List[Operation]]:
    keys: Dict[str, List[Operation]] = {}
    for one in history:
        keys.setdefault(one.key, []).append(one)
    return keys


def judge(history: List[Operation]) -> Verdict:
    """Whether a history is linearizable. No two puts of it have one value."""
    given_up = Verdict(True)
    for key, operations in sorted(by_key(history).items()):
        search = _Search(operations)
        fits = search.fits()
        if fits is False:
            return Verdict(False, key, search.around())
        if fits is None:
            given_up = Verdict(None, key, search.around())
    return given_up
