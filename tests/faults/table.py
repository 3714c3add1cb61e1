"""Scenarios, what they came to, and the one table of it."""

from __future__ import annotations

import sys
import threading
import time
from collections import Counter
from dataclasses import dataclass, field
from typing import Callable, List, NamedTuple, Optional, Sequence, Tuple

MOST_TOLD = 3  # tries that went wrong, of one row
MOST_KINDS = 5  # of what happened, in one cell


class LeftOut(Exception):
    """A tool or a right is missing, in words."""


class Outcome(NamedTuple):
    """What one try came to."""

    happened: str
    code: Optional[int] = None  # the exit code of what was disturbed; None where it went on
    wrong: str = ""  # why that isn't what is promised; empty where it is
    lost: int = 0  # keys of which an answer doesn't fit the others, or that aren't there


UNTOUCHED = Outcome("not reached")


@dataclass(frozen=True)
class Scenario:
    """One row: what is tried, by what word it is chosen, what is promised, and how it is tried: each try has a number, and is all by itself.

    `alone`: it measures, or needs the whole machine, so nothing is tried beside it; `seconds` is what it takes then. `short`: it is tried in a short run too.
    `before`: what has to be done, in a lane, before its numbers are known; the same for many rows."""

    name: str
    promised: str
    numbers: Callable[[], Sequence[int]]
    go: Callable[[int, int], Outcome]  # of a lane, which has ports of its own, and a number
    alone: bool = False
    short: bool = True
    seconds: float = 0.0
    before: Optional[Callable[[int], object]] = None


@dataclass
class Row:
    """What a scenario's tries came to."""

    scenario: Scenario
    left_out: str = ""
    tries: int = 0
    numbers: int = 0
    happened: "Counter[str]" = field(default_factory=Counter)
    codes: "Counter[str]" = field(default_factory=Counter)
    wrong: List[Tuple[int, str]] = field(default_factory=list)
    lost: int = 0

    def add(self, number: int, outcome: Outcome) -> None:
        self.tries += 1
        self.happened[outcome.happened] += 1
        if outcome is not UNTOUCHED:
            self.codes["-" if outcome.code is None else str(outcome.code)] += 1
        self.lost += outcome.lost
        if outcome.wrong or outcome.lost:
            self.wrong.append((number, outcome.wrong or "what was answered is lost"))

    def cells(self) -> List[str]:
        tries = str(self.tries) if self.tries == self.numbers else f"{self.tries} of {self.numbers}"
        return [("WRONG: " if self.wrong else "") + self.scenario.name, tries, self.scenario.promised, told(self.happened), told(self.codes), str(self.lost)]


def told(counts: "Counter[str]") -> str:
    """What there was, with how often where there was more than one thing."""
    if len(counts) == 1:
        return next(iter(counts))
    more = f", and {len(counts) - MOST_KINDS} others" if len(counts) > MOST_KINDS else ""
    return ", ".join(f"{what} ({count})" for what, count in counts.most_common(MOST_KINDS)) + more


HEADS = ["tried", "times", "promised", "happened", "exit code", "lost"]


def print_table(rows: Sequence[Row], again: str) -> None:
    """The table: a row each but those for which there was no time, and below it those that went wrong, with the words by which one is tried again."""
    lines = [HEADS] + [row.cells() for row in rows if row.tries]
    widths = [min(60, max(len(line[column]) for line in lines)) for column in range(len(HEADS))]
    for line in lines:
        print(" | ".join(cell.ljust(width) for cell, width in zip(line, widths)).rstrip())
    for row in rows:
        for number, why in row.wrong[:MOST_TOLD]:
            print(f"WRONG: {row.scenario.name}, {number}: {why}\n  again: {again} --only '{row.scenario.name}' --at {number}")
        if len(row.wrong) > MOST_TOLD:
            print(f"  and {len(row.wrong) - MOST_TOLD} more of this row: " + " ".join(str(number) for number, _ in row.wrong[MOST_TOLD:40]))
    count = sum(row.tries for row in rows)
    wrong = sum(len(row.wrong) for row in rows)
    for why, times in Counter(row.left_out for row in rows if row.left_out).items():
        print(f"left out: {times} rows: {why}")
    untried = sum(not (row.tries or row.left_out) for row in rows)
    print(f"{count} tries of {sum(row.tries > 0 for row in rows)} rows{f', no time for {untried} more' if untried else ''}; {wrong} wrong, {sum(row.lost for row in rows)} lost")


class Progress:
    """Says on standard error each few seconds how far it is."""

    EVERY = 5.0

    def __init__(self, until: float) -> None:
        self.until, self.said, self.lock = until, time.monotonic(), threading.Lock()
        self.tries = self.wrong = 0

    def add(self, name: str, outcome: Optional[Outcome]) -> None:
        with self.lock:
            if outcome is not None:
                self.tries += 1
                self.wrong += bool(outcome.wrong or outcome.lost)
            now = time.monotonic()
            if now - self.said >= self.EVERY or outcome is None:
                self.said = now
                print(f"faults: {self.tries} tries, {self.wrong} wrong, {max(0.0, self.until - now):.0f} s left; {'now' if outcome is None else 'last'}: {name}", file=sys.stderr, flush=True)


def by_name(scenarios: Sequence[Scenario], words: Sequence[str]) -> List[Scenario]:
    """Those that have one of these words in their names; all of them where there are no words."""
    return [one for one in scenarios if not words or any(word in one.name for word in words)]
