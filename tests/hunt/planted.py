"""Histories whose verdict is known: those of planted.txt, and recorded ones into which a fault is put."""

from __future__ import annotations

import pathlib
import random
from typing import List, NamedTuple, Optional

from . import history
from .history import Operation
from .order import by_key, judge

TABLE = pathlib.Path(__file__).resolve().parent / "planted.txt"


class Planted(NamedTuple):
    """A history, whether it fits, and what it shows."""

    fits: bool
    shows: str
    operations: List[Operation]


def table() -> List[Planted]:
    """The histories of planted.txt."""
    found: List[Planted] = []
    lines: List[str] = []
    for line in TABLE.read_text(encoding="ascii").splitlines() + ["fits end"]:
        word, _, shows = line.partition(" ")
        if word in ("fits", "refused"):
            if found:
                found[-1].operations.extend(history.read(lines))
            found.append(Planted(word == "fits", shows, []))
            lines = []
        else:
            lines.append(line)
    return found[:-1]


def wrong_verdicts() -> List[str]:
    """What the checker says wrong of planted.txt, in words."""
    return [f"{'refused' if one.fits else 'let through'}: {one.shows}" for one in table() if judge(one.operations).fits is not one.fits]


def with_stale_read(operations: List[Operation], draw: random.Random) -> Optional[List[Operation]]:
    """The same history, but that one get is answered with a value that was surely overwritten before it was called; None where there is no such get."""
    places = []
    for mine in by_key(operations).values():
        puts = sorted((one for one in mine if one.kind == "put" and one.returned is not None), key=lambda one: one.called)
        for get in (one for one in mine if one.kind == "get" and one.answer == "value"):
            before = [one for one in puts if one.end < get.called]
            if len(before) > 1 and before[0].end < before[-1].called and before[0].value != get.value:
                places.append((get, before[0].value))
    if not places:
        return None
    get, stale = draw.choice(places)
    return [one._replace(value=stale) if one is get else one for one in operations]
