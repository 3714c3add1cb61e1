"""Faults that are planted, each of which has to be found, beside the same without them, of which nothing may be found."""

from __future__ import annotations

import random
import tempfile
from typing import List, NamedTuple

from tests.hunt import planted
from tests.hunt.order import judge

from . import disk
from .calls import Alone, ends, GOES_ON, Rule, Store
from .shim import Fault, Shim

CUTS = WRITES = range(20, 36, 4)  # of a run's 37 syncs, and as many writes: those of its puts
ENTRY = 6  # writes: those of some entries


class Found(NamedTuple):
    """What was planted, how often it was found, and how often it had to be: at least once, or never."""

    what: str
    tries: int
    found: int
    has_to_be: bool

    @property
    def is_well(self) -> bool:
        return (self.found > 0) == self.has_to_be


class Planted:
    """Plants faults in a group of one, and one that only a failing disk shows in one of three."""

    def __init__(self, shim: Shim, store: Store, port: int) -> None:
        self.shim, self.run, self.store = shim, Alone(shim, store, port, ""), store
        self.disks = disk.Rows(store, port)

    def lost(self, what: str, has_to_be: bool, call: str, way: str, numbers: range, times: int = 1, **more: object) -> Found:
        """Runs with one such fault each."""
        found = 0
        for number in numbers:
            with self.run.members(0) as members:
                env = self.shim.failing(f"{members.folder}/counts", Fault(call, way, number, times), **more)
                outcome = self.run.disturb(members, env, number)[1]
                found += bool(outcome.lost or outcome.wrong)
        return Found(what, len(numbers), found, has_to_be)

    def changed_answer(self, seed: int) -> List[Found]:
        """One answer of a client's account is another: a value that was overwritten before."""
        with self.run.members(0) as members:
            account = members.account("c", self.store.of(1).history, seed)
            members.start(0)
            account.work(60, 20.0)
            account.close()
        spoiled = planted.with_stale_read(account.history, random.Random(seed))
        refused = spoiled is not None and judge(spoiled).fits is False
        return [Found("a client's account as it is", 1, len(account.lost()), False), Found("a client's account with one answer changed", 1, int(refused), True)]

    def wrong_code(self) -> Found:
        """A disk fault that is promised to pass: the tool tells that the member ended."""
        outcome = self.run.go(0, Rule("sync", "EIO", ends(GOES_ON), ends(GOES_ON)), Fault("sync", "EIO", 6))
        return Found("a sync that fails, where going on is promised", 1, int(bool(outcome.wrong)), True)

    def never_forgets(self, seed: int) -> List[Found]:
        """A member that reads what the system has of its file in memory, and never what the disk has."""
        if why := disk.why_not():
            print(f"left out: {why}")
            return []
        with tempfile.NamedTemporaryFile() as counts:
            outcome = self.disks.rots(0, seed, self.shim.environment(counts.name, FAULT_KEEPS=1))
        return [Found("a member that never forgets what it has of its file in memory", 1, int(bool(outcome.wrong)), True)]

    def all(self, seed: int) -> List[Found]:
        return [
            *self.changed_answer(seed),
            self.lost("the power fails at a sync", False, "sync", "cut", CUTS),
            self.lost("the power fails at a sync, and no sync before it did anything", True, "sync", "cut", CUTS, FAULT_LAX=1),
            self.lost("writes that are done in two parts", False, "write", "short", WRITES, ENTRY),
            self.lost("writes that say that they were done, and weren't", True, "write", "skip", WRITES, ENTRY),
            self.wrong_code(),
            *self.never_forgets(seed),
        ]


def print_found(rows: List[Found]) -> bool:
    """The table; whether all is as it has to be."""
    for row in rows:
        wanted = "has to be found" if row.has_to_be else "nothing may be found"
        print(f"{'' if row.is_well else 'WRONG: '}{row.what}: {wanted}; found in {row.found} of {row.tries}")
    return all(row.is_well for row in rows)
