"""The group that is hunted: three members on hosts of their own, or on loopback, and all that can be done to them."""

from __future__ import annotations

import collections
import random
import shutil
import signal
import subprocess
import time
from functools import partial
from typing import Callable, Counter, List, Optional, Tuple

from nozhgiva_tools.run.group import CHECKPOINT, Group, migrate_words, SIZE
from nozhgiva_tools.run.nets import Net, Sealed
from nozhgiva_tools.told.lines import Beat, last_applied, parse, Prepare

TAIL = 1 << 16
FAR = 2 << 20
PATIENCE = 180.0


class Stuck(Exception):
    """The group doesn't come to what it has to come to, in words."""


class Members(Group):
    """Members with their files; on a sealed net each has a host of its own."""

    def __init__(self, net: Optional[Net] = None, scheme: str = "", version: int = 1) -> None:
        super().__init__(net, scheme, version=version)
        self.ended: List[str] = []

    def tail(self, r: int, size: int = TAIL) -> List[bytes]:
        """The last lines that a member told."""
        with open(f"{self.folder}/{r}.text", "rb") as text:
            text.seek(max(0, text.seek(0, 2) - size))
            return text.read().split(b"\n")[1:-1]

    def applied(self, r: int) -> int:
        """The last operation that a member has told as applied, as far as its last lines tell."""
        return last_applied(self.tail(r, FAR))

    def leader(self) -> int:
        """The member that sent the last heartbeat or prepare of the newest view."""
        newest = (-1, 0)
        for r in range(SIZE):
            for line in map(parse, self.tail(r)):
                if isinstance(line, (Beat, Prepare)):
                    newest = max(newest, (line.view, r))
        return newest[1]

    def runs(self, r: int) -> bool:
        """Whether a member runs. One that ended by itself is told in `ended`, and started again."""
        process = self.members.get(r)
        if process is None:
            return False
        if process.poll() is not None:
            self.ended.append(f"member {r} ended by itself with {process.returncode}: {'; '.join(self.errors(r))}")
            self.start(r)
        return True

    def move(self, r: int, draw: random.Random) -> None:
        """Ends a member, makes its file one of version 2, and starts it again. The migration may be killed in its midst at first."""
        process = self.members[r]
        if process is not None:
            process.send_signal(signal.SIGTERM)
            process.wait()
        words = migrate_words(self.program, self.number, r, self.size, self.file(r))
        first = subprocess.Popen(words)
        if draw.random() < 0.5:
            time.sleep(draw.uniform(0, 0.01))
            first.kill()
        first.wait()
        if subprocess.run(words, timeout=PATIENCE, check=False).returncode:
            raise Stuck(f"the migration of member {r} fails")
        self.start(r)

    def spoil(self, work: Callable[[], None]) -> None:
        """Does what the promises forbid: puts files back that were copied before some work."""
        self.replace_files("", ".copy")
        work()
        self.replace_files(".copy", "")

    def replace_files(self, old: str, new: str) -> None:
        """Starts all members again, once their files are copied from one name to another."""
        for r in range(SIZE):
            self.kill(r)
        for r in range(SIZE):
            shutil.copy(self.file(r) + old, self.file(r) + new)
            self.start(r)

    def wait_until_level(self) -> None:
        """Waits until no member is more than a checkpoint's worth behind another."""
        end = time.monotonic() + PATIENCE
        while True:
            done = [self.applied(r) for r in range(SIZE)]
            if max(done) - min(done) <= CHECKPOINT:
                return
            if time.monotonic() > end:
                raise Stuck(f"a member stays behind: they have applied {done}")
            time.sleep(0.2)


class Trouble:
    """What befalls the members, drawn from a number: each fault is mended after a while, and a few are there at once."""

    MOST = 2
    """How many faults there are at one time."""

    def __init__(self, members: Members, draw: random.Random) -> None:
        self.members, self.draw = members, draw
        self.counts: Counter[str] = collections.Counter()
        self.mends: List[Tuple[float, Callable[[], None]]] = []
        self.cuts: Counter[Tuple[int, int]] = collections.Counter()
        self.kinds = [self.kill, self.kill, self.kill, self.pause, self.pause, self.kill_all]
        if isinstance(members.net, Sealed):
            self.kinds += [self.cut_off, self.cut_off, self.cut_off_from_members, self.cut_one_way]

    def go(self, seconds: float, pace: Callable[[], None]) -> None:
        """Troubles the members for a while, and mends all of it at the end. After each fault it calls `pace`."""
        end = time.monotonic() + seconds
        while (now := time.monotonic()) < end:
            self.mend(now)
            for r in range(SIZE):
                self.members.runs(r)
            if len(self.mends) < self.MOST:
                mend = self.draw.choice(self.kinds)(self.someone())
                if mend:
                    self.mends.append((now + self.draw.uniform(0.2, 2.0), mend))
                    pace()
            time.sleep(self.draw.uniform(0.3, 3.0))
        self.mend()

    def mend(self, now: float = float("inf")) -> None:
        """Mends what has lasted until now."""
        due = [mend for until, mend in self.mends if until <= now]
        self.mends = [one for one in self.mends if one[0] > now]
        for mend in due:
            mend()

    def someone(self) -> int:
        """A member: the one that leads as often as any."""
        return self.members.leader() if self.draw.random() < 0.5 else self.draw.randrange(SIZE)

    def kill(self, r: int) -> Optional[Callable[[], None]]:
        if not self.members.runs(r):
            return None
        self.counts["killed"] += 1
        self.members.kill(r)
        return lambda: self.back(r)

    def back(self, r: int) -> None:
        if r not in self.members.members:
            self.members.start(r)

    def back_all(self) -> None:
        for r in range(SIZE):
            self.back(r)

    def kill_all(self, _: int) -> Callable[[], None]:
        self.counts["all killed"] += 1
        for r in range(SIZE):
            self.members.kill(r)
        return self.back_all

    def pause(self, r: int) -> Optional[Callable[[], None]]:
        if not self.members.runs(r):
            return None
        process = self.members.members[r]
        assert process  # it runs
        self.counts["paused"] += 1
        process.send_signal(signal.SIGSTOP)
        return partial(process.send_signal, signal.SIGCONT)

    @property
    def net(self) -> Sealed:
        """Ways are cut on a sealed net alone."""
        assert isinstance(self.members.net, Sealed)
        return self.members.net

    def cut(self, *ways: Tuple[int, int]) -> Callable[[], None]:
        for way in ways:
            self.cuts[way] += 1
            self.net.cut(*way)
        return lambda: self.join(*ways)

    def join(self, *ways: Tuple[int, int]) -> None:
        for way in ways:
            self.cuts[way] -= 1
            if not self.cuts[way]:
                self.net.mend_way(*way)

    def cut_off(self, r: int) -> Callable[[], None]:
        """From the other members and from all clients."""
        self.counts["cut off"] += 1
        return self.cut(*((r, other) for other in range(SIZE + 1) if other != r), *((other, r) for other in range(SIZE + 1) if other != r))

    def cut_off_from_members(self, r: int) -> Callable[[], None]:
        """From the other members; clients reach it."""
        self.counts["cut off from members"] += 1
        return self.cut(*((r, other) for other in range(SIZE) if other != r), *((other, r) for other in range(SIZE) if other != r))

    def cut_one_way(self, r: int) -> Callable[[], None]:
        """What it sends to another member or to clients is lost, and what comes back isn't."""
        self.counts["cut one way"] += 1
        other = self.draw.choice([one for one in range(SIZE + 1) if one != r])
        return self.cut((r, other))
