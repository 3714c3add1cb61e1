"""What several processes do together: a lock, a value that they change by turns, a counter, an election, a configuration.

All of it rests on one thing: of several sessions that delete a key at one time, exactly one hears that it was there. Put has no condition, so
whoever gets a value, changes it and puts it back loses what another one put meanwhile. Here who changes it holds a lock first.

None of this has an expiry. A lock whose holder is gone stays taken until a person, or a program that knows, calls `make_free`. Nor does the
group keep a late holder out: one that stood still while its lock was made free goes on when it wakes, and learns it when it releases the lock.
What it does then harms no lock: nobody else's is released by it. Each holder has a number, greater than that of all before it; what is
guarded outside of the group can refuse a number below one that it has seen.

Each recipe needs a session; threads of a process need one each. What `Unknown` and `SessionLost` mean is said at each call.
"""

from __future__ import annotations

import json
import random
import time
from contextlib import contextmanager, suppress
from typing import Any, Callable, Dict, Generator, Iterator, List, NamedTuple, Optional

from .blob import Blob
from .errors import Error, Full, NotAsked, Unknown
from .messages import LARGEST_KEY, Delete, Get, Operation, Outcome, OutcomeKind, Put
from .session import Session

__all__ = ["Cell", "Configuration", "Counter", "Election", "Leader", "Lock", "NotHeld", "Settings", "Taken"]

HELD, FREE = "held", "free"
FIRST_PAUSE, PAUSE_FACTOR, PAUSE_MOST = 0.05, 1.5, 0.5
"""How many seconds a lock that is taken is left alone before it is asked for again: at first, how much longer each time, and at most."""
GRACE = 1.0
"""How many seconds a request has at least that ends what was begun, though the time is over."""
LONGEST_NAME = LARGEST_KEY - len(".held.") - len(str(2**62))
"""How many letters the name of a lock has at most, since those of its keys are longer by that."""


class Taken(Error, TimeoutError):
    """The lock wasn't free in time. It isn't held."""


class NotHeld(Error):
    """What is to be released isn't held."""


class _Deadline:
    """How much of a call's time is left."""

    def __init__(self, within: float) -> None:
        self._end = time.monotonic() + within

    @property
    def is_over(self) -> bool:
        return time.monotonic() >= self._end

    def left(self, what: str) -> float:
        """The seconds that are left. Raises `NotAsked` where none is."""
        left = self._end - time.monotonic()
        if left <= 0:
            raise NotAsked(f"the time was over before `{what}` was asked")
        return left

    def at_least(self, least: float) -> float:
        """The seconds that are left, or so many where fewer are."""
        return max(self._end - time.monotonic(), least)

    def rest(self, pause: float) -> None:
        """Sleeps for a pause, a random share of which is left out, but no longer than there is time."""
        time.sleep(max(min(pause * (1 - 0.5 * random.random()), self._end - time.monotonic()), 0.0))


def _number_of(outcome: Outcome) -> Optional[int]:
    """The number of the last holder, as the key of a lock's name says it; None where nobody has called `make_free`."""
    return int(outcome.value) if outcome.value.isdecimal() else None


class Leader(NamedTuple):
    """Who leads: the candidate, and the number of its term, greater than those of all terms before it."""

    candidate: str
    term: int


Steps = Generator[Operation, Outcome, Optional[int]]
"""What is asked to take a lock, one after the other, each with what it gave; the number, or None where the lock wasn't had."""


class Lock:
    """What one at a time holds.

    `make_free` has to be called once, before anybody uses it. Where `acquire` or `release` raises `Unknown`, it isn't known whether it came
    about: call the same again, on this very lock, and it finds out first, and goes on from there. Where a call raises `SessionLost` and the
    lock was held, or may have been, it stays taken: nobody holds it, and `make_free` gives it back. A lock that is waited for costs the group
    four requests a second from each who waits.

    Each holder has keys of its own, by its number. The key `name` has the number N of the last holder. `name.held.N` is there until that one
    gives the lock back, or another makes it free: by a delete, which does no harm where it comes late. `name.next.N` is the right to come
    after it: of those who delete it one hears that it was there, and is the next.
    """

    def __init__(self, session: Session, name: str, says: str = HELD) -> None:
        """`says` is the value of the key that is there while this one holds the lock."""
        if len(name) > LONGEST_NAME:
            raise ValueError(f"the name of a lock has at most {LONGEST_NAME} letters, since its keys have more, not {len(name)}")
        self.session = session
        self.name = name
        self.says = says
        self.number: Optional[int] = None
        """The number of who holds it, where this lock does: greater than all before it. Else None."""
        self._doubt: Optional[Unknown] = None
        self._steps: Optional[Steps] = None
        self._next: Optional[Operation] = None
        self._made: List[Put] = []

    @property
    def is_held(self) -> bool:
        """Whether it is held by this lock, as far as is known."""
        return self.number is not None

    def held_key(self, number: int) -> str:
        """The key that is there while this number holds the lock."""
        return f"{self.name}.held.{number}"

    def next_key(self, number: int) -> str:
        """The key whose delete takes the lock after this number."""
        return f"{self.name}.next.{number}"

    def holder(self, timeout: Optional[float] = None) -> Optional[int]:
        """The number of who holds it, for whoever watches over it; None where nobody does."""
        current = self._current(timeout)
        return None if current is None else current.term

    def make_free(self, timeout: Optional[float] = None, *, number: Optional[int] = None, anew: bool = False) -> None:
        """Makes the lock free, whoever holds it, or only where this `number` does: once before its first use, and where its holder is gone for
        good. A holder that isn't gone learns it when it releases the lock. Where several watch over a holder, each gives the number that it
        saw (`holder`), so that none makes free what the next one holds.

        Raises `Taken` where one has taken it and hasn't said its number in all of the time. Where that one is gone for good, `anew` makes a
        lock that nobody holds; call it while nobody else uses the lock.
        """
        deadline = _Deadline(self.session.within(timeout))
        read = self._asked(Get(self.name), deadline)
        last = _number_of(read)
        if last is None or anew:
            self._begin(read.op, deadline)
        elif number in (None, last) and not self._end(last, deadline):
            self._await_next(last, deadline)

    def acquire(self, timeout: Optional[float] = None) -> int:
        """Waits until the lock is free, and takes it; its number. Raises `Taken` where it wasn't free in time, `Full` where the group has no
        room for two more keys, and `Unknown`: it may be held then. Called again it finds out, and is done where it is. What takes it has a
        second each though the time is over."""
        if self.is_held:
            raise NotHeld(f"the lock {self.name} is held already: it can't be taken twice")
        deadline, pause = _Deadline(self.session.within(timeout)), FIRST_PAUSE
        while (number := self._try(deadline)) is None:
            deadline.rest(pause)
            if deadline.is_over:
                raise Taken(f"the lock {self.name} wasn't free in time; before its first use `make_free` has to be called once")
            pause = min(pause * PAUSE_FACTOR, PAUSE_MOST)
        self.number = number
        return number

    def release(self, timeout: Optional[float] = None) -> None:
        """Gives it back. Raises `NotHeld` where another made it free meanwhile, so that somebody else may hold it, and `Unknown`: call it
        again then."""
        number = self.number
        if number is None:
            raise NotHeld(f"the lock {self.name} isn't held")
        operation = Delete(self.held_key(number))
        outcome = self._settled(operation, _Deadline(self.session.within(timeout)).left(str(operation)))
        self.number = None
        if outcome.kind != OutcomeKind.OK:
            raise NotHeld(f"the lock {self.name} was made free while number {number} held it")

    @contextmanager
    def held(self, timeout: Optional[float] = None) -> Iterator[int]:
        """Holds it for the length of a `with` block, which gets its number; to release it there is as much time again."""
        number = self.acquire(timeout)
        try:
            yield number
        finally:
            self.release(timeout)

    def forget(self) -> None:
        """Holds it no more, and gives nothing back: for who has learned that another one holds it by now."""
        self.number = self._doubt = self._steps = None

    def _current(self, timeout: Optional[float]) -> Optional[Leader]:
        """Who holds it, by number and by what its key says."""
        deadline, before = _Deadline(self.session.within(timeout)), None
        while True:
            last = _number_of(self._asked(Get(self.name), deadline))
            if last is None or last == before:
                return None
            held = self._asked(Get(self.held_key(last)), deadline)
            if held.kind == OutcomeKind.VALUE:
                return Leader(held.value, last)
            before = last

    def _begin(self, number: int, deadline: _Deadline) -> None:
        """Makes a lock that nobody holds, as if one with this number, which nobody else has, had given it back."""
        for operation in (Put(self.next_key(number), FREE), Put(self.name, str(number))):
            if self._asked(operation, deadline).kind == OutcomeKind.FULL:
                raise Full(operation)

    def _end(self, number: int, deadline: _Deadline) -> bool:
        """Takes the lock from this number; whether nobody has taken it after that, as far as is seen."""
        if self._asked(Delete(self.held_key(number)), deadline).kind == OutcomeKind.OK:
            return True
        return self._asked(Get(self.next_key(number)), deadline).kind == OutcomeKind.VALUE

    def _await_next(self, number: int, deadline: _Deadline) -> None:
        """Waits until who took the lock after this number has said its own. Raises `Taken` where nobody does."""
        while _number_of(self._asked(Get(self.name), deadline)) == number:
            deadline.rest(PAUSE_MOST)
            if deadline.is_over:
                raise Taken(f"somebody took the lock {self.name} after number {number}, and hasn't said so; `anew`, if that one is gone for good")

    def _asked(self, operation: Operation, deadline: _Deadline) -> Outcome:
        return self.session.ask(operation, deadline.left(str(operation)))

    def _take(self) -> Steps:
        """Takes the lock if it is free.

        The number is that of the get of `name` in the group's list, so nobody else has it, and it is greater than the one that is read. Its
        keys are made first. So what decides is one delete, and nothing after it needs room for a key.
        """
        read = yield Get(self.name)
        last, own = _number_of(read), read.op
        if last is None or (yield Get(self.held_key(last))).kind == OutcomeKind.VALUE:
            return None
        for operation in (Put(self.held_key(own), self.says), Put(self.next_key(own), FREE)):
            self._made.append(operation)
            if (yield operation).kind == OutcomeKind.FULL:
                raise Full(operation)
        if (yield Delete(self.next_key(last))).kind != OutcomeKind.OK:
            return None
        yield Put(self.name, str(own))
        self._made.clear()
        return own

    def _try(self, deadline: _Deadline) -> Optional[int]:
        """Takes the lock if it is free, and goes on where an earlier try raised."""
        if self._steps is None or self._next is None:
            self._steps = self._take()
            self._next = next(self._steps)
        while True:
            within = deadline.left(str(self._next)) if isinstance(self._next, Get) else deadline.at_least(GRACE)
            outcome = self._settled(self._next, within)
            try:
                self._next = self._steps.send(outcome)
            except (StopIteration, Full) as end:
                self._steps = None
                self._clean()
                if isinstance(end, Full):
                    raise
                number: Optional[int] = end.value
                return number

    def _clean(self) -> None:
        """Takes out the keys of a number that holds nothing. One that stays there, since no answer comes, is no harm."""
        made, self._made = self._made, []
        for operation in made:
            with suppress(Unknown, NotAsked):
                self.session.ask(Delete(operation.key), GRACE)

    def _settled(self, operation: Operation, within: float) -> Outcome:
        """The outcome of an operation; where it was asked before and that isn't known yet, of that one."""
        if self._doubt is not None:
            outcome = self._doubt.outcome or self.session.settle(within)
            self._doubt = None
            if outcome is not None:
                return outcome
        try:
            return self.session.ask(operation, within)
        except BaseException:
            self._doubt = self.session.doubt(operation)
            raise


class Cell:
    """A value that many change by turns, and no change is lost. It is the key `name`, and its lock is called `name.free`.

    `make` has to be called once, before anybody changes it. Anyone may read it at any time.
    """

    def __init__(self, session: Session, name: str) -> None:
        self.session = session
        self.name = name
        self.lock = Lock(session, f"{name}.free")

    def make(self, value: str, timeout: Optional[float] = None) -> None:
        """Gives it its first value, and makes its lock free."""
        self.session.put(self.name, value, timeout)
        self.lock.make_free(timeout)

    def read(self, timeout: Optional[float] = None) -> Optional[str]:
        """The value that was put last; None where `make` wasn't called."""
        return self.session.get(self.name, timeout)

    def update(self, change: Callable[[Optional[str]], str], timeout: Optional[float] = None) -> str:
        """Gives it the value that `change` makes of the one that it has; the new one. `change` may take its time, and others wait for it.

        Raises `Taken` where the lock wasn't free in time: nothing has changed. Where `Unknown` is raised, its operation says how far it
        came. A put of the value: it may have changed, and `error.outcome` says so once the session has settled it. A delete of the key that
        begins with `name.free.held.`: it has changed. Any other: nothing has. `NotAsked` names what wasn't asked any more in the same way. In
        all these cases this cell may still hold the lock: its next update goes on with it, and `finish` gives it back. `NotHeld` says that it
        has changed, and that the lock was made free meanwhile, so another change may be lost.
        """
        deadline = _Deadline(self.session.within(timeout))
        if not self.lock.is_held:
            self.lock.acquire(deadline.left(f"get {self.lock.name}"))
        before = self.read(deadline.left(f"get {self.name}"))
        try:
            value = change(before)
        except BaseException:
            self.finish()
            raise
        self.session.put(self.name, value, deadline.left(f"put {self.name}"))
        self.lock.release(deadline.left(f"del {self.lock.name}.held"))
        return value

    def finish(self, timeout: Optional[float] = None) -> None:
        """Gives the lock back where an update that failed left it held."""
        if self.lock.is_held:
            self.lock.release(timeout)


class Counter:
    """A number that many add to, and no addition is lost. Its keys are those of a `Cell`."""

    def __init__(self, session: Session, name: str) -> None:
        self.cell = Cell(session, name)

    def make(self, value: int = 0, timeout: Optional[float] = None) -> None:
        """Gives it its first value: once, before anybody adds to it."""
        self.cell.make(str(value), timeout)

    def add(self, amount: int = 1, timeout: Optional[float] = None) -> int:
        """Adds, and tells what it came to; `Cell.update` says what it raises. One that raised and is called again adds again."""
        return int(self.cell.update(lambda value: str(int(value or "0") + amount), timeout))

    def value(self, timeout: Optional[float] = None) -> int:
        """What it has come to. It may have more by the time the caller looks."""
        return int(self.cell.read(timeout) or "0")


class Election:
    """One leader among several candidates, until it resigns. It is a lock that leaders hold, of the same name, so `name` has the number N of
    the last term, and `name.held.N` is the candidate that leads in it.

    A leader that is gone without a word isn't replaced by itself: that it is gone nobody here can know. `depose`, by a person or a program
    that knows, makes room for the next. A leader that was deposed and isn't gone learns it by `leads`, which may be too late for what it
    does: use the term as the number by which whatever it leads refuses an older leader.
    """

    def __init__(self, session: Session, name: str, candidate: str) -> None:
        self.session = session
        self.name = name
        self.candidate = candidate
        self.lock = Lock(session, name, candidate)

    def make(self, timeout: Optional[float] = None) -> None:
        """Prepares the election: once, before anybody stands for it."""
        self.lock.make_free(timeout)

    def campaign(self, timeout: Optional[float] = None) -> int:
        """Waits until it leads; the number of its term. Raises `Taken` where another one led all the time, and `Unknown`: it may lead then.
        Called again it finds out."""
        return self.lock.acquire(timeout) if self.lock.number is None else self.lock.number

    def leader(self, timeout: Optional[float] = None) -> Optional[Leader]:
        """Who leads; None where nobody does. It may be gone."""
        return self.lock._current(timeout)

    def leads(self, timeout: Optional[float] = None) -> bool:
        """Whether this candidate led when the group was asked: it has a term, and neither resigned nor was deposed."""
        term = self.lock.number
        return term is not None and self.session.get(self.lock.held_key(term), timeout) is not None

    def resign(self, timeout: Optional[float] = None) -> None:
        """Makes room for another one. Raises what `Lock.release` raises: `NotHeld` where it was deposed."""
        self.lock.release(timeout)

    def depose(self, timeout: Optional[float] = None, *, term: Optional[int] = None) -> None:
        """Makes room for another leader though this one didn't resign: for one that is gone for good. With `term` only where the leader is
        that term's: where several watch over a leader, each gives the term that it saw. Raises what `Lock.make_free` raises."""
        self.lock.make_free(timeout, number=term)


class Settings(NamedTuple):
    """A configuration as it was read: which one it is, counted from 1, and what it says."""

    number: int
    words: Dict[str, Any]


class Configuration:
    """What many read and few change: words and what JSON can say of them, in one value, so that nobody ever sees half of a change.

    It takes a third more than its JSON has bytes: 765 bytes of that fit in version 1, and 2,247 in version 2. Each read is a request of the
    group; readers that may be late give `most_age`. Nobody is told of a change: readers look again.
    """

    def __init__(self, session: Session, name: str) -> None:
        self.cell = Cell(session, name)
        self._read: Optional[Settings] = None
        self._at = 0.0

    def make(self, words: Dict[str, Any], timeout: Optional[float] = None) -> None:
        """Gives it its first words: once, before anybody changes it."""
        self.cell.make(_said(Settings(1, words)), timeout)

    def read(self, most_age: float = 0.0, timeout: Optional[float] = None) -> Optional[Settings]:
        """What it says; None where `make` wasn't called. With `most_age` it may be what was read so many seconds ago, and nothing is asked."""
        if self._read is None or time.monotonic() - self._at >= most_age:
            value = self.cell.read(timeout)
            self._read, self._at = None if value is None else _understood(value), time.monotonic()
        return self._read

    def change(self, edit: Callable[[Dict[str, Any]], Dict[str, Any]], timeout: Optional[float] = None) -> Settings:
        """Gives it the words that `edit` makes of those that it has; `Cell.update` says what it raises."""
        def edited(value: Optional[str]) -> str:
            before = Settings(0, {}) if value is None else _understood(value)
            return _said(Settings(before.number + 1, edit(before.words)))
        return _understood(self.cell.update(edited, timeout))

    def changes(self, pause: float = 1.0) -> Iterator[Settings]:
        """What it says, and then what it says each time that it has changed, for ever: it is read once in so many seconds. Of several changes
        between two looks only the last is seen."""
        number = 0
        while True:
            settings = self.read()
            if settings is not None and settings.number != number:
                number = settings.number
                yield settings
            time.sleep(pause)


def _said(settings: Settings) -> str:
    return Blob.encode(json.dumps([settings.number, settings.words], separators=(",", ":"), ensure_ascii=False))


def _understood(value: str) -> Settings:
    number, words = json.loads(Blob.decode(value))
    return Settings(number, words)
