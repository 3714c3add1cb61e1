"""A client's session in a group, for threads."""

from __future__ import annotations

import time
from _thread import TIMEOUT_MAX, allocate_lock

from .asking import Asker
from .errors import Full, NotAsked, Unknown
from .ledger import GroupWords, Ledger
from .links import open_link
from .messages import Delete, Get, OutcomeKind, Put, Register
from .records import TYPE_CHECKING

if TYPE_CHECKING:
    from types import TracebackType
    from typing import Optional, Type

    from .links import Link
    from .messages import Operation, Outcome, Request

__all__ = ["Group", "Requests", "Session"]


class Requests:
    """What a group can be asked. Each takes its own `timeout`; None is the group's."""

    def ask(self, operation: Operation, timeout: Optional[float] = None) -> Outcome:
        """What executing an operation gave, with its place in the group's list (`Outcome.op`): what `put`, `get` and `delete` are made of."""
        raise NotImplementedError

    def put(self, key: str, value: str, timeout: Optional[float] = None) -> None:
        """Gives a key its value. Raises `Full` where the key is new and the group holds 128 already: then nothing has changed."""
        operation = Put(key, value)
        if self.ask(operation, timeout).kind == OutcomeKind.FULL:
            raise Full(operation)

    def get(self, key: str, timeout: Optional[float] = None) -> Optional[str]:
        """The value that was put last; None where the key isn't there."""
        outcome = self.ask(Get(key), timeout)
        return outcome.value if outcome.kind == OutcomeKind.VALUE else None

    def delete(self, key: str, timeout: Optional[float] = None) -> bool:
        """Takes a key out; whether it was there. Of several sessions that delete a key at one time exactly one hears True."""
        return self.ask(Delete(key), timeout).kind == OutcomeKind.OK


class Group(GroupWords):
    """A group of members.

    `cluster` is its number, and `addresses` are all of its members' in their order, as at `node` and `client`: `HOST:PORT` for UDP or
    `tcp:HOST:PORT`. `version` is that of its files, 1 or 2, in which it is asked first: sessions find the right one, and go over where the
    group does. `timeout` is how many seconds a request waits for its answer unless it says otherwise, and `retry` how it is asked meanwhile.
    `notice` is called with a line of text where an address seems to be wrong, or a register has no answer for 0.75 seconds. Nothing is sent
    before `register`.

    Raises `ValueError` where an address is of another form, or there are fewer or more of them than the version allows: 2 to 6 in version 1,
    1 to 6 in version 2.
    """

    def register(self, *, client: Optional[int] = None, timeout: Optional[float] = None) -> Session:
        """Begins a session, of a client with a random number unless one is given (1 to 2^64 - 1; each session needs a number of its own).
        The group keeps 32 sessions, in version 2 64; a further one ends the one that was used longest ago.

        Raises `Unknown` where no answer came in `timeout` seconds: fewer members run than the group needs, or messages don't come through;
        `Misconfigured`, an `Unknown` too, after 0.75 seconds where each address says that it is another member's or group's;
        `SessionLost` where the number was used before and its session has gone on; `Unresolved` where no address can be resolved. Names of
        hosts are looked up here, once for the session; one that isn't found is left out. How long that takes is up to the system.
        """
        number, within = self.client_number(client), self.checked(timeout)
        session = Session(self, number, open_link(self.places))
        try:
            session.ask(Register(), within)
        except BaseException:
            session.close()
            raise
        return session


class Session(Requests):
    """A client's session: its requests are executed one after the other, each at most once. `Group.register` makes it.

    Each request waits for its answer at most `timeout` seconds, where None is the group's, and raises

    - `Unknown` where none came: the operation may have been executed. The next request first asks for that answer again (`settle`);
    - `SessionLost` where the group doesn't go on with the session: register anew;
    - `Closed` after `close`, and in a process that was forked from the session's own;
    - `NotAsked` where other threads had the session for all of that time;
    - `TypeError` or `ValueError` where a key or a value isn't of the form (a str of visible letters of ASCII, 33 to 126; a key of 1 to 64,
      a value of 1 to 1,024, in version 2 to 3,000), or the timeout isn't above 0. In the last three nothing is asked.

    Threads may share it; their requests stand in line. `close` gives its sockets back; it ends a `with` block too.
    """

    def __init__(self, group: GroupWords, client: int, link: Link) -> None:
        self._group = group
        self._ledger = Ledger(group, client)
        self._link = link
        self._asker = Asker(link, self._ledger.course, group.retry, is_stopped=lambda: self._ledger.is_closed, tell=self._ledger.tell)
        self._turn = allocate_lock()

    @property
    def client(self) -> int:
        """The client's number."""
        return self._ledger.client

    def within(self, timeout: Optional[float]) -> float:
        """So many seconds, or the group's timeout where None is given."""
        return self._group.checked(timeout)

    @property
    def lost(self) -> Optional[str]:
        """Why the session is lost, in a word; None as long as it isn't known to be."""
        return self._ledger.lost

    @property
    def is_closed(self) -> bool:
        """Whether it was closed."""
        return self._ledger.is_closed

    def ask(self, operation: Operation, timeout: Optional[float] = None) -> Outcome:
        within = self._group.checked(timeout)
        self._ledger.check(operation)
        self._ledger.check_open()
        deadline = time.monotonic() + within
        if not self._turn.acquire(timeout=min(within, TIMEOUT_MAX)):
            raise NotAsked(f"`{operation}` wasn't asked: others had the session for {within:g} s")
        try:
            self._ledger.check_open()
            if self._ledger.open is not None:
                self._settle(self._ledger.open, deadline, unsent=operation)
            return self._settle(self._ledger.begin(operation), deadline)
        finally:
            self._release()

    @property
    def pending(self) -> Optional[Operation]:
        """The operation of which it isn't known whether it was executed, if there is one."""
        request = self._ledger.open
        return None if request is None else request.operation

    def doubt(self, operation: Operation) -> Optional[Unknown]:
        """Where this very operation was asked and isn't known yet, whatever ended its call: what `Unknown.outcome` will tell of it."""
        return self._ledger.doubt(operation)

    def settle(self, timeout: Optional[float] = None) -> Optional[Outcome]:
        """Asks again for the answer that `pending` has, under the number that it had, so it isn't executed twice. None where nothing is
        pending."""
        within = self._group.checked(timeout)
        self._ledger.check_open()
        deadline = time.monotonic() + within
        if not self._turn.acquire(timeout=min(within, TIMEOUT_MAX)):
            raise NotAsked(f"others had the session for {within:g} s")
        try:
            self._ledger.check_open()
            request = self._ledger.open
            return None if request is None else self._settle(request, deadline)
        finally:
            self._release()

    def close(self) -> None:
        """Gives the sockets back. A request that another thread waits for ends within a second with `Unknown`. The group keeps the session
        until newer ones end it."""
        self._ledger.is_closed = True
        if self._ledger.is_elsewhere:
            self._link.close()
        elif self._turn.acquire(blocking=False):
            self._release()

    def _release(self) -> None:
        """Gives the turn back, and the sockets where the session was closed meanwhile."""
        if self._ledger.is_closed:
            self._link.close()
        self._turn.release()

    def __enter__(self) -> Session:
        return self

    def __exit__(self, kind: Optional[Type[BaseException]], error: Optional[BaseException], trace: Optional[TracebackType]) -> None:
        self.close()

    def __repr__(self) -> str:
        return f"<Session of {self._ledger}>"

    def _settle(self, request: Request, deadline: float, unsent: Optional[Operation] = None) -> Outcome:
        """Asks until the request is answered; then nothing is pending."""
        begun, view = time.monotonic(), self._ledger.course.view
        reply, search = self._asker.ask(request, deadline)
        self._ledger.note(request, reply, search, begun, view)
        return self._ledger.settle(request, reply, search, unsent)
