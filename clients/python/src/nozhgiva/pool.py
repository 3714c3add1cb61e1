"""A few sessions that many threads share."""

from __future__ import annotations

import os
import threading
import time
from contextlib import contextmanager
from types import TracebackType
from typing import Iterator, List, Optional, Type

from .errors import Closed, NotAsked, Unknown
from .messages import Operation, Outcome, Register
from .session import Group, Requests, Session

__all__ = ["Pool"]

SESSIONS_MOST = 32
"""How many sessions a group of version 1 keeps in all."""


class Pool(Requests):
    """A few sessions of a group, each lent to one thread at a time: as many requests are open at once as there are sessions, and no thread
    needs one of its own.

    A group keeps 32 sessions in all, in version 2 64; a further one ends the one that was used longest ago. So all clients of a group
    together should have fewer: `sessions` is how many this pool has at most, and each process has its own pool. They are registered as they
    are needed, and one that is lost is replaced when the next is asked for: whoever asked when it was lost hears so, since nothing is ever
    asked a second time in a new session.

    After a fork the new process begins with none: it registers its own.
    """

    def __init__(self, group: Group, sessions: int = 4) -> None:
        if not 1 <= sessions <= SESSIONS_MOST:
            raise ValueError(f"a pool has 1 to {SESSIONS_MOST} sessions, not {sessions}")
        self.group = group
        self.sessions = sessions
        self._begin()
        self._is_closed = False

    def _begin(self) -> None:
        self._process = os.getpid()
        self._idle: List[Session] = []
        self._made = 0
        self._change = threading.Condition()

    @contextmanager
    def session(self, timeout: Optional[float] = None) -> Iterator[Session]:
        """Lends a session for the length of a `with` block, to this thread alone.

        Raises `NotAsked` where all were lent for `timeout` seconds, and what `Group.register` raises where one more had to be registered.
        """
        session = self._borrow(time.monotonic() + self.group.checked(timeout))
        try:
            yield session
        finally:
            self._give_back(session)

    def ask(self, operation: Operation, timeout: Optional[float] = None) -> Outcome:
        """As `Session.ask`, and so are `put`, `get` and `delete`. The time is for all of it: the wait for a session, its register where it has to be made, and the request."""
        within = self.group.checked(timeout)
        deadline = time.monotonic() + within
        try:
            session = self._borrow(deadline)
        except Unknown as error:
            raise Unknown(Register(), operation, error.seen) from None
        try:
            left = deadline - time.monotonic()
            if left <= 0:
                raise NotAsked(f"`{operation}` wasn't asked: the {within:g} s were over before it had a session")
            return session.ask(operation, left)
        finally:
            self._give_back(session)

    def close(self) -> None:
        """Closes the sessions that nobody has now, and the others as they come back."""
        with self._change:
            self._is_closed = True
            for session in self._idle:
                session.close()
            self._idle.clear()
            self._change.notify_all()

    def __enter__(self) -> Pool:
        return self

    def __exit__(self, kind: Optional[Type[BaseException]], error: Optional[BaseException], trace: Optional[TracebackType]) -> None:
        self.close()

    def __repr__(self) -> str:
        state = "closed" if self._is_closed else f"{self._made} of {self.sessions} sessions made, {len(self._idle)} idle"
        return f"<Pool of {self.group!r}: {state}>"

    def _check(self) -> None:
        if self._is_closed:
            raise Closed("the pool is closed: nothing was asked")

    def _borrow(self, deadline: float) -> Session:
        if self._process != os.getpid():
            self._begin()
        with self._change:
            self._check()
            while not self._idle and self._made >= self.sessions:
                if not self._change.wait(min(deadline - time.monotonic(), threading.TIMEOUT_MAX)):
                    raise NotAsked(f"nothing was asked: all {self.sessions} sessions of the pool were in use")
                self._check()
            if self._idle:
                return self._idle.pop()
            self._made += 1
        try:
            return self.group.register(timeout=max(deadline - time.monotonic(), 0.001))
        except BaseException:
            self._forget()
            raise

    def _forget(self) -> None:
        """One session fewer."""
        with self._change:
            self._made -= 1
            self._change.notify()

    def _give_back(self, session: Session) -> None:
        if session.lost or session.is_closed or self._is_closed:
            session.close()
            self._forget()
            return
        with self._change:
            # One that waits for an answer comes last: whoever is lent it asks for that answer first.
            self._idle.insert(0 if session.pending else len(self._idle), session)
            self._change.notify()
