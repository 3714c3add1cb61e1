"""What a group and a session are apart from how they wait: addresses and limits, numbers and what is open. nozhgiva and nozhgiva.aio share it."""

from __future__ import annotations

import os
import sys
import time

from .asking import NO_VIEW, Course, Retry, drawn
from .errors import Closed, Fate, Misconfigured, SessionLost, Unknown
from .links import places_of
from .messages import SIZES, VERSIONS, Request, encode_operation
from .records import TYPE_CHECKING, replace
from .sights import told

if TYPE_CHECKING:
    import logging
    from typing import Callable, List, Optional, Sequence, Set

    from .asking import Search
    from .links import Places
    from .messages import Operation, Outcome, Reply

__all__ = ["GroupWords", "Ledger"]

NUMBERS = 2**64
"""Clusters and clients are below it."""
LAST_NUMBER = 2**32 - 1
"""The last number of a request in one session."""
DEBUG = 10
"""`logging.DEBUG`."""


def _log() -> Optional[logging.Logger]:
    """The logger `nozhgiva`; None where the program has no use of `logging`, so that nobody could hear it."""
    module = sys.modules.get("logging")
    if module is None:
        return None
    log: logging.Logger = module.getLogger("nozhgiva")
    if not log.handlers:
        log.addHandler(module.NullHandler())
    return log


def _check_number(what: str, number: int, first: int) -> None:
    if not isinstance(number, int) or isinstance(number, bool):
        raise TypeError(f"a {what} is an int, not {type(number).__name__}")
    if not first <= number < NUMBERS:
        raise ValueError(f"a {what} is a number from {first} to 2^64 - 1")


class GroupWords:
    """What is told of a group: its number, the addresses of all members, its version, and how its requests wait."""

    def __init__(self, cluster: int, addresses: Sequence[str], *, version: int = 1, timeout: float = 10.0, retry: Retry = Retry(),
                 notice: Optional[Callable[[str], None]] = None) -> None:
        _check_number("cluster", cluster, 0)
        if isinstance(addresses, (str, bytes)) or not all(isinstance(address, str) for address in addresses):
            raise TypeError("addresses are a list of str, one for each member")
        if version not in VERSIONS:
            raise ValueError(f"a group is of version 1 or 2, not {version!r}")
        sizes = SIZES[version]
        if len(addresses) not in sizes:
            more = "; one of version 2 may have one: version=2" if version == 1 and len(addresses) == 1 else ""
            raise ValueError(f"a group of version {version} has {sizes[0]} to {sizes[-1]} addresses, not {len(addresses)}{more}")
        self.cluster = cluster
        self.addresses: List[str] = list(addresses)
        self.version = version
        self.timeout = self.checked(timeout)
        self.retry = retry
        self.notice = notice
        self.spoken = [version] * len(addresses)
        """For each address the version in which its member answered last, or `version`: what the sessions have found out."""
        self._places: Places = places_of(self.addresses)

    @property
    def size(self) -> int:
        """How many members it has."""
        return len(self.addresses)

    @property
    def places(self) -> Places:
        """Its members' hosts and ports."""
        return self._places

    def checked(self, timeout: Optional[float]) -> float:
        """So many seconds, or the group's. Raises `ValueError` where no time is left in which anything could be asked."""
        if timeout is None:
            return self.timeout
        if not timeout > 0:
            raise ValueError(f"a timeout is above 0 seconds, not {timeout!r}: nothing was asked")
        return timeout

    def client_number(self, client: Optional[int]) -> int:
        """The number that was given, or one that is drawn."""
        number = drawn(1, NUMBERS - 1) if client is None else client
        _check_number("client", number, 1)
        return number

    def __repr__(self) -> str:
        return f"{type(self).__name__}({self.cluster}, {self.addresses}, version={self.version})"


class Ledger:
    """What a session has asked: its next number, the request that is open, and why the session is lost if it is."""

    def __init__(self, group: GroupWords, client: int) -> None:
        self.group = group
        self.client = client
        self.course = Course(group.addresses, versions=group.spoken)
        self.open: Optional[Request] = None
        self.lost: Optional[str] = None
        self.is_closed = False
        self._next = 0
        self._fate = Fate()
        self._misplaced: Set[int] = set()
        self._process = os.getpid()

    @property
    def is_elsewhere(self) -> bool:
        """Whether this process was forked from the one that has the session."""
        return os.getpid() != self._process

    def check_open(self) -> None:
        """Raises `Closed` where nothing can be asked any more."""
        if self.is_elsewhere:
            raise Closed(f"this session belongs to process {self._process}, and this one was forked from it: register here")
        if self.is_closed:
            raise Closed("the session is closed: nothing was asked")

    def check(self, operation: Operation) -> None:
        """Raises `TypeError` or `ValueError` where an operation isn't of the form of the group's version."""
        encode_operation(operation, self.version)

    @property
    def version(self) -> int:
        """The version of the group, as far as this session knows."""
        return self.course.version or self.group.version

    def _request(self, operation: Operation) -> Request:
        return Request(self.group.cluster, self.client, self._next, operation, self.version)

    def begin(self, operation: Operation) -> Request:
        """The request under the next number, which is open from now on. Raises `SessionLost` where there is none."""
        if self.lost is None and self._next > LAST_NUMBER:
            self.lost = "spent"
        if self.lost is not None:
            raise SessionLost(self.lost, operation, is_asked=False)
        self.open = self._request(operation)
        self._fate = Fate()
        self._next += 1
        return self.open

    def doubt(self, operation: Operation) -> Optional[Unknown]:
        """What is told of this very operation later, where it is open."""
        if self.open is None or self.open.operation is not operation:
            return None
        return Unknown(operation, fate=self._fate)

    def settle(self, request: Request, reply: Optional[Reply], search: Search, unsent: Optional[Operation]) -> Outcome:
        """The outcome of the request that is open, which isn't any more then. Raises `Unknown` where no reply came, and `SessionLost`."""
        if reply is None:
            kind = Misconfigured if search.is_hopeless else Unknown
            raise kind(request.operation, unsent, search.sights, self._fate)
        self.open = None
        if reply.outcome is None:
            self.lost = reply.kind.name.lower()
            raise SessionLost(self.lost, request.operation)
        self._fate.outcome = replace(reply.outcome, op=reply.op)
        return self._fate.outcome

    def note(self, request: Request, reply: Optional[Reply], search: Search, begun: float, view: int) -> None:
        """Logs how a request went: a line for whoever looks closely, and a warning where another member leads than in `view`, the one before."""
        took, log = time.monotonic() - begun, _log()
        if log is not None and log.isEnabledFor(DEBUG):
            said = "no answer" if reply is None else str(reply.outcome or reply.kind.name.lower())
            log.debug("client %d: %s as number %d: %s in %.3f s, sent %d times", self.client, request.operation, request.number, said, took, search.sent)
        if log is not None and reply is not None and NO_VIEW < view < reply.view:
            log.warning("client %d: the primary of view %d was lost; member %d leads view %d; the request waited %.3f s",
                        self.client, view, reply.replica, reply.view, took)
        for sight in search.sights:
            if sight.members - {sight.place} and sight.place not in self._misplaced:
                self._misplaced.add(sight.place)
                self._say(f"{sight} (the addresses stand in another order than at the members)")

    def tell(self, search: Search) -> None:
        """Says what was seen so far, of a request that has no answer yet."""
        self._say(f"no answer to `{search.request.operation}` yet; {told(search.sights)}")

    def _say(self, text: str) -> None:
        """A warning, to whoever listens to the log, and to whom the group gives its notices."""
        log = _log()
        if log is not None:
            log.warning("client %d: %s", self.client, text)
        if self.group.notice is not None:
            self.group.notice(text)

    def __str__(self) -> str:
        state = "closed" if self.is_closed else f"lost: {self.lost}" if self.lost else f"waits for `{self.open.operation}`" if self.open else "open"
        return f"client {self.client} in group {self.group.cluster}, {self._next} requests, {state}"
