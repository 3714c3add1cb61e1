"""The same client for asyncio: `Group`, `Session` and `Pool`, with the same words, answers and errors; what waits is a coroutine.

    from nozhgiva.aio import Group

    group = Group(5, ["127.0.0.1:4000", "127.0.0.1:4001", "127.0.0.1:4002"])
    async with await group.register() as session:
        await session.put("color", "green")
        print(await session.get("color"))

A task that is cancelled while it asks leaves its request open, as one whose time is over does: `Session.pending` has it, and the next
request of the session first asks for that answer. Recipes are for threads alone.
"""

from __future__ import annotations

import asyncio
import math
import os
import time
from contextlib import asynccontextmanager
from types import TracebackType
from typing import Any, AsyncIterator, Dict, List, Optional, Sequence, Tuple, Type, Union

from .asking import LOOK, Search, Send
from .errors import Closed, Full, NotAsked, Unknown
from .ledger import GroupWords, Ledger
from .links import CONNECT_TIME, NOT_RESOLVED, Came, Found, Places, Unpacker, datagram_socket, resolved, stream_socket, trouble_of
from .messages import Delete, Get, Operation, Outcome, OutcomeKind, Put, Refused, Register, Reply, Request
from .pool import SESSIONS_MOST

__all__ = ["Group", "Pool", "Session"]

WAITING_MOST = 1_000
"""How many messages may wait to be looked at; what comes beyond them is lost, as on a network."""


async def _acquired(lock: Union[asyncio.Lock, asyncio.Semaphore], within: float) -> bool:
    """Whether a lock was had in so many seconds. It is given back where that comes too late, or the task is cancelled meanwhile."""
    taking = asyncio.ensure_future(lock.acquire())
    is_wanted = False
    try:
        await asyncio.wait({taking}, timeout=max(within, 0.0))
        is_wanted = taking.done()
    finally:
        if not is_wanted:
            taking.add_done_callback(lambda task: None if task.cancelled() else lock.release())
            taking.cancel()
    return is_wanted


class _Datagrams(asyncio.DatagramProtocol):
    """What comes from the member at a place over UDP."""

    def __init__(self, link: _Link, place: int) -> None:
        self._link = link
        self._place = place

    def connection_made(self, transport: asyncio.BaseTransport) -> None:
        self._link.stands(self._place, transport)

    def datagram_received(self, data: bytes, addr: Any) -> None:
        self._link.came(Came(self._place, data))

    def error_received(self, exc: Exception) -> None:
        assert isinstance(exc, OSError)
        self._link.came(Came(self._place, trouble=trouble_of(exc)))
        if not isinstance(exc, ConnectionRefusedError):
            self._link.drop(self._place)


class _Stream(asyncio.Protocol):
    """What comes from the member at a place over TCP. A stream on which something comes that can't be a message is closed."""

    def __init__(self, link: _Link, place: int) -> None:
        self._link = link
        self._place = place
        self._unpacker = Unpacker()

    def connection_made(self, transport: asyncio.BaseTransport) -> None:
        self._link.stands(self._place, transport)

    def data_received(self, data: bytes) -> None:
        try:
            for message in self._unpacker.add(data):
                self._link.came(Came(self._place, message))
        except Refused:
            self._link.came(Came(self._place, trouble="sends what is no message"))
            self._link.drop(self._place)

    def connection_lost(self, exc: Optional[Exception]) -> None:
        why = trouble_of(exc) if isinstance(exc, OSError) else "it ended the stream"
        self._link.came(Came(self._place, trouble=why))


class _Link:
    """Datagrams or streams to the members, each begun when a message is first sent there, and again after it ended."""

    def __init__(self, places: Places, members: Sequence[Optional[Found]]) -> None:
        self._over_tcp = places.over_tcp
        self._members = list(members)
        self._inbox: asyncio.Queue[Came] = asyncio.Queue()
        self._ways: Dict[int, Any] = {}
        self._begun: Dict[int, asyncio.Task[None]] = {}
        self._is_closed = False

    def came(self, came: Came) -> None:
        """Something came; where nobody looks at it, it is lost, as on a network."""
        if self._inbox.qsize() < WAITING_MOST:
            self._inbox.put_nowait(came)

    def stands(self, place: int, way: asyncio.BaseTransport) -> None:
        """The way to a member is made; where the link was closed meanwhile it is closed too."""
        if self._is_closed:
            way.close()
        else:
            self._ways[place] = way

    def drop(self, place: int) -> None:
        """Ends the way to a member: the next message there makes another one."""
        if place in self._ways:
            self._ways.pop(place).close()

    async def receive(self, within: float) -> Optional[Came]:
        """What comes next; None where nothing came in so many seconds."""
        try:
            return await asyncio.wait_for(self._inbox.get(), within)
        except (asyncio.TimeoutError, TimeoutError):
            return None

    def send(self, place: int, data: bytes) -> None:
        """Sends a message, or loses it."""
        way = self._ways.get(place)
        if way is not None and not way.is_closing():
            if self._over_tcp:
                way.write(data)
            else:
                way.sendto(data)
        elif not self._is_closed and (place not in self._begun or self._begun[place].done()):
            self._begun[place] = asyncio.ensure_future(self._begin(place, data))

    async def _begin(self, place: int, data: bytes) -> None:
        """Makes the way to a member, and sends there."""
        try:
            await asyncio.wait_for(self._make(place), CONNECT_TIME)
            self.send(place, data)
        except (asyncio.TimeoutError, TimeoutError):
            self.came(Came(place, trouble="no connection"))
        except OSError as error:
            self.came(Came(place, trouble=trouble_of(error)))

    async def _make(self, place: int) -> None:
        member, loop = self._members[place], asyncio.get_running_loop()
        if member is None:
            raise OSError(NOT_RESOLVED)
        if not self._over_tcp:
            await loop.create_datagram_endpoint(lambda: _Datagrams(self, place), sock=datagram_socket(member))
            return
        made = stream_socket(member)
        try:
            await loop.sock_connect(made, member.address)
        except BaseException:
            made.close()
            raise
        await loop.create_connection(lambda: _Stream(self, place), sock=made)

    def close(self) -> None:
        """Gives back what the system lent."""
        self._is_closed = True
        for task in self._begun.values():
            task.cancel()
        for place in list(self._ways):
            self.drop(place)


async def _open_link(places: Places) -> _Link:
    loop = asyncio.get_running_loop()
    answers = await asyncio.gather(
        *(loop.getaddrinfo(host, port, type=places.kind) for host, port in places.members), return_exceptions=True)
    found: List[Sequence[Tuple[Any, ...]]] = []
    for answer in answers:
        if isinstance(answer, BaseException):
            if not isinstance(answer, (OSError, UnicodeError)):
                raise answer
            answer = []
        found.append(answer)
    return _Link(places, resolved(places, found))


class Requests:
    """What a group can be asked, as `nozhgiva.session.Requests`."""

    async def ask(self, operation: Operation, timeout: Optional[float] = None) -> Outcome:
        """As `nozhgiva.Session.ask`."""
        raise NotImplementedError

    async def put(self, key: str, value: str, timeout: Optional[float] = None) -> None:
        """As `nozhgiva.Session.put`."""
        operation = Put(key, value)
        if (await self.ask(operation, timeout)).kind == OutcomeKind.FULL:
            raise Full(operation)

    async def get(self, key: str, timeout: Optional[float] = None) -> Optional[str]:
        """As `nozhgiva.Session.get`."""
        outcome = await self.ask(Get(key), timeout)
        return outcome.value if outcome.kind == OutcomeKind.VALUE else None

    async def delete(self, key: str, timeout: Optional[float] = None) -> bool:
        """As `nozhgiva.Session.delete`."""
        return (await self.ask(Delete(key), timeout)).kind == OutcomeKind.OK


class Group(GroupWords):
    """A group of members, as `nozhgiva.Group`."""

    async def register(self, *, client: Optional[int] = None, timeout: Optional[float] = None) -> Session:
        """Begins a session, as `nozhgiva.Group.register`."""
        number, within = self.client_number(client), self.checked(timeout)
        session = Session(self, number, await _open_link(self.places))
        try:
            await session.ask(Register(), within)
        except BaseException:
            session.close()
            raise
        return session


class Session(Requests):
    """A client's session, as `nozhgiva.Session`. Tasks of one loop may share it; their requests stand in line."""

    def __init__(self, group: GroupWords, client: int, link: _Link) -> None:
        self._group = group
        self._ledger = Ledger(group, client)
        self._link = link
        self._turn = asyncio.Lock()

    @property
    def client(self) -> int:
        """The client's number."""
        return self._ledger.client

    @property
    def lost(self) -> Optional[str]:
        """Why the session is lost, in a word; None as long as it isn't known to be."""
        return self._ledger.lost

    @property
    def is_closed(self) -> bool:
        """Whether it was closed."""
        return self._ledger.is_closed

    async def ask(self, operation: Operation, timeout: Optional[float] = None) -> Outcome:
        within = self._group.checked(timeout)
        self._ledger.check(operation)
        self._ledger.check_open()
        deadline = time.monotonic() + within
        await self._take_turn(f"`{operation}` wasn't asked", within)
        try:
            self._ledger.check_open()
            if self._ledger.open is not None:
                await self._settle(self._ledger.open, deadline, unsent=operation)
            return await self._settle(self._ledger.begin(operation), deadline)
        finally:
            self._turn.release()

    @property
    def pending(self) -> Optional[Operation]:
        """The operation of which it isn't known whether it was executed, if there is one."""
        request = self._ledger.open
        return None if request is None else request.operation

    async def settle(self, timeout: Optional[float] = None) -> Optional[Outcome]:
        """As `nozhgiva.Session.settle`."""
        within = self._group.checked(timeout)
        self._ledger.check_open()
        deadline = time.monotonic() + within
        await self._take_turn("nothing was asked", within)
        try:
            self._ledger.check_open()
            request = self._ledger.open
            return None if request is None else await self._settle(request, deadline)
        finally:
            self._turn.release()

    def close(self) -> None:
        """Gives the sockets back. A request that another task waits for ends within a second with `Unknown`."""
        self._ledger.is_closed = True
        self._link.close()

    async def __aenter__(self) -> Session:
        return self

    async def __aexit__(self, kind: Optional[Type[BaseException]], error: Optional[BaseException], trace: Optional[TracebackType]) -> None:
        self.close()

    def __repr__(self) -> str:
        return f"<aio.Session of {self._ledger}>"

    async def _take_turn(self, what: str, within: float) -> None:
        if not await _acquired(self._turn, within):
            raise NotAsked(f"{what}: others had the session for {within:g} s")

    async def _settle(self, request: Request, deadline: float, unsent: Optional[Operation] = None) -> Outcome:
        """Asks until the request is answered; then nothing is pending."""
        begun, view = time.monotonic(), self._ledger.course.view
        search = Search(request, self._ledger.course, self._group.retry)
        reply: Optional[Reply] = None
        look_at = begun + LOOK if search.is_register else math.inf
        while reply is None and time.monotonic() < deadline and not self._ledger.is_closed:
            self._send(search.next_round())
            until = min(time.monotonic() + search.next_pause(), deadline)
            reply = await self._hear(search, min(until, look_at))
            if reply is None and look_at < until:
                if search.is_hopeless:
                    break
                self._ledger.tell(search)
                look_at = math.inf
                reply = await self._hear(search, until)
        self._ledger.note(request, reply, search, begun, view)
        return self._ledger.settle(request, reply, search, unsent)

    async def _hear(self, search: Search, until: float) -> Optional[Reply]:
        """Hears until the clock shows `until`, and sends what comes of it."""
        while (left := until - time.monotonic()) > 0:
            came = await self._link.receive(left)
            if came is None:
                continue
            if came.trouble:
                search.trouble(came.place, came.trouble)
                continue
            step = search.take(came.place, came.data)
            if isinstance(step, Reply):
                return step
            self._send(step)
        return None

    def _send(self, sends: List[Send]) -> None:
        for send in sends:
            self._link.send(send.place, send.data)


class Pool(Requests):
    """A few sessions that many tasks share, as `nozhgiva.Pool`. It belongs to the loop in which it is first used."""

    def __init__(self, group: Group, sessions: int = 4) -> None:
        if not 1 <= sessions <= SESSIONS_MOST:
            raise ValueError(f"a pool has 1 to {SESSIONS_MOST} sessions, not {sessions}")
        self.group = group
        self.sessions = sessions
        self._idle: List[Session] = []
        self._made = 0
        self._process = os.getpid()
        self._free: Optional[asyncio.Semaphore] = None
        self._is_closed = False

    @asynccontextmanager
    async def session(self, timeout: Optional[float] = None) -> AsyncIterator[Session]:
        """Lends a session for the length of an `async with` block, to this task alone."""
        session = await self._borrow(time.monotonic() + self.group.checked(timeout))
        try:
            yield session
        finally:
            self._give_back(session)

    async def ask(self, operation: Operation, timeout: Optional[float] = None) -> Outcome:
        """As `nozhgiva.Pool.ask`, and so are `put`, `get` and `delete`."""
        within = self.group.checked(timeout)
        deadline = time.monotonic() + within
        try:
            session = await self._borrow(deadline)
        except Unknown as error:
            raise Unknown(Register(), operation, error.seen) from None
        try:
            left = deadline - time.monotonic()
            if left <= 0:
                raise NotAsked(f"`{operation}` wasn't asked: the {within:g} s were over before it had a session")
            return await session.ask(operation, left)
        finally:
            self._give_back(session)

    def close(self) -> None:
        """Closes the sessions that nobody has now, and the others as they come back."""
        self._is_closed = True
        for session in self._idle:
            session.close()
        self._idle.clear()

    async def __aenter__(self) -> Pool:
        return self

    async def __aexit__(self, kind: Optional[Type[BaseException]], error: Optional[BaseException], trace: Optional[TracebackType]) -> None:
        self.close()

    def __repr__(self) -> str:
        state = "closed" if self._is_closed else f"{self._made} of {self.sessions} sessions made, {len(self._idle)} idle"
        return f"<aio.Pool of {self.group!r}: {state}>"

    async def _borrow(self, deadline: float) -> Session:
        if self._is_closed or self._process != os.getpid():
            raise Closed("the pool is closed, or belongs to the process from which this one was forked: nothing was asked")
        if self._free is None:
            self._free = asyncio.Semaphore(self.sessions)
        if not await _acquired(self._free, deadline - time.monotonic()):
            raise NotAsked(f"nothing was asked: all {self.sessions} sessions of the pool were in use")
        if self._idle:
            return self._idle.pop()
        try:
            session = await self.group.register(timeout=max(deadline - time.monotonic(), 0.001))
        except BaseException:
            self._free.release()
            raise
        self._made += 1
        return session

    def _give_back(self, session: Session) -> None:
        assert self._free is not None
        if session.lost or session.is_closed or self._is_closed:
            session.close()
            self._made -= 1
        else:
            # One that waits for an answer comes last: whoever is lent it asks for that answer first.
            self._idle.insert(0 if session.pending else len(self._idle), session)
        self._free.release()
