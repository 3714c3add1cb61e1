"""How bytes reach the members of a group: datagrams over UDP, or streams over TCP.

A link loses what it can't send, as a network does, and says what the system said; whoever asks asks again. Nothing here blocks but `receive`.
"""

from __future__ import annotations

import errno
import os
import selectors
import socket
import time
from collections import deque

from .errors import Unresolved
from .messages import HEADER, LARGEST_MESSAGE, Refused, size_of
from .records import TYPE_CHECKING, NamedTuple
from .sights import REFUSED

if TYPE_CHECKING:
    from typing import Any, Deque, Dict, List, Optional, Protocol, Sequence, Tuple
else:
    Protocol = object

__all__ = [
    "Came", "Found", "Link", "Place", "Places", "TcpLink", "UdpLink", "Unpacker", "datagram_socket", "open_link", "places_of", "resolved",
    "stream_socket", "trouble_of",
]

TCP_PREFIX = "tcp:"
READ_SIZE = 65_536
CONNECT_TIME = 2.0
"""Seconds after which a stream that isn't made yet is begun anew at the next message."""
UNSENT_MOST = 1 << 20
"""How many bytes may wait for a member that doesn't read."""
NOT_RESOLVED = "can't be resolved"


class Came(NamedTuple):
    """What came from the member at a place: bytes that may be a message, or, in words, what the system said of trouble there."""

    place: int
    data: bytes = b""
    trouble: str = ""


class Link(Protocol):
    """What a session asks through. Places are numbered from 0, as the addresses stand."""

    def send(self, place: int, data: bytes) -> None:
        """Sends a message, or loses it."""

    def receive(self, within: float) -> Optional[Came]:
        """What comes next; None where nothing came in so many seconds."""

    def close(self) -> None:
        """Gives back what the system lent."""


class Place(NamedTuple):
    """A member's host and port."""

    host: str
    port: int


class Places(NamedTuple):
    """The members' places, and whether they are reached over TCP."""

    over_tcp: bool
    members: List[Place]

    @property
    def kind(self) -> socket.SocketKind:
        """Of what kind the sockets are."""
        return socket.SOCK_STREAM if self.over_tcp else socket.SOCK_DGRAM


class Found(NamedTuple):
    """What the system calls an address."""

    family: int
    address: Any


def _place(address: str) -> Place:
    host, colon, port = address.rpartition(":")
    if not (colon and host and port.isascii() and port.isdigit() and int(port) < 2**16):
        raise ValueError(f"an address is HOST:PORT or tcp:HOST:PORT, not {address!r}")
    if host.startswith("[") and host.endswith("]"):
        host = host[1:-1]
    return Place(host, int(port))


def _asked(address: str) -> Place:
    """Where clients ask: of `OWN/CLIENTS` at the second one."""
    return [_place(one) for one in address.split("/", 1)][-1]


def places_of(addresses: Sequence[str]) -> Places:
    """Reads addresses: `HOST:PORT` for UDP, or `tcp:HOST:PORT`. Where members have other ones for clients, as `HOST:PORT/HOST:PORT`, those are
    taken. Raises `ValueError` where one is of another form, or some begin with `tcp:` and some don't."""
    over_tcp = [address.startswith(TCP_PREFIX) for address in addresses]
    if any(over_tcp) and not all(over_tcp):
        raise ValueError("either all addresses begin with tcp:, or none does")
    front = len(TCP_PREFIX) if any(over_tcp) else 0
    return Places(any(over_tcp), [_asked(address[front:]) for address in addresses])


def resolved(places: Places, answers: Sequence[Sequence[Tuple[Any, ...]]]) -> List[Optional[Found]]:
    """Of what `getaddrinfo` answered for each place the first; None where there is nothing. Raises `Unresolved` where all are None."""
    found = [Found(infos[0][0], infos[0][4]) if infos else None for infos in answers]
    if not any(found):
        names = ", ".join(sorted({place.host for place in places.members}))
        raise Unresolved(f"none of the addresses can be resolved: {names}")
    return found


def _lookup(places: Places) -> List[Optional[Found]]:
    answers: List[Sequence[Tuple[Any, ...]]] = []
    for host, port in places.members:
        try:
            # Bytes aren't looked at as a name of other letters might be, which would read a dozen modules.
            answers.append(socket.getaddrinfo(host.encode() if host.isascii() else host, port, type=places.kind))
        except (OSError, UnicodeError):
            answers.append([])
    return resolved(places, answers)


def open_link(places: Places) -> Link:
    """A link to these members. One whose address can't be resolved is left out, and each message there is trouble.

    Raises `Unresolved` where none can be resolved, and `OSError` where no socket is to be had.
    """
    found = _lookup(places)
    if places.over_tcp:
        return TcpLink(found)
    return UdpLink(found)


def trouble_of(error: OSError) -> str:
    """An error of the system in words."""
    if isinstance(error, ConnectionRefusedError):
        return REFUSED
    if error.errno:
        return os.strerror(error.errno).lower()
    return str(error) or type(error).__name__


def datagram_socket(member: Found) -> socket.socket:
    """A socket for datagrams that is connected to a member. Raises `OSError` where it can't be made."""
    made = socket.socket(member.family, socket.SOCK_DGRAM)
    try:
        made.setblocking(False)
        made.connect(member.address)
    except OSError:
        made.close()
        raise
    return made


def stream_socket(member: Found) -> socket.socket:
    """A socket for a stream to a member, which isn't connected yet. Where the system can it gives up what isn't acknowledged for two seconds,
    so that a stream is made anew soon after an outage."""
    made = socket.socket(member.family, socket.SOCK_STREAM)
    made.setblocking(False)
    made.setsockopt(socket.IPPROTO_TCP, socket.TCP_NODELAY, 1)
    if hasattr(socket, "TCP_USER_TIMEOUT"):
        made.setsockopt(socket.IPPROTO_TCP, socket.TCP_USER_TIMEOUT, int(1000 * CONNECT_TIME))
    return made


class UdpLink:
    """Datagrams, by a socket for each member that is connected to its address: so the system tells which one refuses, and strangers aren't
    heard."""

    def __init__(self, members: Sequence[Optional[Found]]) -> None:
        self._members = list(members)
        self._sockets: Dict[int, socket.socket] = {}
        self._came: Deque[Came] = deque()
        self._selector = selectors.DefaultSelector()

    def _socket(self, place: int) -> socket.socket:
        """The socket of a place, made where there is none. Raises `OSError` where it can't be made."""
        member = self._members[place]
        if member is None:
            raise OSError(NOT_RESOLVED)
        if place not in self._sockets:
            self._sockets[place] = datagram_socket(member)
            self._selector.register(self._sockets[place], selectors.EVENT_READ, place)
        return self._sockets[place]

    def send(self, place: int, data: bytes) -> None:
        for _ in range(2):
            try:
                self._socket(place).send(data)
                return
            except (BlockingIOError, InterruptedError):
                return
            except ConnectionRefusedError as error:
                # The answer to an earlier datagram; this one wasn't sent.
                self._came.append(Came(place, trouble=trouble_of(error)))
            except OSError as error:
                self._came.append(Came(place, trouble=trouble_of(error)))
                self._drop(place)

    def _drop(self, place: int) -> None:
        if place in self._sockets:
            self._selector.unregister(self._sockets[place])
            self._sockets.pop(place).close()

    def receive(self, within: float) -> Optional[Came]:
        until = time.monotonic() + within
        while not self._came:
            left = until - time.monotonic()
            if left <= 0:
                return None
            if not self._sockets:
                time.sleep(left)
                return None
            for key, _ in self._selector.select(left):
                self._read(key.data)
        return self._came.popleft()

    def _read(self, place: int) -> None:
        try:
            self._came.append(Came(place, self._sockets[place].recv(LARGEST_MESSAGE + 1)))
        except (BlockingIOError, InterruptedError):
            pass
        except OSError as error:
            self._came.append(Came(place, trouble=trouble_of(error)))

    def close(self) -> None:
        # The selector first: in a process that was forked it is shared, and nothing may be taken out of it.
        self._selector.close()
        for one in self._sockets.values():
            one.close()
        self._sockets.clear()


class Unpacker:
    """What came on a stream, message by message."""

    def __init__(self) -> None:
        self._waiting = b""

    def add(self, data: bytes) -> List[bytes]:
        """The messages that are whole now. Raises `Refused` where none is, and what is left can't begin one."""
        self._waiting += data
        messages: List[bytes] = []
        while (size := self._size(not messages)) and len(self._waiting) >= size:
            messages.append(self._waiting[:size])
            self._waiting = self._waiting[size:]
        return messages

    def _size(self, is_first: bool) -> int:
        """How many bytes the message has that waits; 0 where that isn't known yet, or where it is none and others came before it."""
        if len(self._waiting) < HEADER.size:
            return 0
        try:
            return size_of(self._waiting)
        except Refused:
            if is_first:
                raise
            return 0


class _Stream:
    """A stream to a member, that is being made or stands: what it is to send yet, and what came."""

    def __init__(self, member: Found) -> None:
        self.socket = stream_socket(member)
        self.begun = time.monotonic()
        self.stands = False
        self.unsent = b""
        self.unpacker = Unpacker()
        code = self.socket.connect_ex(member.address)
        if code not in (0, errno.EINPROGRESS, errno.EWOULDBLOCK):
            self.socket.close()
            raise OSError(code, os.strerror(code))

    @property
    def is_stale(self) -> bool:
        """Whether it takes too long to be made."""
        return not self.stands and time.monotonic() - self.begun > CONNECT_TIME

    def add(self, data: bytes) -> None:
        """One more message to send, unless it is the one that waits already. Raises `OSError` where too much waits."""
        if len(self.unsent) > UNSENT_MOST:
            raise OSError("it doesn't read")
        if not self.unsent.endswith(data):
            self.unsent += data

    def write(self) -> None:
        """Sends what it can. Raises `OSError` where the stream couldn't be made, or has ended."""
        if not self.stands:
            code = self.socket.getsockopt(socket.SOL_SOCKET, socket.SO_ERROR)
            if code:
                raise OSError(code, os.strerror(code))
            self.stands = True
        try:
            self.unsent = self.unsent[self.socket.send(self.unsent):]
        except (BlockingIOError, InterruptedError):
            pass

    def read(self) -> List[bytes]:
        """The messages that came. Raises `OSError` where the stream has ended, and `Refused` where what came can't be a message."""
        try:
            data = self.socket.recv(READ_SIZE)
        except (BlockingIOError, InterruptedError):
            return []
        if not data:
            raise OSError("it ended the stream")
        return self.unpacker.add(data)


class TcpLink:
    """Streams, each made when a message is first sent there, and again after it ended. One on which something comes that can't be a
    message is closed."""

    def __init__(self, members: Sequence[Optional[Found]]) -> None:
        self._members = list(members)
        self._streams: Dict[int, _Stream] = {}
        self._came: Deque[Came] = deque()
        self._selector = selectors.DefaultSelector()

    def _drop(self, place: int, why: str = "") -> None:
        stream = self._streams.pop(place, None)
        if stream is not None:
            self._selector.unregister(stream.socket)
            stream.socket.close()
        if why:
            self._came.append(Came(place, trouble=why))

    def _stream(self, place: int) -> _Stream:
        """The stream to a member, begun where there is none. Raises `OSError` where it can't be begun."""
        if place in self._streams and self._streams[place].is_stale:
            self._drop(place, "no connection")
        if place not in self._streams:
            member = self._members[place]
            if member is None:
                raise OSError(NOT_RESOLVED)
            self._streams[place] = _Stream(member)
            self._selector.register(self._streams[place].socket, selectors.EVENT_READ, place)
        return self._streams[place]

    def send(self, place: int, data: bytes) -> None:
        self._poll(0.0)
        try:
            stream = self._stream(place)
            stream.add(data)
            if stream.stands:
                stream.write()
            self._await(place)
        except OSError as error:
            self._drop(place, trouble_of(error))

    def _await(self, place: int) -> None:
        """Waits for what the stream needs next: room to write where something is unsent."""
        stream = self._streams[place]
        wanted = selectors.EVENT_READ | (selectors.EVENT_WRITE if stream.unsent or not stream.stands else 0)
        if self._selector.get_key(stream.socket).events != wanted:
            self._selector.modify(stream.socket, wanted, place)

    def _poll(self, within: float) -> None:
        """Takes in what comes, where something does in so many seconds."""
        for key, events in self._selector.select(within):
            self._serve(key.data, events)

    def _serve(self, place: int, events: int) -> None:
        stream = self._streams[place]
        try:
            if events & selectors.EVENT_WRITE:
                stream.write()
            if events & selectors.EVENT_READ and stream.stands:
                self._came.extend(Came(place, message) for message in stream.read())
            self._await(place)
        except OSError as error:
            self._drop(place, trouble_of(error))
        except Refused:
            self._drop(place, "sends what is no message")

    def receive(self, within: float) -> Optional[Came]:
        until = time.monotonic() + within
        while not self._came:
            left = until - time.monotonic()
            if left <= 0:
                return None
            if self._streams:
                self._poll(left)
            else:
                time.sleep(left)
        return self._came.popleft()

    def close(self) -> None:
        # The selector first: in a process that was forked it is shared, and nothing may be taken out of it.
        self._selector.close()
        for stream in self._streams.values():
            stream.socket.close()
        self._streams.clear()
