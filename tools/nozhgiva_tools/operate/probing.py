"""Asks each member of a group something that takes no session: a get by a number that never registered, which whoever leads answers by `evicted`.

Messages are spelled by docs/FORMATS.md. Such a get is asked in both versions, since a member hears one of them alone."""

import selectors
import socket
import struct
import time
from typing import Dict, List, NamedTuple, Optional, Set, Tuple

from nozhgiva_tools.told import datafile

from .knowing import PROBE
from .doors import place_of

HEADER = struct.Struct(">16s16s16s16sQQIIQQIBBBBQ8s")
REQUEST, REPLY = 4, 5
KINDS = {1: "outcome", 2: "old", 3: "gap", 4: "evicted", 5: "busy", 6: "redirect"}
GET, KEY = 3, b"-"
VERSIONS = 1, 2
LARGEST = 20_480
TCP = "tcp:"
AGAIN = 0.25  # seconds after which a datagram is sent once more


def places_of(address: str) -> List[Tuple[str, int]]:
    """Host and port of a member's own address, and of that at which clients alone ask where there is one, over UDP or TCP: `OWN` or `OWN/CLIENTS`.
    ValueError where one is of another form."""
    return [place_of(one) for one in (address[len(TCP):] if address.startswith(TCP) else address).split("/", 1)]


def where_of(address: str) -> Tuple[str, int]:
    """Where clients ask a member."""
    return places_of(address)[-1]


def is_known(address: str) -> bool:
    """Whether this machine knows the hosts of an address."""
    try:
        return all(socket.getaddrinfo(*place) for place in places_of(address))
    except OSError:
        return False


class Reply(NamedTuple):
    """What a member answered: `evicted` where it leads `view`, `busy` where it leads and can't take a request, `redirect` where another one does."""

    kind: str
    view: int
    version: int


def spell(cluster: int, client: int, version: int) -> bytes:
    """The first request of a client: to get a key."""
    body = bytes([GET, len(KEY)]) + KEY
    rest = HEADER.pack(b"", datafile.name(body), b"", b"", cluster, client, 1, 0, 0, 0, HEADER.size + len(body), REQUEST, 0, version, 0, 0, b"")[16:]
    return datafile.name(rest) + rest + body


def read(data: bytes, cluster: int, asked: Dict[bytes, int]) -> Optional[Tuple[int, Reply]]:
    """Who replies, and what, where these bytes are a reply to one of the requests of these names; None where they are none."""
    if len(data) < HEADER.size or datafile.name(data[16:HEADER.size]) != data[:16]:
        return None
    _, _, _, request, of, _, _, view, _, _, _, command, replica, version, kind, _, _ = HEADER.unpack_from(data)
    if command != REPLY or of != cluster or request not in asked or kind not in KINDS:
        return None
    return replica, Reply(KINDS[kind], view, version)


class Probe:
    """One asking of all members. `replies` by the number that each gives as its own; `places`: whose number answered at which address, counted from 0;
    `refused`: at which addresses no process listens."""

    def __init__(self, cluster: int, addresses: List[str]) -> None:
        self.cluster, self.addresses = cluster, addresses
        self.requests = [spell(cluster, PROBE, version) for version in VERSIONS]
        self.names = {request[:16]: version for request, version in zip(self.requests, VERSIONS)}
        self.replies: Dict[int, Reply] = {}
        self.places: Dict[int, int] = {}
        self.refused: Set[int] = set()
        self.selector = selectors.DefaultSelector()
        self.sockets: List[socket.socket] = []  # all that were opened
        self.datagrams: Dict[int, socket.socket] = {}

    def ask(self, seconds: float) -> Dict[int, Reply]:
        """Asks, and hears until all have answered or so many seconds are over."""
        until = time.monotonic() + seconds
        try:
            for place, address in enumerate(self.addresses):
                self.begin(place, address)
            while len(self.places) + len(self.refused) < len(self.addresses) and self.selector.get_map() and time.monotonic() < until:
                ready = self.selector.select(max(0.0, min(AGAIN, until - time.monotonic())))
                for key, _ in ready:
                    key.data()
                if not ready:
                    self.send_again()
        finally:
            for one in self.sockets:
                one.close()
            self.selector.close()
        return self.replies

    def begin(self, place: int, address: str) -> None:
        is_stream = address.startswith(TCP)
        host, port = where_of(address)
        try:
            family, kind, _, _, where = socket.getaddrinfo(host, port, type=socket.SOCK_STREAM if is_stream else socket.SOCK_DGRAM)[0]
        except OSError:
            return
        one = socket.socket(family, kind)
        self.sockets.append(one)
        one.setblocking(False)
        one.connect_ex(where)
        if is_stream:
            Stream(self, place, one)
        else:
            self.datagrams[place] = one
            self.selector.register(one, selectors.EVENT_READ, lambda: self.hear(place, one))
            self.send(place, one)

    def send(self, place: int, one: socket.socket) -> None:
        for request in self.requests:
            try:
                one.send(request)
            except ConnectionRefusedError:
                self.refused.add(place)
            except OSError:
                pass  # No way there; it is tried again.

    def send_again(self) -> None:
        for place, one in self.datagrams.items():
            if place not in self.places and place not in self.refused:
                self.send(place, one)

    def hear(self, place: int, one: socket.socket) -> None:
        try:
            self.take(place, one.recv(LARGEST + 1))
        except ConnectionRefusedError:
            self.refused.add(place)
        except OSError:
            pass  # Nothing came.

    def take(self, place: int, data: bytes) -> None:
        found = read(data, self.cluster, self.names)
        if found is not None and found[0] < len(self.addresses):
            self.places[place] = found[0]
            self.replies[found[0]] = found[1]
            self.refused.discard(place)


class Stream:
    """A stream to one member: asked once it stands, in both versions, and read until a reply is whole."""

    def __init__(self, probe: Probe, place: int, one: socket.socket) -> None:
        self.probe, self.place, self.one, self.rest = probe, place, one, b""
        probe.selector.register(one, selectors.EVENT_WRITE, self.send)

    def send(self) -> None:
        try:
            self.one.send(b"".join(self.probe.requests))
        except ConnectionRefusedError:
            self.probe.refused.add(self.place)
            self.drop()
            return
        except OSError:
            self.drop()
            return
        self.probe.selector.modify(self.one, selectors.EVENT_READ, self.hear)

    def hear(self) -> None:
        try:
            piece = self.one.recv(LARGEST)
        except OSError:
            piece = b""
        self.rest += piece
        self.probe.take(self.place, self.rest)
        if not piece or len(self.rest) >= HEADER.size:
            self.drop()

    def drop(self) -> None:
        self.probe.selector.unregister(self.one)
        self.one.close()
