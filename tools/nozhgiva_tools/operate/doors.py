"""Where a keeper is asked: sockets on which each connection has one answer and is closed, whatever it sends or doesn't.

Nobody who asks is waited for. A connection has SECONDS; of connections at one door there are at most MOST, and where one more comes the oldest goes."""

import os
import selectors
import socket
from collections import OrderedDict
from typing import Callable, List, Optional, Tuple

SECONDS = 2.0  # that a connection has, from its first moment to its last
MOST = 64  # connections at one door
AT_ONCE = 8  # that are taken in before others have their turn
BACKLOG = 256  # who may wait until they are taken in
LONGEST = 4096  # bytes of a question

Answer = Callable[[bytes], Optional[bytes]]  # of what was sent so far: what is answered, None where more has to come


class Connection:
    """One who asks: what it sent, and what it is still to be sent."""

    def __init__(self, stream: socket.socket, until: float) -> None:
        self.stream, self.until = stream, until
        self.asked, self.left = b"", b""
        self.is_answered = self.is_sending = False


class Door:
    """One listening socket of a keeper's loop."""

    def __init__(self, selector: selectors.BaseSelector, clock: Callable[[], float], listener: socket.socket, answer: Answer) -> None:
        self.selector, self.clock, self.listener, self.answer = selector, clock, listener, answer
        self.open: "OrderedDict[int, Connection]" = OrderedDict()  # by descriptor, the oldest first
        listener.setblocking(False)
        selector.register(listener, selectors.EVENT_READ, self.accept)

    def accept(self) -> None:
        """Takes in those who knock, a few at once, so that those who were taken in before come to their turn between."""
        for _ in range(AT_ONCE):
            try:
                stream, _ = self.listener.accept()
            except OSError:
                return
            self.take(stream)

    def take(self, stream: socket.socket) -> None:
        stream.setblocking(False)
        if len(self.open) >= MOST:
            self.give_way(next(iter(self.open.values())))
        one = Connection(stream, self.clock() + SECONDS)
        self.open[stream.fileno()] = one
        self.selector.register(stream, selectors.EVENT_READ, lambda: self.go_on(one))
        self.try_answer(one)
        self.go_on(one)

    def give_way(self, one: Connection) -> None:
        """The oldest goes, once what it sent was read."""
        self.go_on(one)
        if one.stream.fileno() >= 0:
            self.close(one)

    def go_on(self, one: Connection) -> None:
        """Something came, has gone, or can be sent."""
        if one.stream.fileno() < 0:
            return
        if one.left:
            self.send(one)
            return
        try:
            piece = one.stream.recv(LONGEST)
        except BlockingIOError:
            return
        except OSError:
            piece = b""
        if not piece:
            self.close(one)
        elif not one.is_answered:
            one.asked += piece
            self.try_answer(one)

    def try_answer(self, one: Connection) -> None:
        answer = self.answer(one.asked[:LONGEST])
        if answer is None and len(one.asked) >= LONGEST:
            self.close(one)
        elif answer is not None:
            one.is_answered, one.left = True, answer
            self.send(one)

    def send(self, one: Connection) -> None:
        """Sends what goes now. After the whole answer the connection is closed; where nothing was asked yet, once the other has ended it, so that what
        the other still sends doesn't take the answer from it."""
        try:
            one.left = one.left[one.stream.send(one.left):]
            if not one.left and not one.asked:
                one.stream.shutdown(socket.SHUT_WR)
        except BlockingIOError:
            pass
        except OSError:
            self.close(one)
            return
        if not one.left and one.asked:
            self.close(one)
        elif bool(one.left) != one.is_sending:
            one.is_sending = bool(one.left)
            self.selector.modify(one.stream, selectors.EVENT_WRITE if one.left else selectors.EVENT_READ, lambda: self.go_on(one))

    def close(self, one: Connection) -> None:
        self.open.pop(one.stream.fileno(), None)
        self.selector.unregister(one.stream)
        one.stream.close()

    def next_time(self) -> List[float]:
        """When a connection's time is over, if there is one."""
        return [one.until for one in list(self.open.values())[:1]]

    def look_at_clock(self, now: float) -> None:
        for one in [one for one in self.open.values() if one.until <= now]:
            self.close(one)


def place_of(text: str) -> Tuple[str, int]:
    """`HOST:PORT`, `[HOST]:PORT`; ValueError where it is of another form."""
    host, colon, port = text.rpartition(":")
    if not (colon and host and port.isascii() and port.isdigit() and int(port) < 2 ** 16):
        raise ValueError(f"an address is HOST:PORT, not {text!r}")
    return host[1:-1] if host.startswith("[") and host.endswith("]") else host, int(port)


def listen_at(text: str) -> socket.socket:
    """A listening socket at an address; OSError where it can't be had."""
    host, port = place_of(text)
    family, _, _, _, where = socket.getaddrinfo(host, port, type=socket.SOCK_STREAM, flags=socket.AI_PASSIVE)[0]
    return socket.create_server(where[:2], family=family, backlog=BACKLOG)


def listen_in(path: str) -> socket.socket:
    """A socket at this path, for its owner alone. What an earlier keeper left there is removed: the lock is held."""
    try:
        os.unlink(path)
    except FileNotFoundError:
        pass
    listener = socket.socket(socket.AF_UNIX, socket.SOCK_STREAM)
    mask = os.umask(0o177)
    try:
        listener.bind(path)
    finally:
        os.umask(mask)
    listener.listen(BACKLOG)
    return listener


def line_asked(asked: bytes) -> Optional[str]:
    """The line that was asked; None until it has its end."""
    return asked.split(b"\n", 1)[0].decode("ascii", "replace").strip() if b"\n" in asked else None


def http_asked(asked: bytes) -> Optional[Tuple[str, str]]:
    """Method and path of a request of HTTP; None until its head is whole, and two empty texts where it is none."""
    head, end, _ = asked.replace(b"\r\n", b"\n").partition(b"\n\n")
    if not end:
        return None
    words = head.split(b"\n", 1)[0].decode("ascii", "replace").split(" ")
    return (words[0], words[1].split("?", 1)[0]) if len(words) == 3 and words[2].startswith("HTTP/1.") else ("", "")


def http_answer(status: str, body: bytes, kind: str = "text/plain; charset=utf-8", is_head: bool = False, more: str = "") -> bytes:
    """One answer of HTTP, after which the connection is closed."""
    head = (f"HTTP/1.1 {status}\r\nContent-Type: {kind}\r\nContent-Length: {len(body)}\r\nCache-Control: no-store\r\nX-Content-Type-Options: nosniff\r\n"
            f"{more}Connection: close\r\n\r\n")
    return head.encode() + (b"" if is_head else body)
