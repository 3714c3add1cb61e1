"""What the tests put in the place of a group: a link and a clock in memory, and members that answer by a script over real sockets."""

import contextlib
import socket
import threading
from typing import Callable, Dict, Iterable, List, Optional, Tuple, Union

from nozhgiva import links
from nozhgiva.messages import HEADER, Get, Operation, Outcome, OutcomeKind, Put, Register, Reply, ReplyKind, Request, decode, size_of

OK = Outcome(OutcomeKind.OK)
SESSION = Outcome(OutcomeKind.SESSION)


def request_of(data: bytes) -> Request:
    """The request that a client sent."""
    request = decode(data)
    assert isinstance(request, Request)
    return request


def reply_to(request: Request, member: int, kind: ReplyKind = ReplyKind.OUTCOME, *, view: int = 0, op: int = 1, outcome: Optional[Outcome] = OK) -> Reply:
    """A reply of a member to a request; op and outcome count only where it has one."""
    executed = kind == ReplyKind.OUTCOME
    op, outcome = (op, outcome) if executed else (0, None)
    return Reply(request.cluster, request.client, request.number, request.name(), member, view, kind, op, outcome, request.version)


class State:
    """Keys and sessions, and a member's answers: each number of a client is executed once. `quiet` says of a number whether its answer is
    lost. What is asked in another version than `version`, or of another group than `cluster`, it doesn't hear. It has room for `room` keys."""

    def __init__(self, quiet: Callable[[int], bool] = lambda number: False, version: int = 1, cluster: int = 5) -> None:
        self.keys: Dict[str, str] = {}
        self.executed: List[Operation] = []
        self.last: Dict[int, Tuple[int, int, Optional[Outcome]]] = {}  # by the client: its last number, the operation that executed it, and the outcome
        self.quiet = quiet
        self.version, self.cluster = version, cluster
        self.room = 128
        self.turn = threading.Lock()

    def outcome(self, operation: Operation) -> Outcome:
        if isinstance(operation, Register):
            return SESSION
        if isinstance(operation, Put):
            if operation.key == "one-too-many" or operation.key not in self.keys and len(self.keys) >= self.room:
                return Outcome(OutcomeKind.FULL)
            self.keys[operation.key] = operation.value
            return OK
        value = self.keys.get(operation.key) if isinstance(operation, Get) else self.keys.pop(operation.key, None)
        if value is None:
            return Outcome(OutcomeKind.ABSENT)
        return Outcome(OutcomeKind.VALUE, value) if isinstance(operation, Get) else OK

    def __call__(self, member: int, data: bytes) -> List[bytes]:
        request = request_of(data)
        if (request.version, request.cluster) != (self.version, self.cluster):
            return []
        with self.turn:
            if request.number and request.client not in self.last:
                return [reply_to(request, member, ReplyKind.EVICTED).encode()]
            number, op, outcome = self.last.get(request.client, (-1, 0, None))
            if request.number < number:
                return [reply_to(request, member, ReplyKind.OLD).encode()]
            if request.number > number:
                self.executed.append(request.operation)
                op, outcome = len(self.executed), self.outcome(request.operation)
                self.last[request.client] = request.number, op, outcome
        return [] if self.quiet(request.number) else [reply_to(request, member, op=op, outcome=outcome).encode()]


class MemoryLink:
    """A link without a network. `answer(member, request)` gives the replies that come of a request, each with how many seconds it takes; a
    text is a trouble of the system. A receive lets the time of `clock` go by until the next one comes. Requests of another version than
    `version` are noted as probes, and nobody answers them."""

    def __init__(self, answer: Callable[[int, Request], Iterable[Tuple[float, Union[Reply, bytes, str]]]], version: int = 1) -> None:
        self.answer = answer
        self.version = version
        self.probes: List[Tuple[float, int]] = []
        self.time = 0.0
        self.sent: List[Tuple[float, int]] = []
        self.waiting: List[Tuple[float, links.Came]] = []
        self.is_open = True

    def clock(self) -> float:
        return self.time

    def send(self, member: int, data: bytes) -> None:
        request = request_of(data)
        if request.version != self.version:
            self.probes.append((self.time, member))
            return
        self.sent.append((self.time, member))
        for delay, reply in self.answer(member, request):
            came = links.Came(member, trouble=reply) if isinstance(reply, str) else links.Came(member, reply if isinstance(reply, bytes) else reply.encode())
            self.waiting.append((self.time + delay, came))
            self.waiting.sort()

    def receive(self, within: float) -> Optional[links.Came]:
        until = self.time + within
        if not self.waiting or self.waiting[0][0] > until:
            self.time = until
            return None
        at, came = self.waiting.pop(0)
        self.time = max(at, self.time)
        return came

    def close(self) -> None:
        self.is_open = False


class Members:
    """Members over UDP on loopback, each a thread. `answer(member, data)` gives the datagrams that come back."""

    def __init__(self, size: int, answer: Callable[[int, bytes], Iterable[bytes]]) -> None:
        self.answer = answer
        self.sockets = [socket.socket(socket.AF_INET, socket.SOCK_DGRAM) for _ in range(size)]
        for member in self.sockets:
            member.bind(("127.0.0.1", 0))
        self.addresses = [f"127.0.0.1:{member.getsockname()[1]}" for member in self.sockets]
        self.threads = [threading.Thread(target=self._serve, args=(number,)) for number in range(size)]

    def _serve(self, number: int) -> None:
        while (datagram := self.sockets[number].recvfrom(65_536))[0]:
            for answer in self.answer(number, datagram[0]):
                self.sockets[number].sendto(answer, datagram[1])

    def __enter__(self) -> "Members":
        for thread in self.threads:
            thread.start()
        return self

    def __exit__(self, *_: object) -> None:
        for member, thread in zip(self.sockets, self.threads):
            member.sendto(b"", member.getsockname())
            thread.join()
            member.close()


class Streams:
    """Members over TCP on loopback, each with a listener; the streams are answered one message a time by `answer(member, data)`, whose
    pieces are sent one after the other; None closes the stream. `made` counts the streams, and `ended` says whether one has ended."""

    def __init__(self, size: int, answer: Callable[[int, bytes], Iterable[Optional[bytes]]]) -> None:
        self.answer = answer
        self.listeners = [socket.create_server(("127.0.0.1", 0)) for _ in range(size)]
        self.addresses = [f"tcp:127.0.0.1:{listener.getsockname()[1]}" for listener in self.listeners]
        self.made = [0] * size
        self.ended = [threading.Event() for _ in range(size)]
        for number in range(size):
            threading.Thread(target=self._listen, args=(number,), daemon=True).start()

    def _listen(self, number: int) -> None:
        while True:
            try:
                stream, _ = self.listeners[number].accept()
            except OSError:
                return
            self.made[number] += 1
            with stream, contextlib.suppress(ConnectionError):
                self._serve(number, stream)
            self.ended[number].set()

    def _serve(self, number: int, stream: socket.socket) -> None:
        waiting = b""
        while data := stream.recv(65_536):
            waiting += data
            while len(waiting) >= HEADER.size and len(waiting) >= size_of(waiting):
                message, waiting = waiting[:size_of(waiting)], waiting[size_of(waiting):]
                for piece in self.answer(number, message):
                    if piece is None:
                        return
                    stream.sendall(piece)

    def __enter__(self) -> "Streams":
        return self

    def __exit__(self, *_: object) -> None:
        for listener in self.listeners:
            listener.shutdown(socket.SHUT_RDWR)
            listener.close()
