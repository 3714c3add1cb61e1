"""Requests and replies as bytes, as docs/FORMATS.md spells them.

A message is a header of 128 bytes and a body. Numbers are big-endian; a name is the first 16 bytes of a SHA-256. `decode` takes any bytes
whatever and gives the message that they spell, or raises `Refused` with the first fault that applies.
"""

from __future__ import annotations

import sys
from enum import Enum, IntEnum
from functools import cached_property

from .records import TYPE_CHECKING, NamedTuple, dataclass, field

if TYPE_CHECKING:
    from hashlib import sha256
    from struct import Struct, calcsize, pack, unpack_from
    from typing import Any, Union
else:
    try:  # Python's own, without the modules around them, one of which loads OpenSSL
        from _struct import Struct, calcsize, pack, unpack_from
        if sys.version_info >= (3, 12):
            from _sha2 import sha256
        else:
            from _sha256 import sha256
    except ImportError:
        from hashlib import sha256
        from struct import Struct, calcsize, pack, unpack_from

__all__ = [
    "Delete", "Fault", "Get", "LARGEST_KEY", "LARGEST_MESSAGE", "LARGEST_VALUE", "Operation", "Outcome", "OutcomeKind", "Put", "Refused",
    "Register", "Reply", "ReplyKind", "Request", "SIZES", "VERSIONS", "decode", "encode_operation", "size_of",
]

LARGEST_MESSAGE = 20_480
LARGEST_KEY = 64
LARGEST_VALUE = {1: 1_024, 2: 3_000}
"""How many bytes a value has at most, by the version of the format. A version that isn't here is refused."""
VERSIONS = tuple(LARGEST_VALUE)
SIZES = {1: range(2, 7), 2: range(1, 7)}
"""How many members a group may have, by the version."""

LAST_COMMAND = 19
LAST_VIEW = 2**32 - 2
LAST_OP = 2**62
FIRST_BYTE, LAST_BYTE = 33, 126
"""Each byte of a key and of a value is from the first of these to the last."""

NAME_SIZE = 16
HEADER = Struct(">16s16s16s16sQQIIQQIBBBBQ8s")


class Fault(Enum):
    """Why bytes are no message for a client; the first that applies, in this order."""

    SHORT = "fewer bytes than a header has"
    BAD_SUM = "the header's name is another"
    BAD_COMMAND = "no command has this number"
    BAD_VERSION = "the version is none that is known"
    BAD_SIZE = "the size is below a header's or above the largest message's"
    NOT_ZERO = "the end of the header isn't zero"
    BODY_SUM = "the body isn't of the size and the name that the header gives"
    OTHER_COMMAND = "the command is neither a request's nor a reply's"
    BODY_SHAPE = "fields or body aren't those of a request or a reply"


class Refused(Exception):
    """Bytes that are no request and no reply; `fault` says why."""

    def __init__(self, fault: Fault) -> None:
        super().__init__(fault.value)
        self.fault = fault


class Command(IntEnum):
    REQUEST = 4
    REPLY = 5


class OperationKind(IntEnum):
    REGISTER = 1
    PUT = 2
    GET = 3
    DELETE = 4


class OutcomeKind(IntEnum):
    """What executing an operation gave."""

    SESSION = 1
    OK = 2
    FULL = 3
    ABSENT = 4
    VALUE = 5


class ReplyKind(IntEnum):
    """What a reply says of its request."""

    OUTCOME = 1
    """It was executed."""
    OLD = 2
    """A later request of this client was executed."""
    GAP = 3
    """An earlier request of this client is missing."""
    EVICTED = 4
    """The client has no session."""
    BUSY = 5
    """It can't be taken now."""
    REDIRECT = 6
    """This member doesn't lead; the one whose number is the reply's view modulo the size of the group does."""


def _check_text(what: str, text: str, most: int) -> None:
    """Raises `TypeError` or `ValueError` where a text is no key or no value. What it raises never tells the text itself."""
    if not isinstance(text, str):
        raise TypeError(f"a {what} is a str, not {type(text).__name__}; Blob makes one of any bytes or text")
    if not 1 <= len(text) <= most:
        raise ValueError(f"a {what} has 1 to {most:,} bytes, not {len(text):,}")
    for at, letter in enumerate(text):
        if not FIRST_BYTE <= ord(letter) <= LAST_BYTE:
            raise ValueError(f"each letter of a {what} is a visible one of ASCII ({FIRST_BYTE} to {LAST_BYTE}), and the one at {at} isn't; "
                             "Blob makes such a text of any bytes or text")


@dataclass(frozen=True)
class Register:
    """Begins a session."""

    def __str__(self) -> str:
        return "register"


@dataclass(frozen=True)
class Put:
    """Gives a key a value."""

    key: str
    value: str = field(repr=False)

    def __str__(self) -> str:
        return f"put {self.key} ({len(self.value):,} bytes)"


@dataclass(frozen=True)
class Get:
    """Reads the value of a key."""

    key: str

    def __str__(self) -> str:
        return f"get {self.key}"


@dataclass(frozen=True)
class Delete:
    """Takes a key out."""

    key: str

    def __str__(self) -> str:
        return f"del {self.key}"


if TYPE_CHECKING:
    Operation = Union[Register, Put, Get, Delete]
    """What a request asks for. As a text it has the key and the size of the value, and never the value, which may be a secret."""
else:
    def __getattr__(name):
        """`Operation`, once somebody asks for it: who doesn't has no need of `typing`."""
        if name != "Operation":
            raise AttributeError(f"module {__name__!r} has no attribute {name!r}")
        from typing import Union

        return Union[Register, Put, Get, Delete]


def encode_operation(operation: Operation, version: int) -> bytes:
    """The body of a request. Raises `ValueError` where a key or a value isn't of the form."""
    if isinstance(operation, Register):
        return bytes([OperationKind.REGISTER])
    _check_text("key", operation.key, LARGEST_KEY)
    key = operation.key.encode("ascii")
    if isinstance(operation, Put):
        _check_text("value", operation.value, LARGEST_VALUE[version])
        value = operation.value.encode("ascii")
        return pack(">BBH", OperationKind.PUT, len(key), len(value)) + key + value
    kind = OperationKind.GET if isinstance(operation, Get) else OperationKind.DELETE
    return pack(">BB", kind, len(key)) + key


def _text(data: bytes, size: int, most: int) -> str:
    """A key or a value: exactly so many bytes of the form."""
    if len(data) != size or not 1 <= size <= most or not all(FIRST_BYTE <= byte <= LAST_BYTE for byte in data):
        raise Refused(Fault.BODY_SHAPE)
    return data.decode("ascii")


def _unpacked(form: str, data: bytes) -> tuple[int, ...]:
    """The numbers at the front of a body."""
    if len(data) < calcsize(form):
        raise Refused(Fault.BODY_SHAPE)
    return unpack_from(form, data)


def decode_operation(body: bytes, version: int) -> Operation:
    """The operation that a body is. Raises `Refused` with `BODY_SHAPE`."""
    kind, *_ = _unpacked(">B", body)
    if kind == OperationKind.REGISTER and len(body) == 1:
        return Register()
    if kind == OperationKind.PUT:
        _, key, value = _unpacked(">BBH", body)
        rest = body[4:]
        return Put(_text(rest[:key], key, LARGEST_KEY), _text(rest[key:], value, LARGEST_VALUE[version]))
    if kind in (OperationKind.GET, OperationKind.DELETE):
        _, key = _unpacked(">BB", body)
        text = _text(body[2:], key, LARGEST_KEY)
        return Get(text) if kind == OperationKind.GET else Delete(text)
    raise Refused(Fault.BODY_SHAPE)


@dataclass(frozen=True)
class Outcome:
    """What executing an operation gave; `value` stands exactly with the kind `VALUE`. `op` is the number in the group's list of operations
    under which it was executed, where that is known, else 0: of two operations the one that was executed later has the greater one."""

    kind: OutcomeKind
    value: str = field(default="", repr=False)
    op: int = field(default=0, compare=False)

    def __str__(self) -> str:
        return f"value ({len(self.value):,} bytes)" if self.kind == OutcomeKind.VALUE else self.kind.name.lower()


def encode_outcome(outcome: Outcome, version: int) -> bytes:
    """The body of a reply that has an outcome. Raises `ValueError` where the value isn't of the form."""
    if outcome.kind != OutcomeKind.VALUE:
        return bytes([outcome.kind])
    _check_text("value", outcome.value, LARGEST_VALUE[version])
    return pack(">BH", outcome.kind, len(outcome.value)) + outcome.value.encode("ascii")


def decode_outcome(body: bytes, version: int) -> Outcome:
    """The outcome that a body is. Raises `Refused` with `BODY_SHAPE`."""
    kind, *_ = _unpacked(">B", body)
    if kind == OutcomeKind.VALUE:
        _, size = _unpacked(">BH", body)
        return Outcome(OutcomeKind.VALUE, _text(body[3:], size, LARGEST_VALUE[version]))
    if kind not in tuple(OutcomeKind) or len(body) != 1:
        raise Refused(Fault.BODY_SHAPE)
    return Outcome(OutcomeKind(kind))


def name_of(data: bytes) -> bytes:
    """The name of bytes: the first 16 of their SHA-256."""
    return sha256(data).digest()[:NAME_SIZE]


class Header(NamedTuple):
    """The fields of a header, in the order in which they stand."""

    name: bytes
    body: bytes
    parent: bytes
    request_name: bytes
    cluster: int
    client: int
    request: int
    view: int
    op: int
    commit: int
    size: int
    command: int
    replica: int
    version: int
    kind: int
    aux: int
    zeros: bytes


BLANK = Header(*HEADER.unpack(bytes(HEADER.size)))
"""A header whose fields are all zero."""


def _message(body: bytes, command: Command, version: int, **fields: Any) -> bytes:
    """A message of these fields, all others zero."""
    header = BLANK._replace(body=name_of(body), size=HEADER.size + len(body), command=command, version=version, **fields)
    rest = HEADER.pack(*header)[NAME_SIZE:]
    return name_of(rest) + rest + body


@dataclass(frozen=True)
class Request:
    """What a client asks: `number` is 0 exactly for `Register`. `cluster` and `client` are below 2^64, `number` below 2^32."""

    cluster: int
    client: int
    number: int
    operation: Operation
    version: int = 1

    def encode(self) -> bytes:
        """Its bytes. Raises `TypeError` or `ValueError` where the operation isn't of the form."""
        return self._encoded

    def name(self) -> bytes:
        """The name of its header, by which a reply tells what it answers."""
        return self._encoded[:NAME_SIZE]

    @cached_property
    def _encoded(self) -> bytes:
        body = encode_operation(self.operation, self.version)
        return _message(body, Command.REQUEST, self.version, cluster=self.cluster, client=self.client, request=self.number)


@dataclass(frozen=True)
class Reply:
    """What a member answers. `request_name` is that of the request's header; `outcome` and `op`, the number under which the request was
    executed, stand exactly with the kind `OUTCOME`. A view is at most 2^32 - 2, an op at most 2^62."""

    cluster: int
    client: int
    number: int
    request_name: bytes
    replica: int
    view: int
    kind: ReplyKind
    op: int = 0
    outcome: Outcome | None = None
    version: int = 1

    def encode(self) -> bytes:
        """Its bytes."""
        body = b"" if self.outcome is None else encode_outcome(self.outcome, self.version)
        return _message(
            body, Command.REPLY, self.version, cluster=self.cluster, client=self.client, request=self.number, request_name=self.request_name,
            replica=self.replica, view=self.view, kind=self.kind, op=self.op)


def _header(data: bytes) -> Header:
    """The header at the front of bytes. Raises `Refused` with a fault of the header."""
    if len(data) < HEADER.size:
        raise Refused(Fault.SHORT)
    header = Header(*HEADER.unpack_from(data))
    if header.name != name_of(data[NAME_SIZE:HEADER.size]):
        raise Refused(Fault.BAD_SUM)
    if not 1 <= header.command <= LAST_COMMAND:
        raise Refused(Fault.BAD_COMMAND)
    if header.version not in LARGEST_VALUE:
        raise Refused(Fault.BAD_VERSION)
    if not HEADER.size <= header.size <= LARGEST_MESSAGE:
        raise Refused(Fault.BAD_SIZE)
    if any(header.zeros):
        raise Refused(Fault.NOT_ZERO)
    return header


def size_of(data: bytes) -> int:
    """How many bytes the message has whose header stands at the front of `data`. Raises `Refused` with a fault of the header."""
    return _header(data).size


def _has_only(header: Header, *fields: str) -> bool:
    """Whether all fields are zero but these and those that always stand."""
    always = ("name", "body", "cluster", "size", "command", "version", "zeros")
    values = (value for name, value in header._asdict().items() if name not in always + fields)
    return not any(any(value) if isinstance(value, bytes) else value for value in values)


def _request(header: Header, body: bytes) -> Request:
    operation = decode_operation(body, header.version)
    registers = isinstance(operation, Register)
    if not _has_only(header, "client", "request") or registers != (header.request == 0):
        raise Refused(Fault.BODY_SHAPE)
    return Request(header.cluster, header.client, header.request, operation, header.version)


def _reply(header: Header, body: bytes) -> Reply:
    executed = header.kind == ReplyKind.OUTCOME
    fields = ["request_name", "client", "request", "replica", "view", "kind"] + ["op"] * executed
    if header.kind not in tuple(ReplyKind) or not _has_only(header, *fields) or header.view > LAST_VIEW or header.op > LAST_OP:
        raise Refused(Fault.BODY_SHAPE)
    if body and not executed:
        raise Refused(Fault.BODY_SHAPE)
    outcome = decode_outcome(body, header.version) if executed else None
    return Reply(
        header.cluster, header.client, header.request, header.request_name, header.replica, header.view, ReplyKind(header.kind), header.op,
        outcome, header.version)


def decode(data: bytes) -> Request | Reply:
    """The request or the reply that bytes spell, all of them. Raises `Refused`, and nothing else, whatever they are."""
    header = _header(data)
    body = data[HEADER.size:]
    if len(data) != header.size or header.body != name_of(body):
        raise Refused(Fault.BODY_SUM)
    if header.command == Command.REQUEST:
        return _request(header, body)
    if header.command == Command.REPLY:
        return _reply(header, body)
    raise Refused(Fault.OTHER_COMMAND)
