"""What put, get and delete mean, by docs/STATE.md: their words, their bytes, and what they make of keys. It is written here once for all tools and trials.

Two oracles stay apart on purpose, since what they judge could have a mistake of this file: tests/hunt/order.py, which looks for an order of the answers that
clients had, and `after` of tests/tools/operate/test_backup.py, which says what a backup has to hold, made by this. Apart too are the packages of the clients,
which need nothing of this repository, and their tests; `ask`, which is a user of the client's; and the page in JavaScript."""

from enum import IntEnum
from typing import Dict, Mapping, NamedTuple, Optional, Sequence, Tuple

from .datafile import KEYS


class Kind(IntEnum):
    """What an operation is; the number is the first byte of its spelling."""

    REGISTER = 1
    PUT = 2
    GET = 3
    DELETE = 4


WORDS: Dict[str, Kind] = {"register": Kind.REGISTER, "put": Kind.PUT, "get": Kind.GET, "del": Kind.DELETE}
WORD_OF = {kind: word for word, kind in WORDS.items()}
# What stands behind each word.
FORMS: Dict[str, Tuple[str, ...]] = {"register": (), "put": ("KEY", "VALUE"), "get": ("KEY",), "del": ("KEY",)}


class Operation(NamedTuple):
    """An operation of a client."""

    kind: Kind
    key: str = ""
    value: str = ""

    def words(self) -> Tuple[str, ...]:
        """`register`, `put KEY VALUE`, `get KEY`, `del KEY`."""
        return (WORD_OF[self.kind], self.key, self.value)[:1 + len(FORMS[WORD_OF[self.kind]])]

    def spelled(self) -> bytes:
        """Its bytes (docs/FORMATS.md, Operations)."""
        key, value = self.key.encode("ascii"), self.value.encode("ascii")
        if self.kind == Kind.REGISTER:
            return bytes([self.kind])
        length = len(value).to_bytes(2, "big") if self.kind == Kind.PUT else b""
        return bytes([self.kind, len(key)]) + length + key + value


class Outcome(IntEnum):
    """How an operation ends; the number is the first byte of its spelling."""

    SESSION = 1
    OK = 2
    FULL = 3
    ABSENT = 4
    VALUE = 5

    def spelled(self, value: str = "") -> bytes:
        return bytes([self]) + (len(value).to_bytes(2, "big") + value.encode("ascii") if self == Outcome.VALUE else b"")


def of_words(words: Sequence[str]) -> Operation:
    """The operation that words say; of a put whose value isn't told the value is empty. KeyError where there is no such word."""
    return Operation(WORDS[words[0]], *words[1:])


def of_bytes(body: bytes) -> Operation:
    """The operation that bytes spell."""
    kind = Kind(body[0])
    if kind == Kind.REGISTER:
        return Operation(kind)
    at = 4 if kind == Kind.PUT else 2
    return Operation(kind, body[at:at + body[1]].decode("ascii"), body[at + body[1]:].decode("ascii"))


class Store:
    """Keys with their values."""

    def __init__(self, keys: Optional[Mapping[str, str]] = None) -> None:
        self.keys: Dict[str, str] = dict(keys or {})

    def execute(self, operation: Operation) -> Outcome:
        """Executes an operation. The value that a get is answered with is that of its key."""
        kind, key = operation.kind, operation.key
        if kind == Kind.REGISTER:
            return Outcome.SESSION
        if kind == Kind.PUT:
            if key not in self.keys and len(self.keys) >= KEYS:
                return Outcome.FULL
            self.keys[key] = operation.value
            return Outcome.OK
        if key not in self.keys:
            return Outcome.ABSENT
        if kind == Kind.GET:
            return Outcome.VALUE
        del self.keys[key]
        return Outcome.OK

    def changed(self, operation: Operation) -> bool:
        """Executes an operation; whether it put or deleted a key."""
        return self.execute(operation) == Outcome.OK
