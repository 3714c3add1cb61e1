"""The replicated state, by docs/STATE.md: what the entries of a log make of sessions and keys."""

from typing import Dict, Literal, NamedTuple, Optional, Tuple, Union

from .datafile import Checkpoint, Header, number, SESSIONS
from .store import Kind, of_bytes, Store

Change = Union[Tuple[Literal["put"], str, str], Tuple[Literal["del"], str]]
"""`put` with a key and its value, or `del` with a key."""


class Session(NamedTuple):
    """The last request of a client that was executed, and the operation that did."""

    request: int
    op: int


class Table:
    """Keys with their values, and the sessions, which tell what of a log is executed."""

    def __init__(self, keys: Dict[str, str], sessions: Dict[int, Session]) -> None:
        self.store, self.sessions = Store(keys), sessions

    @property
    def keys(self) -> Dict[str, str]:
        return self.store.keys

    @classmethod
    def of(cls, checkpoint: Checkpoint) -> "Table":
        """That of a checkpoint whose texts can both be read."""
        return cls(dict(checkpoint.pairs()), {client: Session(*last) for client, last in checkpoint.clients().items()})

    def is_fresh(self, client: int, request: int) -> bool:
        """Whether a request is executed: a first register, or the number after the last one."""
        session = self.sessions.get(client)
        return request == 0 if session is None else request == session.request + 1

    def apply(self, header: Header, body: bytes) -> Optional[Change]:
        """Applies an entry. What it changed of the keys; None where nothing."""
        client = number(header.bytes, 72, 8)
        if not self.is_fresh(client, header.request):
            return None
        change = self.change(body)
        if client not in self.sessions and len(self.sessions) >= SESSIONS[header.version]:
            del self.sessions[min(self.sessions, key=lambda one: (self.sessions[one].op, one))]
        self.sessions[client] = Session(header.request, header.op)
        return change

    def change(self, body: bytes) -> Optional[Change]:
        """Executes an operation."""
        operation = of_bytes(body)
        if not self.store.changed(operation):
            return None
        return ("put", operation.key, operation.value) if operation.kind == Kind.PUT else ("del", operation.key)
