"""What clients asked of a group and when, as a list of operations, and as text that a person can read and `hunt --check` checks."""

from __future__ import annotations

from typing import Iterable, List, NamedTuple, Optional

KINDS = ("put", "get", "delete")
ANSWERS = ("ok", "absent", "value")
UNTOLD = "?"
FOREVER = float("inf")
OPEN = "-"


class Operation(NamedTuple):
    """One operation on one key. It was executed between two times, if it was."""

    client: str
    called: int
    returned: Optional[int]
    """None where nothing is known: it may have been executed at any time after it was called, or never."""
    kind: str
    """One of KINDS."""
    key: str
    value: Optional[str]
    """What a put puts, or what a get was answered; None for all else."""
    answer: str
    """One of ANSWERS, or UNTOLD where it was executed and the answer is lost, or nothing is known."""

    @property
    def end(self) -> float:
        """When it returned, and so was executed at the latest."""
        return FOREVER if self.returned is None else self.returned

    def __str__(self) -> str:
        words = [self.client, str(self.called), OPEN if self.returned is None else str(self.returned), self.kind, self.key]
        if self.kind == "put":
            words += [self.value or "", self.answer]
        else:
            words += [self.answer] + ([self.value] if self.value is not None else [])
        return " ".join(words)


class BadHistory(Exception):
    """A text that is no history; the text of the error says which line isn't an operation, and why."""


FORM = "CLIENT CALLED RETURNED put KEY VALUE ok, .. get KEY value VALUE or absent, or .. delete KEY ok or absent"


def operation_of(line: str) -> Operation:
    """The operation that a line says. Raises `ValueError` with a reason."""
    words = line.split()
    if len(words) < 6 or words[3] not in KINDS:
        raise ValueError(f"it isn't {FORM}")
    client, called, returned, kind, key, *rest = words
    first, last = int(called), None if returned == OPEN else int(returned)
    if last is not None and last < first:
        raise ValueError("it returned before it was called")
    value: Optional[str] = None
    if kind == "put" and len(rest) == 2:
        value, answer = rest
    elif kind == "get" and len(rest) == 2 and rest[0] == "value":
        answer, value = rest
    elif kind != "put" and len(rest) == 1:
        answer = rest[0]
    else:
        raise ValueError(f"it isn't {FORM}")
    allowed = {"put": ("ok",), "get": ("absent", "value"), "delete": ("ok", "absent")}[kind]
    if answer != UNTOLD and (answer not in allowed or (answer == "value") != (kind == "get" and value is not None)):
        raise ValueError(f"a {kind} has no answer {answer}")
    if last is None and answer != UNTOLD:
        raise ValueError(f"one that didn't return has the answer {UNTOLD}")
    return Operation(client, first, last, kind, key, value, answer)


def read(lines: Iterable[str]) -> List[Operation]:
    """The history that lines say; empty ones and those that begin with # say nothing. Raises `BadHistory`."""
    history = []
    for number, line in enumerate(lines, 1):
        if line.strip() and not line.startswith("#"):
            try:
                history.append(operation_of(line))
            except ValueError as error:
                raise BadHistory(f"line {number}: {error}") from None
    values = [one.value for one in history if one.kind == "put"]
    if len(values) != len(set(values)):
        raise BadHistory("two puts have one value: each needs one of its own")
    return history
