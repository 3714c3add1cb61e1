"""Messages that leave a member while something isn't synced. What a member says rests on its file, so none may, whatever a crash then leaves."""

from typing import Iterator, List, NamedTuple

from .recording import Call
from .scenarios import Part, Recording


class Sent(NamedTuple):
    """A message that left too early: of which member, which of its calls, and how many sectors weren't synced."""

    scenario: str
    member: int
    at: int
    sectors: int

    def __str__(self) -> str:
        return f"{self.scenario} {self.member} {self.at}: early: a message leaves while {self.sectors} sectors aren't synced"


def early(recordings: List[Recording]) -> List[Sent]:
    return [sent for recording in recordings for member, part in enumerate(recording.parts) for sent in early_in(recording.scenario.name, member, part)]


def early_in(scenario: str, member: int, part: Part) -> Iterator[Sent]:
    disk = part.disk.copy(0)
    for at, call in enumerate(part.calls):
        if call.kind == "send" and disk.unsure():
            yield Sent(scenario, member, at, len(disk.unsure()))
        disk.take(call)


def messages(recordings: List[Recording]) -> int:
    return sum(call.kind == "send" for recording in recordings for part in recording.parts for call in part.calls)


def hasty(recording: Recording) -> Recording:
    """A planted fault: each message that a sync comes just before leaves before it."""
    return recording._replace(parts=[part._replace(calls=swapped(part.calls)) for part in recording.parts])


def swapped(calls: List[Call]) -> List[Call]:
    found, last = list(calls), 0
    for at, call in enumerate(calls):
        if call.kind == "send" and calls[last].kind == "sync":
            found[last:at + 1] = [*calls[last + 1:at + 1], calls[last]]
        if call.kind != "line":
            last = at
    return found
