"""How one request finds its answer: what is sent where and when, and what a message that comes means for it.

`Search` decides, and does no input or output; `Asker` runs it over a link. nozhgiva.aio runs it over asyncio.
"""

from __future__ import annotations

import math
import os
import time

from .messages import Delete, Get, OutcomeKind, Put, Refused, Register, Reply, ReplyKind, Request, decode
from .records import TYPE_CHECKING, NamedTuple, dataclass, field, replace
from .sights import Sight

if TYPE_CHECKING:
    from typing import Callable, Dict, Iterator, List, Optional, Sequence, Tuple, Union

    from .links import Link

__all__ = ["Asker", "Course", "Retry", "Search", "Send", "is_answer"]

NO_VIEW = -1

OUTCOMES = {
    Register: {OutcomeKind.SESSION},
    Put: {OutcomeKind.OK, OutcomeKind.FULL},
    Get: {OutcomeKind.VALUE, OutcomeKind.ABSENT},
    Delete: {OutcomeKind.OK, OutcomeKind.ABSENT},
}
"""What each operation can give."""

LOST = {ReplyKind.OLD, ReplyKind.GAP, ReplyKind.EVICTED}
"""What ends a session."""

OTHER_VERSION = {1: 2, 2: 1}
LOOK = 0.75
"""Seconds after which it is said what was seen so far, where a register has no answer."""


def drawn(least: int, past: int) -> int:
    """A number that nobody can foresee, from the first of these to the one before the second."""
    return least + int.from_bytes(os.urandom(16), "big") % (past - least)


def _chance() -> float:
    """A number from 0 to 1, below 1."""
    return drawn(0, 2**53) / 2**53


@dataclass(frozen=True)
class Retry:
    """How long a request waits for an answer before it is sent once more: `first` seconds, and with each time `factor` times as long, `most`
    seconds at most. Of each pause a random share, up to `jitter`, is left out, so that clients that lost their primary at the same moment
    don't come back at the same moment.
    """

    first: float = 0.25
    factor: float = 1.5
    most: float = 1.0
    jitter: float = 0.5

    def __post_init__(self) -> None:
        if not (0 < self.first <= self.most and self.factor >= 1 and 0 <= self.jitter < 1):
            raise ValueError("a retry has 0 < first <= most, 1 <= factor and 0 <= jitter < 1")

    def pauses(self, draw: Callable[[], float] = _chance) -> Iterator[float]:
        """The pauses one after the other, in seconds, without end."""
        pause = self.first
        while True:
            yield pause * (1 - self.jitter * draw())
            pause = min(pause * self.factor, self.most)


@dataclass
class Course:
    """What a session remembers from one request to the next."""

    addresses: Sequence[str]
    target: int = 0
    """The place that is asked first: that of the member which answered last."""
    view: int = NO_VIEW
    """The view in which the last outcome was given."""
    version: int = 0
    """The version in which the last outcome was given; 0 before the first. One of version 2 never goes back."""
    versions: List[int] = field(default_factory=list)
    """For each place the version in which it answered last, or the group's. The sessions of a group share it."""

    def version_at(self, place: int) -> int:
        """In which version a place is asked."""
        return max(self.version, self.versions[place])

    def answered(self, reply: Reply) -> None:
        """An outcome came: the group has its version, and view."""
        self.view, self.version = reply.view, max(self.version, reply.version)
        self.versions[:] = [reply.version] * len(self.versions)


class Send(NamedTuple):
    """Bytes for the member at a place."""

    place: int
    data: bytes


def is_answer(request: Request, reply: Reply) -> bool:
    """Whether a reply answers this request: it is of its group and version, names it, and has an outcome that the operation can give, if any."""
    if (reply.cluster, reply.version, reply.request_name) != (request.cluster, request.version, request.name()):
        return False
    return reply.outcome is None or reply.outcome.kind in OUTCOMES[type(request.operation)]


class Search:
    """One request on its way to its answer.

    It goes on in rounds, each with a pause at its end. The first one asks the member that answered last. Where it was silent, the next round
    asks the next one. Where somebody spoke and nobody answered, it asks the member that leads the newest view told, and another one beside
    it, in turn, since a member that is cut off may be busy, or redirect to itself, for ever. A redirect to a view that is news is followed at
    once, as often in a round as the group has members. So a group without a primary gets at most that many and two messages a round. A
    register begins with all members.

    A place that was asked in a round and said nothing is sent a probe in the other version at its end. Where that is answered, the member
    there has gone over to that version: it is asked the same in it, under the same number, so the request is executed at most once.
    """

    def __init__(self, request: Request, course: Course, retry: Retry) -> None:
        self.request = request
        self.sights = [Sight(place, address) for place, address in enumerate(course.addresses)]
        self.rounds = 0
        self._course = course
        course.versions = course.versions or [request.version] * len(self.sights)
        self._requests = {request.version: request}
        self._probes: Dict[int, Request] = {}
        self._pauses = retry.pauses()
        self._newest = NO_VIEW
        self._spoke = False
        self._follows = 0
        self._beside = course.target
        self._waits = [False] * len(self.sights)

    @property
    def is_register(self) -> bool:
        """Whether it begins a session, so that nothing is known yet of who is there."""
        return isinstance(self.request.operation, Register)

    @property
    def is_hopeless(self) -> bool:
        """Whether it is a register, and each address says that it isn't what the group's list says."""
        return self.is_register and all(sight.is_misplaced for sight in self.sights)

    @property
    def sent(self) -> int:
        """How often the request was sent."""
        return sum(sight.asked for sight in self.sights)

    def next_round(self) -> List[Send]:
        """What is to be sent at the beginning of the next round."""
        size, course = len(self.sights), self._course
        probes = [self._probe(place) for place in range(size) if self._waits[place]]
        if self.rounds and not self._spoke:
            course.target = (course.target + 1) % size
        places = [course.target]
        if self.rounds == 0 and self.is_register:
            places += [place for place in range(size) if place != course.target]
        elif self.rounds and self._spoke and size > 1:
            places.append(self._other())
        self.rounds += 1
        self._spoke, self._follows = False, size
        return probes + [self._send(place, course.version_at(place)) for place in places]

    def next_pause(self) -> float:
        """How long this round waits, in seconds."""
        return next(self._pauses)

    def _other(self) -> int:
        """A place beside the target, another one each time."""
        size = len(self.sights)
        self._beside = (self._beside + 1) % size
        if self._beside == self._course.target:
            self._beside = (self._beside + 1) % size
        return self._beside

    def _send(self, place: int, version: int) -> Send:
        """The request for the member at a place, in a version."""
        if version not in self._requests:
            self._requests[version] = replace(self.request, version=version)
        self.sights[place].asked += 1
        self._waits[place] = True
        return Send(place, self._requests[version].encode())

    def _probe(self, place: int) -> Send:
        """A request in the other version that begins no session and changes nothing: a get, by a client that never registered."""
        version = OTHER_VERSION[self._course.version_at(place)]
        if version not in self._probes:
            client = drawn(1, 2**64 - 1)  # the last number is that of the operators' status
            self._probes[version] = Request(self.request.cluster, client, 1, Get("?"), version)
        self._waits[place] = False
        return Send(place, self._probes[version].encode())

    def trouble(self, place: int, text: str) -> None:
        """The system said this when it was asked to send there or to receive from there."""
        self.sights[place].trouble = text
        self._waits[place] = False

    def take(self, place: int, data: bytes) -> Union[Reply, List[Send]]:
        """What bytes from a place mean: the reply that settles the request, an outcome, `OLD`, `GAP` or `EVICTED`; or what is to be sent."""
        sight = self.sights[place]
        try:
            message = decode(data)
        except Refused:
            sight.stray += 1
            return []
        if not isinstance(message, Reply):
            sight.stray += 1
            return []
        if message.cluster != self.request.cluster:
            sight.clusters.add(message.cluster)
            return []
        sight.members.add(message.replica)
        if message.version != self.request.version:
            sight.versions.add(message.version)
        return self._heed(sight, message)

    def _heed(self, sight: Sight, reply: Reply) -> Union[Reply, List[Send]]:
        """What a reply of the group means."""
        version = reply.version
        if version in self._requests and is_answer(self._requests[version], reply):
            self._course.versions[sight.place] = version
            self._waits[sight.place] = False
            sight.trouble = ""
            return self._obey(sight, reply)
        if version in self._probes and reply.request_name == self._probes[version].name():
            return self._go_over(sight, version)
        sight.stray += 1
        return []

    def _go_over(self, sight: Sight, version: int) -> List[Send]:
        """Asks a member in the version in which it has answered a probe. Once the group is of version 2, what is left of version 1 isn't."""
        self._course.versions[sight.place] = version
        if version < self._course.version or self._follows == 0:
            return []
        self._follows -= 1
        return [self._send(sight.place, version)]

    def _obey(self, sight: Sight, reply: Reply) -> Union[Reply, List[Send]]:
        if reply.kind == ReplyKind.REDIRECT:
            self._spoke = True
            return self._follow(sight, reply)
        if reply.kind == ReplyKind.BUSY:
            self._spoke = True
            sight.busy += 1
            return []
        if reply.kind in LOST and reply.view < self._course.view:
            sight.behind += 1
            return []
        self._course.target = sight.place
        if reply.kind == ReplyKind.OUTCOME:
            self._course.answered(reply)
        return reply

    def _follow(self, sight: Sight, reply: Reply) -> List[Send]:
        """Asks the member that leads a view, in the version of who told: at once where that view is news, else in the next round."""
        size, view, is_news = len(self.sights), reply.view, reply.view > self._newest
        sight.redirects += 1
        if sight.view is None or view >= sight.view:
            sight.view, sight.leader = view, view % size
        self._newest = max(view, self._newest)
        self._course.target = self._newest % size
        if not is_news or self._follows == 0:
            return []
        self._follows -= 1
        return [self._send(self._course.target, reply.version)]


class Asker:
    """Runs the searches of a session over a link. `is_stopped` is looked at before each round: where it says so, the search ends there. `tell`
    is called with a register that has had no answer for a while."""

    def __init__(self, link: Link, course: Course, retry: Retry, clock: Callable[[], float] = time.monotonic,
                 is_stopped: Callable[[], bool] = lambda: False, tell: Callable[[Search], None] = lambda search: None) -> None:
        self._link = link
        self._course = course
        self._retry = retry
        self._clock = clock
        self._is_stopped = is_stopped
        self._tell = tell

    def ask(self, request: Request, deadline: float) -> Tuple[Optional[Reply], Search]:
        """The reply that settles the request; None where none came until the clock shows `deadline`, or none can come; and what was seen."""
        search = Search(request, self._course, self._retry)
        look_at = self._clock() + LOOK if search.is_register else math.inf
        while self._clock() < deadline and not self._is_stopped():
            self._send(search.next_round())
            until = min(self._clock() + search.next_pause(), deadline)
            reply = self._hear(search, min(until, look_at))
            if reply is None and look_at < until:
                if search.is_hopeless:
                    break
                self._tell(search)
                look_at = math.inf
                reply = self._hear(search, until)
            if reply is not None:
                return reply, search
        return None, search

    def _hear(self, search: Search, until: float) -> Optional[Reply]:
        """Hears until the clock shows `until`, and sends what comes of it."""
        while (left := until - self._clock()) > 0:
            came = self._link.receive(left)
            if came is None:
                continue
            if came.trouble:
                search.trouble(came.place, came.trouble)
                continue
            step = search.take(came.place, came.data)
            if isinstance(step, Reply):
                return step
            self._send(step)
        return None

    def _send(self, sends: List[Send]) -> None:
        for send in sends:
            self._link.send(send.place, send.data)
