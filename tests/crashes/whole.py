"""Whole groups at one moment: each member's file in a state that a crash may have left just then, all members started, and all keys read."""

import itertools
import os
import random
import tempfile
import time
from typing import Dict, Iterator, List, NamedTuple, Optional, Tuple

from nozhgiva import Group, Retry, SessionLost, Unknown
from nozhgiva_tools.run import group, nets

from .disk import SECTORS_ALONE, State
from .judging import Verdict, WAITS
from .members import Desk, LINK_FAULT, NO_ENVIRONMENT, PAUSE, TRIES
from .recording import Call
from .scenarios import key_of, KEYS, Part, Recording

# How long a request waits for its answer, and how often a group is asked: a change of view takes half a second where the machine isn't busy, and
# where it is, members that wait for a processor change the view over and over.
SECONDS, PATIENCE = 20.0, 6
# Moments that are drawn at once.
BATCH = 8
# The first states of a disk, of which a moment has one.
STATES = 12
# The number of the client that reads; the next ones where it has to ask again.
READER = 1000
STORIES = ("serve", "jump", "damage")


class Moment(NamedTuple):
    """All files of a group at one moment, the greatest numbers that were answered by then, by client, and what the numbers put."""

    number: str
    recording: Recording
    states: List[State]
    answered: Dict[int, int]

    def is_spoiled(self) -> bool:
        return any(state.is_spoiled for state in self.states)


class Walk:
    """A member's recording, followed by the clock."""

    def __init__(self, part: Part, lag: int) -> None:
        self.calls, self.at = part.calls, 0
        self.disk, self.told = part.disk.copy(lag), part.told.copy()

    def go(self, moment: float) -> None:
        """Up to a moment: what began by then was done, but a sync has to have ended."""
        while self.at < len(self.calls) and self.calls[self.at].begun <= moment:
            call = self.calls[self.at]
            if call.kind in ("sync", "folder") and call.ended > moment:
                return
            self.disk.take(call)
            self.told.take(call)
            self.at += 1


def moments(recordings: List[Recording], seed: int, lag: int = 0, share: int = 0, shares: int = 1, unit: int = SECTORS_ALONE) -> Iterator[Moment]:
    """Moments of groups that served, without end, of which this is one of so many shares; the same number over the same recordings gives the same
    ones. The disks write so many sectors as one; where these are pages, moments are drawn at which as many members as can write."""
    served = [it for it in recordings if it.scenario.story in STORIES]
    for round_ in itertools.count() if served else ():
        for recording in served:
            number = f"{seed} whole {recording.scenario.name} {round_}"
            draw = random.Random(number)
            times = times_of(recording.parts) if unit == SECTORS_ALONE else busiest_times(recording.parts)
            walks = [Walk(part, lag) for part in recording.parts]
            for count, moment in enumerate(sorted(draw.choices(times, k=BATCH))):
                if (count + round_) % shares == share:
                    for walk in walks:
                        walk.go(moment)
                    yield moment_of(recording, walks, f"{number} {count}", unit)


def times_of(parts: List[Part]) -> List[float]:
    return sorted(call.begun for part in parts for call in part.calls)


def busiest_times(parts: List[Part]) -> List[float]:
    """When two members, or the one that there is, had written what wasn't synced yet."""
    changes = sorted(change for part in parts for change in changes_of(part.calls))
    busy, found = 0, []
    for at, change in changes:
        busy += change
        if change > 0 and busy >= min(2, len(parts)):
            found.append(at)
    return found


def changes_of(calls: List[Call]) -> Iterator[Tuple[float, int]]:
    """When a member begins to have what isn't synced (1), and when it ends to (-1)."""
    is_busy = False
    for call in calls:
        if call.kind == "write" and not is_busy:
            is_busy = True
            yield call.begun, 1
        elif call.kind == "sync" and is_busy:
            is_busy = False
            yield call.ended, -1


def moment_of(recording: Recording, walks: List[Walk], number: str, unit: int) -> Moment:
    """A moment, with a state of each member's disk that is drawn by its number."""
    draw = random.Random(number)
    states, answered = [], {}  # type: List[State], Dict[int, int]
    for walk in walks:
        some = list(itertools.islice(walk.disk.states(draw, unit), draw.randrange(1, STATES)))
        states.append(some[-1])
        for client, request in walk.told.answered.items():
            answered[client] = max(request, answered.get(client, 0))
    return Moment(number, recording, states, answered)


class Standing(group.Group):
    """A group that was started on the files of a moment."""

    def __init__(self, desk: Desk, moment: Moment) -> None:
        size = moment.recording.scenario.size
        folder = tempfile.mkdtemp(dir=os.path.dirname(desk.path))
        super().__init__(nets.Net(size, range(desk.port, desk.port + size)), "", program=desk.program, folder=folder)
        for member, state in enumerate(moment.states):
            assert state.image is not None
            with open(self.file(member), "wb") as file:
                file.write(state.image)
        for member in range(size):
            desk.starts += 1
            self.start(member, env=NO_ENVIRONMENT)

    def text(self) -> str:
        return "\n".join(line for member in range(self.size) for line in self.told(member))

    def end(self) -> List[int]:
        """Ends all members; the codes of those that had ended by themselves."""
        codes = [child.returncode for child in self.members.values() if child.poll() is not None]
        self.close()
        return codes


def judge_moment(moment: Moment, desk: Desk) -> Verdict:
    """Tries a moment; again where another program took a port by chance."""
    for _ in range(TRIES):
        verdict = judge_once(moment, desk)
        if verdict is not None:
            return verdict
        time.sleep(PAUSE)
    raise OSError(f"port {desk.port} and those after it were in use all the time")


def judge_once(moment: Moment, desk: Desk) -> Optional[Verdict]:
    """Starts the group, reads all keys, and holds them against what was answered; None where a member's port was in use."""
    standing = Standing(desk, moment)
    read, text = None, ""
    try:
        for attempt in range(PATIENCE):
            read = read_all(desk, moment, READER + attempt)
            text = "" if read else standing.text()
            if read or may_wait(moment, text):
                break
    finally:
        codes = standing.end()
    if codes:
        return None if set(codes) == {LINK_FAULT} else Verdict([f"ended: members ended with {codes}"], [])
    if read is None:
        return judge_silence(moment, text)
    return Verdict([it for client in sorted({key_client(key) for key in read}) for it in judge_client(moment, client, read)], [])


def read_all(desk: Desk, moment: Moment, reader: int) -> Optional[Dict[str, str]]:
    """The values of all keys that clients may have put, the empty text for one that isn't there, asked as this client; None where the group doesn't
    answer, or not in one session."""
    scenario = moment.recording.scenario
    retry = Retry(first=0.05, factor=1.3, most=0.3, jitter=0.5)
    clients = sorted({it.client for it in moment.recording.log.executed.values()})
    try:
        with Group(group.NUMBER, desk.addresses(scenario.size), version=scenario.version, timeout=SECONDS, retry=retry).register(client=reader) as session:
            return {key_of(client, at): session.get(key_of(client, at)) or "" for client in clients for at in range(KEYS)}
    except (Unknown, SessionLost):
        return None


def key_client(key: str) -> int:
    return int(key[1:].split("k")[0])


def judge_client(moment: Moment, client: int, read: Dict[str, str]) -> List[str]:
    """What a client put is there up to one of its puts, which isn't before the last that was answered, and is at most the one after that."""
    puts = {it.request: it.words for it in moment.recording.log.executed.values() if it.client == client and it.words[0] == "put"}
    values = {key: value for key, value in read.items() if key_client(key) == client}
    last = max((int(value.split(".")[0]) for value in values.values() if value), default=0)
    answered = moment.answered.get(client, -1)
    if last < answered:
        return [f"lost: put {answered} of client {client} was answered, and the last one that is read is {last}"]
    wanted = dict.fromkeys(values, "")
    wanted.update({puts[number][1]: puts[number][2] for number in range(1, last + 1)})
    if last > max(answered, 0) + 1 or values != wanted:
        return [f"other: the keys of client {client} aren't those of its first {last} puts; {answered} were answered"]
    return []


def may_wait(moment: Moment, text: str) -> bool:
    """Whether a choice waits, by the members' lines, in a group where one may: with files that are careful, or were damaged."""
    scenario = moment.recording.scenario
    return (scenario.modes != "strict" or scenario.story == "damage" or moment.is_spoiled()) and any(line.startswith("wait ") for line in text.splitlines())


def judge_silence(moment: Moment, text: str) -> Verdict:
    """A group that doesn't answer."""
    if may_wait(moment, text):
        return Verdict([], [f"{WAITS}: {why_waits(moment)}, all members run"])
    return Verdict([f"silent: the group doesn't answer in {SECONDS * PATIENCE:g} s: {text.splitlines()[-1:]}"], [])


def why_waits(moment: Moment) -> str:
    if moment.is_spoiled():
        return f"pages damaged at {sum(state.is_spoiled for state in moment.states)} of {len(moment.states)} members of version {moment.recording.scenario.version}"
    return f"{'careful' if moment.recording.scenario.modes != 'strict' else 'damaged'} files"
