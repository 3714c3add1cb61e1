"""Random schedules of a group, played by the program, with what each line put out; and what its members would have written of it."""

import random
from pathlib import Path
from typing import Callable, Dict, List, NamedTuple, Optional, Set, Tuple

from nozhgiva_tools.run.playing import Replay
from nozhgiva_tools.told.lines import owner_of

KINDS = {"request": 5, "deliver": 30, "tick": 6, "stop": 0.4, "start": 2}


class Played(NamedTuple):
    """A line, the replica that it happened to, the message that it delivered, and what it put out."""

    line: str
    member: int
    message: Optional[List[str]]
    outputs: List[str]


class Schedule:
    """Draws lines and has them played. Messages wait in a heap of their own; some are lost, some repeated, some late."""

    def __init__(self, program: str, seed: int, faults: bool = False) -> None:
        self.draw = random.Random(seed)
        self.size = self.draw.choice([1, 2, 2, 3, 3, 3, 4, 5, 6])
        self.late = self.draw.choice([0.0, 0.05, 0.3])
        self.lossy = self.draw.choice([0.0, 0.02, 0.1])
        self.faults = faults
        self.replay = Replay(program)
        self.begin = f"cluster {self.size} v2" if self.size == 1 else f"cluster {self.size}"
        self.replay.play(self.begin)
        self.sent: List[List[str]] = []
        self.waiting: List[int] = []
        self.stopped: Set[int] = set()
        self.requests: Dict[int, int] = {client: 0 for client in (7, 8, 9)}
        self.leader = 0
        self.steps: List[Played] = []

    def line(self) -> str:
        kinds = dict(KINDS) | ({"fault": 0.6} if self.faults else {})
        kind = self.draw.choices(list(kinds), list(kinds.values()))[0]
        member = self.draw.randrange(self.size)
        if kind == "request":
            client = self.draw.choice(list(self.requests))
            number = max(0, self.requests[client] - self.draw.choice([0, 0, 0, 0, 1]))
            member = self.leader if self.draw.random() < 0.9 else member
            operation = "register" if number == 0 else self.draw.choice(["put k{} v{}", "get k{}", "del k{}"]).format(number % 5, number)
            return f"request {member} {client} {number} {operation}"
        if kind == "deliver" and self.waiting:
            return f"deliver {self.next_message()}"
        if kind == "fault":
            return self.draw.choice(["damage", "stale", "unread"]) + f" {member} {self.draw.randrange(400)}"
        if kind == "start" and self.stopped:
            return f"start {self.draw.choice(sorted(self.stopped))}"
        return f"{kind if kind in ('tick', 'stop') else 'tick'} {member}"

    def next_message(self) -> int:
        place = self.draw.randrange(len(self.waiting)) if self.draw.random() < self.late else 0
        number = self.waiting[place]
        if self.draw.random() > 0.05:
            del self.waiting[place]
        while self.waiting and self.draw.random() < self.lossy:
            del self.waiting[self.draw.randrange(len(self.waiting))]
        return number

    def play(self, count: int) -> List[Played]:
        for _ in range(count):
            self.take(self.line())
        self.replay.end()
        return self.steps

    def take(self, line: str) -> None:
        words = line.split()
        message = self.sent[int(words[1]) % len(self.sent)] if words[0] == "deliver" else None
        member = int(message[3]) if message else int(words[1])
        if words[0] in ("stop", "start"):
            (self.stopped.add if words[0] == "stop" else self.stopped.discard)(member)
        outputs = self.replay.play(line)
        for output in outputs:
            told = output.split()
            if told[0] == "send":
                self.waiting.append(len(self.sent))
                self.sent.append(told)
            elif told[0] == "reply" and told[6] == "op" and int(told[5]) == self.requests.get(int(told[3])):
                self.requests[int(told[3])] += 1
            elif told[0] == "choose":
                self.leader = int(told[1])
        self.steps.append(Played(line, member, message, [output for output in outputs if output not in ("done", "kept out")]))


def write_members(folder: Path, size: int, steps: List[Played]) -> List[str]:
    """Files as members would have written them: each numbers its messages from 0 in each of its lives."""
    texts: List[List[str]] = [[] for _ in range(size)]
    numbers = [0] * size
    for step in steps:
        for output in step.outputs:
            words = output.split()
            member = owner_of(words)
            if words[0] == "start":
                numbers[member] = 0
            if words[0] == "send":
                words[1] = str(numbers[member])
                numbers[member] += 1
            texts[member].append(" ".join(words))
    paths = [folder / f"out.{member}" for member in range(size)]
    for path, text in zip(paths, texts):
        path.write_text("".join(line + "\n" for line in text))
    return [str(path) for path in paths]


# What is true of a step, by the event that the schedule names and by what was put out.

Rules = Set[str]
BY_MESSAGE = {
    "prepare_ok": {"Counted"}, "get_view": {"ViewGiven"}, "get_sync": {"SyncGiven"}, "sync_view": {"Jumped"}, "get_prepare": {"EntryGiven"},
    "give_prepare": {"EntryTaken"}, "get_block": {"BlockGiven"}, "give_block": {"BlockTaken"},
}
BY_REPLY = {"redirect": {"Redirected"}, "busy": {"Behind", "Full"}}


def kinds_of(step: Played) -> List[str]:
    """The messages that a step sent, and the first words of its other lines."""
    words = [output.split() for output in step.outputs]
    return [word[4] if word[0] == "send" else word[0] for word in words]


class Truth:
    """Which rules a step is of, one after the other. Of an acknowledgement it is told by what its replica had before, where nothing else could have told it the header."""

    def __init__(self) -> None:
        self.told: Set[Tuple[int, int]] = set()  # members, and ops that a message reached of which it told them
        self.ever: Set[Tuple[int, int]] = set()  # members, and ops that they acknowledged
        self.acked: Dict[int, Set[Tuple[int, int]]] = {}  # views and ops, in this life

    def of(self, step: Played) -> Rules:
        kinds = kinds_of(step)
        event = step.message[4] if step.message else step.line.split()[0]
        if event == "start" or "halt" in kinds:
            self.acked[step.member] = set()
            return set()
        if event == "request":
            return BY_REPLY.get(step.outputs[0].split()[6], {"Answered"}) if kinds == ["reply"] else {"Made"}
        by_event: Dict[str, Callable[[Played, List[str]], Rules]] = {
            "tick": self.of_tick, "prepare": self.of_prepare, "commit": self.of_commit, "start_view_change": self.of_start_view_change,
            "do_view_change": self.of_do_view_change, "start_view": self.of_start_view,
        }
        return by_event[event](step, kinds) if event in by_event else BY_MESSAGE[event]

    def hear(self, step: Played) -> None:
        """What a message told its receiver of headers, whatever came of it."""
        if step.message and step.message[4] in ("start_view", "sync_view", "give_prepare"):
            self.told.add((step.member, int(step.message[step.message.index("op") + 1])))

    def of_tick(self, step: Played, kinds: List[str]) -> Rules:
        if "commit" in kinds and "send" in step.outputs[0]:
            return {"TickedPrimary"}
        return {"TickedBackup", "TickedChanging"} if "start_view_change" in kinds or "wait" in kinds or "choose" in kinds else {"TickedBackup"}

    def of_prepare(self, step: Played, kinds: List[str]) -> Rules:
        if "prepare_ok" not in kinds:
            return {"PreparedLater", "Ahead"}
        message = step.message or []
        member, view, op = step.member, int(message[6]), int(message[8])
        again = (view, op) in self.acked.setdefault(member, set())
        was_told = any(other == member and reach >= op for other, reach in self.told)
        first = (member, op) not in self.ever
        self.acked[member].add((view, op))
        self.ever.add((member, op))
        return {"Known"} if again else {"Next"} if first and not was_told else {"Known", "Next"}

    def of_commit(self, step: Played, kinds: List[str]) -> Rules:
        return {"CommitHeard", "CommitLater"} if kinds == ["get_view"] else {"CommitHeard"}

    def of_start_view_change(self, step: Played, kinds: List[str]) -> Rules:
        return {"ChangeLater"} if "start_view_change" in kinds else {"ChangeDone"} if kinds == ["start_view"] else {"ChangeHeard"}

    def of_do_view_change(self, step: Played, kinds: List[str]) -> Rules:
        return {"StatedLate"} if kinds == ["start_view"] else {"Stated"}

    def of_start_view(self, step: Played, kinds: List[str]) -> Rules:
        return {"SyncAsked"} if "get_sync" in kinds else {"Taken"}
