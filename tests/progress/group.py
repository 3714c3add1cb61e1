"""A group in `replay`, with the messages that are under way and the clients that ask it. A round is a tick at each member that runs, and then messages."""

import random
from typing import Callable, Dict, Iterable, List, NamedTuple, Optional, Set, Tuple

from nozhgiva_tools.run.playing import Replay
from nozhgiva_tools.told.lines import applied_of, message_of, reply_of

WAVES = 60  # of deliveries within a round, at most: what a delivery sends without delay arrives in the next wave


class Sent(NamedTuple):
    """A message: its number, its ends, and its words behind them."""

    number: int
    sender: int
    receiver: int
    words: List[str]

    def value(self, name: str) -> int:
        return int(self.words[self.words.index(name) + 1])


class Traces:
    """What the outputs have shown of one member: bounds from above of what is in its memory and its file."""

    def __init__(self) -> None:
        self.applied = 0  # the last operation that it applied
        self.head = 0  # the greatest operation whose header it may have known
        self.given: Set[int] = set()  # checkpoints that reached it from others


class Group:
    """The members, by the lines that were played and what they put out."""

    def __init__(self, program: str, size: int, kind: str = "") -> None:
        self.program, self.size, self.kind = program, size, kind
        self.replay = Replay(program)
        self.lines: List[str] = []
        self.sent: List[Sent] = []
        self.new: List[Sent] = []  # what was sent since `take_new`
        self.running = set(range(size))
        self.traces = [Traces() for _ in range(size)]
        self.play([f"cluster {size}{kind}"])

    def play(self, lines: List[str]) -> List[str]:
        """Plays lines, and gives what they put out."""
        self.lines += lines
        for line in lines:
            words = line.split(" ")
            if words[0] == "stop":
                self.running.discard(int(words[1]))
            elif words[0] == "deliver" and self.sent:
                self.trace_delivery(self.sent[int(words[1]) % len(self.sent)])
        outputs = self.replay.play_all(lines)
        for output in outputs:
            self.hear(output)
        return outputs

    def hear(self, output: str) -> None:
        words = output.split(" ")
        found, applied = message_of(words), applied_of(words)
        if found is not None:
            message = Sent(*found, words[4:])
            self.sent.append(message)
            self.new.append(message)
            self.trace_head(message.sender, message)
        elif words[0] == "halt":
            self.running.discard(int(words[1]))
        elif words[0] == "start":
            self.running.add(int(words[1]))
        elif applied is not None:
            traces = self.traces[int(words[1])]
            traces.applied = max(traces.applied, applied.op)
        elif words[0] == "choose":
            self.traces[int(words[1])].head = max(self.traces[int(words[1])].head, int(words[words.index("head") + 1]))

    def trace_delivery(self, message: Sent) -> None:
        """A log that reaches a member may be taken, and a checkpoint with it."""
        if message.words[0] in ("start_view", "sync_view"):
            self.trace_head(message.receiver, message)
        if message.words[0] == "sync_view":
            self.traces[message.receiver].given.add(message.value("checkpoint"))

    def trace_head(self, member: int, message: Sent) -> None:
        name = {"do_view_change": "head"}.get(message.words[0], "op")
        if message.words[0] in ("prepare", "prepare_ok", "commit", "start_view", "sync_view", "do_view_change"):
            self.traces[member].head = max(self.traces[member].head, message.value(name))

    def take_new(self) -> List[Sent]:
        new, self.new = self.new, []
        return new

    def restart(self, member: int) -> None:
        self.play([f"stop {member}", f"start {member}"])

    def end(self) -> None:
        self.replay.end()


class Net:
    """Messages under way, each with the round in which it arrives; which links carry any, and how many of them get lost."""

    def __init__(self, group: Group, draw: random.Random) -> None:
        self.group, self.draw = group, draw
        self.round, self.delay, self.is_constant = 0, 0, False
        self.links: Callable[[int, int], bool] = lambda sender, receiver: True
        self.loss = 0.0
        self.under_way: List[Tuple[int, Sent]] = []

    def be_fair(self, members: Iterable[int], delay: int, is_constant: bool = False) -> None:
        """From now on every message between these members arrives, within so many rounds, and nothing else does: what was sent before is lost."""
        inside = set(members)
        self.under_way, self.group.new, self.loss, self.delay, self.is_constant = [], [], 0.0, delay, is_constant
        self.links = lambda sender, receiver: sender in inside and receiver in inside

    def gather(self) -> None:
        for message in self.group.take_new():
            if self.links(message.sender, message.receiver) and self.draw.random() >= self.loss:
                wait = self.delay if self.is_constant or not self.delay else self.draw.randint(0, self.delay)
                self.under_way.append((self.round + wait, message))

    def deliver(self, waves: int = WAVES) -> List[str]:
        """Delivers what is due, in the order in which it was sent, and what that sends, for at most so many waves."""
        outputs: List[str] = []
        for _ in range(waves):
            self.gather()
            due = [message for at, message in self.under_way if at <= self.round and message.receiver in self.group.running]
            self.under_way = [(at, message) for at, message in self.under_way if at > self.round]
            if not due:
                break
            outputs += self.group.play([f"deliver {message.number}" for message in due])
        self.gather()
        return outputs


class Clients:
    """Clients of which each asks for one session; each is another one, so each answer is an operation that was done."""

    def __init__(self, first: int) -> None:
        self.next = first
        self.open: Dict[int, None] = {}

    def ask(self, count: int) -> None:
        for _ in range(count):
            self.open[self.next] = None
            self.next += 1

    def give_up_all_but(self, count: int) -> None:
        self.open = dict(list(self.open.items())[-count:])

    def lines(self, members: Iterable[int]) -> List[str]:
        return [f"request {member} {client} 0 register" for client in self.open for member in members]

    def hear(self, outputs: List[str]) -> int:
        """How many of them were answered."""
        answered = 0
        for output in outputs:
            reply = reply_of(output.split(" "))
            if reply is not None and reply.words[0] == "op" and reply.client in self.open:
                del self.open[reply.client]
                answered += 1
        return answered


def leader_of(rounds: Iterable[List[str]]) -> Optional[int]:
    """The member that told most often in these rounds that it leads."""
    told: Dict[int, int] = {}
    for outputs in rounds:
        for output in outputs:
            words = output.split(" ")
            message = message_of(words)
            if message is not None and words[4] == "commit":
                told[message.sender] = told.get(message.sender, 0) + 1
    return max(told, key=told.__getitem__) if told else None
