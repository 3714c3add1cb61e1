"""A group in one process, by the command `replay`: schedules are played line by line, and groups are run on in time that is counted and not waited for.

What each replica puts out is handed on as the lines of a member, with the time at which it would have been written."""

import heapq
import itertools
import subprocess
from functools import partial
from typing import Callable, Dict, Iterable, List, Optional, Set, Tuple

from nozhgiva_tools.told.lines import applied_of, message_of, owner_of, reply_of, Sent, value

TICK = 0.1  # seconds from tick to tick
MARK = "damage 0 1423"  # a sector that belongs to no block of any state: the line changes nothing that is looked at, and answers
FAULTS = ("damage", "stale", "unread", "misdirect")  # lines that answer `done` or `kept out`
AT_ONCE = 40  # lines, of which none has more than 1,135 bytes, so that they fit into a pipe
AGAIN = 0.5  # seconds; so long a client waits for an answer before it asks again
SAVE = 4  # syncs of a save of the superblock
STORE = 2  # syncs of an entry that is stored
CHECKPOINT = 32  # operations from one checkpoint to the next


class Replay:
    """The command `replay`, line by line."""

    def __init__(self, program: str) -> None:
        self.child = subprocess.Popen([program, "replay"], stdin=subprocess.PIPE, stdout=subprocess.PIPE, stderr=subprocess.PIPE)
        assert self.child.stdin is not None and self.child.stdout is not None and self.child.stderr is not None
        self.given, self.put_out, self.errors = self.child.stdin, self.child.stdout, self.child.stderr

    def play(self, line: str) -> List[str]:
        """The outputs of one line; ValueError where it is refused."""
        return self.play_some([line])

    def play_all(self, lines: List[str]) -> List[str]:
        """The outputs of many lines, a few at a time, so that neither side waits for the other to read."""
        return [output for at in range(0, len(lines), AT_ONCE) for output in self.play_some(lines[at:at + AT_ONCE])]

    def play_some(self, lines: List[str]) -> List[str]:
        """The outputs of at most AT_ONCE lines."""
        self.given.write("".join(f"{line}\n" for line in lines + [MARK]).encode())
        self.given.flush()
        outputs: List[str] = []
        answers = sum(line.split(" ", 1)[0] in FAULTS for line in lines)
        for text in iter(self.put_out.readline, b""):
            output = text.decode().rstrip("\n")
            if output in ("done", "kept out"):
                if answers == 0:
                    return outputs
                answers -= 1
            outputs.append(output)
        raise ValueError(f"{' / '.join(lines)}: {self.errors.read().decode().strip()}")

    def end(self) -> None:
        self.given.close()
        self.put_out.close()
        self.errors.close()
        self.child.wait()


def schedule_of(text: str) -> Tuple[List[str], Dict[str, str]]:
    """The lines of a schedule, and what its comments `# WORD: ..` say, by the word."""
    lines, said = [], {}
    for line in text.split("\n"):
        if line.startswith("# ") and ": " in line:
            word, rest = line[2:].split(": ", 1)
            said[word] = rest
        elif line and not line.startswith(("#", " ")):
            lines.append(line)
    return lines, said


def cuts_of(text: str) -> Set[Tuple[int, int]]:
    """`1 to 0, 2 to 0`: the ways that bring no message."""
    return {(int(a), int(b)) for a, b in (way.strip().split(" to ") for way in text.split(",") if way.strip())}


class Client:
    """One client of a group of so many members: it registers, puts values of `size` bytes, each `pause` seconds after the answer before, and asks
    again where no answer comes."""

    def __init__(self, number: int, members: int, pause: float, size: int = 1) -> None:
        self.number, self.members, self.pause, self.size = number, members, pause, size
        self.request = 0
        self.answered = 0
        self.leader = 0
        self.first: Optional[float] = None  # when it was answered first
        self.longest = 0.0  # seconds without an answer
        self.since = 0.0  # when it was answered last

    def line(self, member: int) -> str:
        if self.request == 0:
            return f"request {member} {self.number} 0 register"
        value = (f"v{self.request}-" * self.size)[:self.size] if self.size > 1 else f"v{self.request}"
        return f"request {member} {self.number} {self.request} put k{(self.number * 31 + self.request) % 100} {value}"

    def hear(self, now: float, output: str) -> bool:
        """Whether this output answers what it asks."""
        reply = reply_of(output.split(" "))
        if reply is None or reply.client != self.number or reply.request != self.request:
            return False
        if reply.words[0] == "redirect":
            self.leader = int(reply.words[1]) % self.members
        if reply.words[0] != "op":
            return False
        self.longest = max(self.longest, now - self.since)
        self.first = now if self.first is None else self.first
        self.since = now
        self.request += 1
        self.answered += 1
        return True


class Group:
    """A group that is run on in counted time.

    Each member does one thing after the other; what it does takes as many syncs as the rules make, each of `sync` seconds; a message takes `way`
    seconds. `hears` is handed each output, with the time at which its member would have written it."""

    def __init__(self, replay: Replay, hears: Callable[[float, int, str], None], sync: float = 0.0, way: float = 0.001) -> None:
        self.replay, self.hears, self.sync, self.way = replay, hears, sync, way
        self.size = 0
        self.now = 0.0
        self.free: Dict[int, float] = {}  # from when on a member does the next thing
        self.lives: Dict[int, int] = {}  # how often it was started
        self.views: Dict[int, int] = {}  # the last view that it said to enter
        self.stored: Set[Tuple[int, int, int]] = set()  # member, op and made view of the entries that were stored
        self.running: Set[int] = set()
        self.cuts: Set[Tuple[int, int]] = set()
        self.clients: List[Client] = []
        self.held = False  # whether the clients ask nothing new
        self.events: List[Tuple[float, int, Optional[int], Callable[[float], object]]] = []  # when, which one of them, whose, and what
        self.order = itertools.count()

    # A schedule as it was recorded.

    def begin(self, size: int) -> None:
        self.replay.play(f"cluster {size}")
        self.size, self.running = size, set(range(size))
        self.free = {member: 0.0 for member in range(size)}
        self.lives = {member: 0 for member in range(size)}
        self.views = {member: 0 for member in range(size)}

    def follow(self, lines: Iterable[str]) -> None:
        """Plays the lines of a schedule; a member's time goes on by its ticks alone. Messages that the schedule doesn't deliver are lost."""
        for line in lines:
            words = line.split(" ")
            if words[0] == "cluster":
                self.begin(int(words[1]))
                continue
            if words[0] == "tick":
                self.free[int(words[1])] += TICK
            elif words[0] == "stop":
                self.running.discard(int(words[1]))
            elif words[0] == "start":
                self.running.add(int(words[1]))
            for output in self.replay.play(line):
                self.tell(output)
        self.now = max(self.free.values())
        self.free = {member: self.now for member in range(self.size)}

    def tell(self, output: str) -> None:
        """An output of a schedule's line; a member whose fuse fired is stopped."""
        if output in ("done", "kept out"):
            return
        member = owner_of(output.split(" ", 3))
        if output.startswith("halt "):
            self.running.discard(member)
        self.hears(self.free[member], member, output)

    # Running on.

    def plan(self, at: float, what: Callable[[float], object], member: Optional[int] = None) -> None:
        """What is done at a time; where it is a member's, as soon as that member is free."""
        heapq.heappush(self.events, (at, next(self.order), member, what))

    def go_on(self, seconds: float) -> None:
        """Runs on for so many seconds: ticks of the members that run, messages, clients."""
        end = self.now + seconds
        while self.events and self.events[0][0] <= end:
            at, _, member, what = heapq.heappop(self.events)
            if member is not None and self.free[member] > at:
                self.plan(self.free[member], what, member)
                continue
            self.now = at
            what(at)
        self.now = end

    def let_run(self, member: int) -> None:
        """A member that runs ticks from now on."""
        self.lives[member] += 1
        life = self.lives[member]
        self.plan(self.now + TICK * (1 + member / 10), lambda at: self.tick(at, member, life), member)

    def start_all(self) -> None:
        for member in sorted(self.running):
            self.let_run(member)

    def tick(self, now: float, member: int, life: int) -> None:
        if member not in self.running or life != self.lives[member]:
            return
        self.do(now, member, f"tick {member}")
        self.plan(max(now + TICK, self.free[member]), lambda at: self.tick(at, member, life), member)

    def do(self, now: float, member: int, line: str) -> List[str]:
        """One line of one member: its outputs leave once its syncs are done."""
        outputs = self.replay.play(line)
        self.free[member] = now + self.sync * self.syncs_of(member, outputs)
        for output in outputs:
            self.put_out(self.free[member], member, output)
        return outputs

    def put_out(self, now: float, member: int, output: str) -> None:
        self.hears(now, member, output)
        message = message_of(output.split(" ", 4))
        if message is None:
            for client in self.clients:
                if client.hear(now, output):
                    self.plan(now + client.pause, partial(self.ask, client))
        elif (message.sender, message.receiver) not in self.cuts:
            self.plan(now + self.way, partial(self.deliver, message), message.receiver)

    def deliver(self, message: Sent, now: float) -> None:
        if message.receiver in self.running and (message.sender, message.receiver) not in self.cuts:
            self.do(now, message.receiver, f"deliver {message.number}")

    def add(self, client: Client) -> None:
        client.since = self.now
        self.clients.append(client)
        self.ask(client, self.now)

    def ask(self, client: Client, now: float) -> None:
        """Asks the member that a client takes to lead; where no answer has come after AGAIN seconds, the next one."""
        request, member = client.request, client.leader
        if self.held:
            self.plan(now + TICK, partial(self.ask, client))
            return
        self.plan(now + self.way, lambda at: self.request(at, client, request, member), member)
        self.plan(now + AGAIN, lambda at: self.ask_again(at, client, request, member))

    def request(self, now: float, client: Client, request: int, member: int) -> None:
        if request != client.request or member not in self.running:
            return
        outputs = self.do(now, member, client.line(member))
        if any(" redirect " in output for output in outputs) and client.leader != member:
            self.plan(now + self.way, lambda at: self.request(at, client, request, client.leader), client.leader)

    def ask_again(self, now: float, client: Client, request: int, member: int) -> None:
        if request != client.request:
            return
        if client.leader == member:
            client.leader = (member + 1) % self.size
        self.ask(client, now)

    def stop(self, member: int) -> None:
        self.running.discard(member)
        self.replay.play(f"stop {member}")

    def start(self, member: int) -> None:
        """A stopped member is started again, and ticks from now on."""
        if member in self.running:
            return
        self.running.add(member)
        self.free[member] = self.now
        self.do(self.now, member, f"start {member}")
        self.let_run(member)

    def syncs_of(self, member: int, outputs: List[str]) -> int:
        """How many syncs a line makes, by what it puts out: entries that are stored, a save of the superblock, a checkpoint."""
        count = SAVE if any(output.startswith(("choose ", "start ")) for output in outputs) else 0
        for output in outputs:
            words = output.split(" ")
            applied, is_sent = applied_of(words), message_of(words) is not None
            if applied is not None and applied.op % CHECKPOINT == 0:
                count += 1 + SAVE
            elif is_sent and words[4] == "start_view_change" and value(words, "view") > self.views[member]:
                self.views[member] = value(words, "view")
                count += SAVE
            elif is_sent and words[4] in ("prepare", "prepare_ok"):
                count += self.store(member, value(words, "op"), value(words, "made"))
        return count

    def store(self, member: int, op: int, made: int) -> int:
        """The syncs of an entry that a member has or gets: none where it was stored before."""
        if (member, op, made) in self.stored:
            return 0
        self.stored.add((member, op, made))
        return STORE
