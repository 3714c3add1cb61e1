"""The scenarios, one a line, and their recordings: groups of real members under strace that serve clients while members are killed and started."""

import os
import random
import threading
import time
from typing import Any, Callable, Dict, List, NamedTuple, Optional, Sequence, Tuple

from nozhgiva import Group, Retry, Session
from nozhgiva_tools.run import group, nets

from .damage import on_top
from .disk import Disk
from .reading import datafile
from .recording import Call, SECTOR, Traced
from .told import Log, Told

FIRST_TURNS = 40
CLIENTS, KEYS = 3, 8
# The longest values that are put, and the length of a file that an earlier program made, which grows at its next start.
LONGEST = {1: 900, 2: 2400}
YOUNG = 729_088


class Scenario(NamedTuple):
    """What is recorded: a group's size, its version, the mode of each member's file, how many puts, and what happens in a few words:

    fresh, its files are made; serve, two members are killed and started again while it serves; damage, a member comes back on a file with damage;
    jump, one was away and takes over a checkpoint; migrate, its files are moved to version 2; grow, they were made by an earlier program."""

    name: str
    size: int
    version: int
    modes: str
    puts: int
    story: str

    def mode(self, member: int) -> List[str]:
        return ["--careful"] if self.modes == "careful" or self.modes == "mixed" and member % 2 else []


SCENARIOS = [
    Scenario("fresh-strict", 3, 1, "strict", 0, "fresh"),
    Scenario("fresh-careful-v2", 3, 2, "careful", 0, "fresh"),
    Scenario("three-strict", 3, 1, "strict", 90, "serve"),
    Scenario("three-careful", 3, 1, "careful", 90, "serve"),
    Scenario("three-mixed", 3, 1, "mixed", 90, "serve"),
    Scenario("three-strict-v2", 3, 2, "strict", 90, "serve"),
    Scenario("three-careful-v2", 3, 2, "careful", 90, "serve"),
    Scenario("three-mixed-v2", 3, 2, "mixed", 90, "serve"),
    Scenario("one-strict-v2", 1, 2, "strict", 90, "serve"),
    Scenario("one-careful-v2", 1, 2, "careful", 90, "serve"),
    Scenario("two-strict", 2, 1, "strict", 90, "serve"),
    Scenario("four-mixed", 4, 1, "mixed", 90, "serve"),
    Scenario("five-strict", 5, 1, "strict", 90, "serve"),
    Scenario("six-careful-v2", 6, 2, "careful", 90, "serve"),
    Scenario("damage-strict", 3, 1, "strict", 90, "damage"),
    Scenario("damage-careful-v2", 3, 2, "careful", 90, "damage"),
    Scenario("jump-strict", 3, 1, "strict", 180, "jump"),
    Scenario("jump-mixed-v2", 3, 2, "mixed", 180, "jump"),
    Scenario("migrate-strict", 3, 1, "strict", 90, "migrate"),
    Scenario("migrate-careful", 3, 1, "careful", 90, "migrate"),
    Scenario("grow", 3, 1, "strict", 90, "grow"),
]


class Part(NamedTuple):
    """What was recorded of one member: its disk and what it had told where crash states are tried from, its calls from there on, and what it had told by
    each of its crash points."""

    disk: Disk
    told: Told
    calls: List[Call]
    accounts: List[Told]


class Recording(NamedTuple):
    scenario: Scenario
    parts: List[Part]
    log: Log


class Recorder(group.Group):
    """A group that is recorded, in a folder of its own: each member runs under strace."""

    def __init__(self, program: str, folder: str, port: int, scenario: Scenario, draw: random.Random) -> None:
        os.makedirs(folder)
        super().__init__(nets.Net(scenario.size, range(port, port + scenario.size)), "", version=scenario.version, program=program, folder=folder)
        self.scenario, self.draw = scenario, draw
        self.running: Dict[int, Traced] = {}
        self.calls: Dict[int, List[Call]] = {member: [] for member in range(scenario.size)}
        self.begin = dict.fromkeys(range(scenario.size), 0)
        self.traces = 0

    def trace(self, member: int, words: Sequence[str]) -> None:
        self.traces += 1
        self.running[member] = Traced(words, self.file(member), os.path.join(self.folder, f"trace-{self.traces}"))

    def start(self, member: int, *more: str, **how: Any) -> None:
        self.trace(member, self.words(member, *more))

    def make(self) -> None:
        """Makes the members' files, on which they then run for some turns."""
        for member in range(self.scenario.size):
            self.trace(member, self.words(member, "--fresh", *self.scenario.mode(member), turns=FIRST_TURNS))
        for member in range(self.scenario.size):
            self.await_end(member, "--fresh")

    def await_end(self, member: int, what: str) -> None:
        """Waits until a member ended by itself, and takes what it did into the recording."""
        traced = self.running.pop(member)
        code = traced.wait()
        self.take(member, traced)
        if code:
            raise TimeoutError(f"{what} of member {member} ends with {code}")

    def end(self, member: int) -> None:
        """Kills a member, if it runs, and takes what it did into the recording."""
        traced = self.running.pop(member, None)
        if traced is not None:
            traced.kill()
            self.take(member, traced)

    def take(self, member: int, traced: Traced) -> None:
        self.calls[member] += traced.calls()
        os.unlink(traced.trace)

    def end_all(self) -> None:
        for member in range(self.scenario.size):
            self.end(member)

    def begin_here(self) -> None:
        """Crash states are tried from here on. All members have to be ended."""
        self.begin = {member: len(calls) for member, calls in self.calls.items()}

    def spoil(self, member: int) -> None:
        """Damages an ended member's file, within what a disk may do, in several places."""
        for _ in range(4):
            report = datafile.Report(self.file(member))
            with open(self.file(member), "rb") as file:
                image = file.read()
            found = on_top(image, report, self.draw)
            if found is None:
                continue
            now = time.time()
            for sector in range(len(image) // SECTOR):
                piece = found[sector * SECTOR:(sector + 1) * SECTOR]
                if piece != image[sector * SECTOR:(sector + 1) * SECTOR]:
                    self.calls[member].append(Call("damage", now, now, sector, piece))
            with open(self.file(member), "wb") as file:
                file.write(found)

    def session(self, client: int) -> Session:
        retry = Retry(first=0.05, factor=1.2, most=0.3, jitter=0.5)
        return Group(self.number, self.addresses, version=self.version, timeout=90.0, retry=retry).register(client=client)

    def recording(self) -> Recording:
        ports = {port: member for member, port in enumerate(self.ports)}
        log = Log()
        for calls in self.calls.values():
            log.add(calls, ports)
        return Recording(self.scenario, [part_of(self.calls[member], self.begin[member]) for member in sorted(self.calls)], log)


def part_of(calls: List[Call], begin: int) -> Part:
    disk, told = Disk(), Told()
    for call in calls[:begin]:
        disk.take(call)
        told.take(call)
    return Part(disk, told, calls[begin:], accounts(told, calls[begin:]))


def is_point(calls: List[Call], at: int) -> bool:
    """Whether a crash is tried before this call: before each sync of the file or of its folder, and at the end."""
    return at == len(calls) or calls[at].kind in ("sync", "folder")


def accounts(told: Told, calls: List[Call]) -> List[Told]:
    """What a member had told by each crash point, of which it had told this much before."""
    told, found = told.copy(), []
    for at, call in enumerate(calls):
        if is_point(calls, at):
            found.append(told.copy())
        told.take(call)
    return [*found, told]


class Load:
    """Clients that put, each its own keys in turn, with values that begin with the number of the put."""

    def __init__(self, recorder: Recorder, puts: int, first: int = 1) -> None:
        self.recorder, self.done, self.failed = recorder, 0, ""
        self.threads = [threading.Thread(target=self.run, args=(first + at, puts // CLIENTS), daemon=True) for at in range(CLIENTS)]
        for thread in self.threads:
            thread.start()

    def run(self, client: int, puts: int) -> None:
        draw = random.Random(self.recorder.draw.random())
        try:
            with self.recorder.session(client) as session:
                for number in range(1, puts + 1):
                    session.put(key_of(client, number), value_of(number, draw.randrange(LONGEST[self.recorder.version])))
                    self.done += 1
        except Exception as error:  # of whatever kind: the recording is no use then, and it is said why
            self.failed = f"client {client}: {error}"

    def wait(self, count: Optional[int] = None, patience: float = 120.0) -> None:
        """Waits until so many puts are answered, or all."""
        end = time.monotonic() + patience
        while any(thread.is_alive() for thread in self.threads) if count is None else self.done < count:
            if self.failed or time.monotonic() > end:
                raise TimeoutError(self.failed or f"{self.done} puts are answered in {patience:g} s")
            time.sleep(0.005)
        if self.failed:
            raise TimeoutError(self.failed)


def key_of(client: int, number: int) -> str:
    return f"c{client}k{number % KEYS}"


def value_of(number: int, more: int) -> str:
    return f"{number}." + "v" * more


def fresh(recorder: Recorder) -> None:
    recorder.make()


def serve(recorder: Recorder) -> None:
    """Two members are killed in the midst of it, first the one that leads, and started again."""
    size, puts = recorder.scenario.size, recorder.scenario.puts
    made(recorder)
    for member in range(size):
        recorder.start(member)
    load = Load(recorder, puts)
    for count, member in ((puts // 4, 0), (puts // 2, 1 % size)):
        load.wait(count)
        recorder.end(member)
        if size > 2:
            time.sleep(0.7)
        recorder.start(member)
    load.wait()
    time.sleep(0.4)


def made(recorder: Recorder) -> None:
    """Makes the files, of which no crash states are tried: the scenarios that make files have them."""
    recorder.make()
    recorder.begin_here()


def damage(recorder: Recorder) -> None:
    """A member comes back on a file with damage, and the others give it what it lost; then the one that leads."""
    made(recorder)
    for member in range(recorder.scenario.size):
        recorder.start(member)
    load = Load(recorder, recorder.scenario.puts)
    for count, member in ((40, 2), (65, 0)):
        load.wait(count)
        recorder.end(member)
        recorder.spoil(member)
        recorder.start(member)
        time.sleep(3.0)
    load.wait()
    time.sleep(3.0)


def jump(recorder: Recorder) -> None:
    """A member is away for longer than the others' logs reach, and takes over their checkpoint."""
    made(recorder)
    for member in range(recorder.scenario.size):
        recorder.start(member)
    load = Load(recorder, recorder.scenario.puts)
    load.wait(20)
    recorder.end(2)
    load.wait()
    recorder.start(2)
    time.sleep(4.0)
    Load(recorder, 9, first=11).wait()
    time.sleep(0.4)


def served(recorder: Recorder) -> None:
    """A group that has served and is ended."""
    made(recorder)
    for member in range(recorder.scenario.size):
        recorder.start(member)
    Load(recorder, recorder.scenario.puts).wait()
    time.sleep(0.4)
    recorder.end_all()
    recorder.begin_here()


def migrate(recorder: Recorder) -> None:
    served(recorder)
    for member in range(recorder.scenario.size):
        recorder.trace(member, group.migrate_words(recorder.program, recorder.number, member, recorder.size, recorder.file(member)))
        recorder.await_end(member, "migrate")


def grow(recorder: Recorder) -> None:
    """Files as an earlier program left them, which are shorter, are started."""
    served(recorder)
    for member in range(recorder.scenario.size):
        os.truncate(recorder.file(member), YOUNG)
        recorder.calls[member].append(Call("cut", time.time(), time.time(), YOUNG))
        recorder.start(member)
    time.sleep(1.5)


STORIES: Dict[str, Callable[[Recorder], None]] = {"fresh": fresh, "serve": serve, "damage": damage, "jump": jump, "migrate": migrate, "grow": grow}


def record(program: str, folder: str, port: int, scenario: Scenario, seed: int) -> Recording:
    """Runs a scenario and records it. Raises `TimeoutError` where the group doesn't do what it is to."""
    recorder = Recorder(program, folder, port, scenario, random.Random(f"{seed} {scenario.name}"))
    try:
        STORIES[scenario.story](recorder)
    finally:
        recorder.end_all()
        for member in range(scenario.size):
            if os.path.exists(recorder.file(member)):
                os.unlink(recorder.file(member))
    return recorder.recording()


def chosen(words: Sequence[str]) -> Tuple[List[Scenario], List[str]]:
    """The scenarios whose names begin with one of these words, all where there are none; and the words that no name begins with."""
    found = [it for it in SCENARIOS if not words or any(it.name.startswith(word) for word in words)]
    return found, [word for word in words if not any(it.name.startswith(word) for it in SCENARIOS)]
