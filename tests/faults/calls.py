"""Failing calls: the K-th call of a kind answers an error, or does a part of what it should, once or from then on; for each K of a whole run."""

from __future__ import annotations

import random
import threading
from pathlib import Path
from typing import Dict, FrozenSet, Iterator, List, NamedTuple, Optional, Tuple

from nozhgiva_tools.run.group import migrate_words
from nozhgiva_tools.told import datafile
from nozhgiva_tools.told.ends import Code, TEXTS

from .members import HANGS, Members, prepare, Prepared, run
from .shim import ALWAYS, Fault, read_counts, Shim
from .table import LeftOut, Outcome, Scenario, UNTOUCHED

GOES_ON, DISK, OUTPUT, LINK, LOST, MEMORY, OCCUPIED = map(int, (
    Code.DONE, Code.DISK_FAULT, Code.WRITE_FAULT, Code.LINK_FAULT, Code.SUPER_LOST, Code.NO_MEMORY, Code.OCCUPIED))
NO_COMPILER = "no C compiler, so that no call can be made to fail"
MEANINGS = {GOES_ON: "goes on", **{code: f"{code} {TEXTS[Code(code)]}" for code in (OUTPUT, DISK, LINK, LOST, MEMORY, OCCUPIED)}}
PASSES = 100  # so often a call is interrupted
TURNS, ASKS = "4", 10
TRIES = 3  # of a run without a fault, which a busy machine may hold up
PATIENCE = 15.0  # seconds in which a group of three answers though one of its members fails
ALONE_PATIENCE, LONG_PATIENCE = 1.0, 60.0
ENDING = 20.0  # seconds in which a member ends whose call has failed so that it has to; it tries to write its lines again for one


class Rule(NamedTuple):
    """What is promised where calls of a kind fail in one of some ways: how a member may end then, once and from then on."""

    call: str
    ways: str
    once: FrozenSet[int]
    on: FrozenSet[int]
    runs: str = ""  # of which runs; of all where it is empty
    times: int = ALWAYS  # how often such a call fails where it goes on to


HOLDS_UP = ("receive", "accept", "poll", "watch", "read")
"""A member that is heard and hears nobody, or can read nothing any more, holds its group up as long as it leads, which a keeper ends: so nothing is promised
of the others meanwhile."""


def ends(*codes: int) -> FrozenSet[int]:
    return frozenset(codes)


RULES = (
    # A file that can't be opened, looked at, locked, written, synced or made longer: 7. Its folder alone may fail where the file was there before.
    Rule("open", "EIO EMFILE late", ends(DISK), ends(DISK)),
    Rule("open", "EINTR", ends(GOES_ON), ends(GOES_ON), times=PASSES),
    Rule("stat", "EIO late", ends(DISK), ends(DISK)),
    Rule("lock", "EIO ENOLCK late", ends(DISK), ends(DISK)),
    Rule("write", "EIO ENOSPC late torn", ends(DISK), ends(DISK)),
    Rule("write", "EAGAIN", ends(DISK, GOES_ON), ends(DISK)),
    Rule("write", "EINTR", ends(GOES_ON), ends(GOES_ON), times=PASSES),
    Rule("write", "short", ends(GOES_ON), ends(GOES_ON)),
    Rule("sync", "EIO ENOSPC late", ends(DISK), ends(DISK)),
    Rule("sync", "EINTR", ends(GOES_ON), ends(GOES_ON), times=PASSES),
    Rule("length", "EIO ENOSPC late", ends(DISK), ends(DISK)),
    Rule("length", "EINTR", ends(GOES_ON), ends(GOES_ON), times=PASSES),
    # What can't be read isn't known, and a member goes on without it; one that can read nothing of its superblock is lost.
    Rule("read", "EIO EAGAIN late", ends(GOES_ON), ends(GOES_ON, LOST)),
    Rule("read", "EINTR", ends(GOES_ON), ends(GOES_ON), times=PASSES),
    Rule("read", "short", ends(GOES_ON), ends(GOES_ON)),
    # Its lines: 6.
    Rule("say", "EIO ENOSPC late", ends(OUTPUT), ends(OUTPUT), "node"),
    Rule("say", "EINTR EAGAIN", ends(GOES_ON), ends(OUTPUT), "node"),
    Rule("say", "short", ends(GOES_ON), ends(GOES_ON), "node"),
    # Sockets that can't be had: 8. What isn't sent or received is lost, as a network loses it; receiving that fails: 8, of one stream its end.
    Rule("socket", "EMFILE", ends(LINK), ends(LINK), "fresh node"),
    Rule("bind", "EADDRINUSE", ends(LINK), ends(LINK), "fresh node"),
    Rule("watch", "EIO EMFILE", ends(MEMORY, LINK, GOES_ON), ends(MEMORY, LINK, GOES_ON)),
    Rule("connect", "EIO ECONNREFUSED", ends(GOES_ON), ends(GOES_ON), "tcp"),
    Rule("accept", "EIO EMFILE EINTR EAGAIN ECONNABORTED late", ends(GOES_ON), ends(GOES_ON), "tcp"),
    Rule("poll", "EIO", ends(LINK), ends(LINK), "tcp"),
    Rule("poll", "EINTR", ends(GOES_ON), ends(GOES_ON), "tcp"),
    Rule("send", "EIO ENOBUFS EINTR EAGAIN late", ends(GOES_ON), ends(GOES_ON), "node"),
    Rule("send", "short", ends(GOES_ON), ends(GOES_ON), "tcp"),
    Rule("receive", "EIO", ends(LINK), ends(LINK), "udp"),
    Rule("receive", "EINTR EAGAIN short", ends(GOES_ON), ends(GOES_ON), "udp"),
    Rule("receive", "EIO EINTR EAGAIN short late", ends(GOES_ON), ends(GOES_ON), "tcp"),
    Rule("clock", "EIO", ends(GOES_ON), ends(GOES_ON), "node"),
)


def may_end(rule: Rule, fault: Fault, is_found: bool) -> FrozenSet[int]:
    """How a run may end. The second file that is opened, and synced, is the folder: it may fail where the data file was there before. Over TCP sockets
    after the first are streams to others."""
    if fault.at == 2 and is_found and (rule.call == "open" or rule.call == "sync" and fault.times == 1):
        return ends(GOES_ON)
    if rule.call == "socket" and fault.at > 1:
        return ends(GOES_ON)
    return rule.once if fault.times == 1 else rule.on


def meaning(code: Optional[int]) -> str:
    if code == HANGS:
        return "hangs"
    return MEANINGS.get(code or 0, f"ended by signal {-code}" if code and code < 0 else f"ends with {code}")


class Store:
    """Files that are prepared when they are first needed."""

    def __init__(self, folder: Path, port: int) -> None:
        self.folder, self.port, self.lock = folder, port, threading.Lock()
        self.made: Dict[Tuple[int, int], Prepared] = {}

    def of(self, size: int, version: Optional[int] = None) -> Prepared:
        """A group of one, of version 2, or a group of three, of version 1 where it isn't said."""
        key = size, version or (2 if size == 1 else 1)
        with self.lock:
            if key not in self.made:
                self.made[key] = prepare(self.folder / "-".join(map(str, key)), self.port, *key)
            return self.made[key]


def end(members: Members, r: int, env: Dict[str, str]) -> Optional[int]:
    """Ends a member in which a call was to fail; its exit code where it ended by itself, None where it went on. It is held first: where the call has failed, and the member has to
    end, it is given time, since the last call of a run may fail as the last answer comes; where it hasn't, none fails from here on."""
    members.hold(r)
    has_to = env.get("FAULT_ENDS") == "1" and read_counts(env["FAULT_COUNTS"]).disturbed > 0
    return members.finish(r, ENDING if has_to else 0.0)


class Run:
    """A whole run of a command, in which one call fails. `tags` says which rules are of it."""

    name, tags, is_found = "", "", True

    def __init__(self, shim: Optional[Shim], store: Store, port: int) -> None:
        self.given, self.store, self.port = shim, store, port
        self.counted: Dict[str, int] = {}
        self.amiss = ""  # what is wrong of it without a fault

    @property
    def shim(self) -> Shim:
        if self.given is None:
            raise LeftOut(NO_COMPILER)
        return self.given

    def members(self, lane: int) -> Members:
        raise NotImplementedError

    def disturb(self, members: Members, env: Dict[str, str], number: int) -> Tuple[Optional[int], Outcome]:
        """Runs it in this environment; how the disturbed process ended, and what was found afterwards, without a fault."""
        raise NotImplementedError

    def count(self, lane: int) -> None:
        """Counts the calls of each kind that it makes where none fails, which has to go well."""
        for _ in range(TRIES):
            with self.members(lane) as members:
                counts = f"{members.folder}/counts"
                code, outcome = self.disturb(members, self.shim.environment(counts), 0)
                self.counted = read_counts(counts).of
            self.amiss = "" if not (code or outcome.wrong or outcome.lost) else f"without a fault it ends with {code}: {outcome.wrong or 'what was answered is lost'}"
            if not self.amiss:
                break

    def go(self, lane: int, rule: Rule, fault: Fault) -> Outcome:
        with self.members(lane) as members:
            counts = f"{members.folder}/counts"
            allowed = may_end(rule, fault, self.is_found)
            code, after = self.disturb(members, self.shim.failing(counts, fault, FAULT_ENDS=int(GOES_ON not in allowed)), fault.at)
            if not read_counts(counts).disturbed:
                return UNTOUCHED
        ended = code or GOES_ON
        wrong = after.wrong if ended in allowed else f"{meaning(code)}, where it {' or '.join(meaning(one) for one in sorted(allowed))}; {after.wrong}".rstrip("; ")
        return after._replace(happened=meaning(code), code=code, wrong=wrong)


class Fresh(Run):
    """`--fresh`: the next one makes the file, or finds it made, and then it is a member's."""

    name, tags, is_found = "--fresh", "fresh udp", False

    def members(self, lane: int) -> Members:
        return Members(self.port + 8 * lane, 1, "", 2)

    def disturb(self, members: Members, env: Dict[str, str], number: int) -> Tuple[Optional[int], Outcome]:
        code = members.run(0, TURNS, "--fresh", env=env)
        again = members.run(0, TURNS, "--fresh")
        started = members.run(0, TURNS)
        if again not in (GOES_ON, OCCUPIED) or started != GOES_ON:
            return code, Outcome("", wrong=f"then --fresh ends with {again}, and a start with {started}")
        return code, Outcome("", wrong=members.is_whole(0, 0))


class Content(NamedTuple):
    """What a file holds: its keys, and the operations of its log that are there."""

    pairs: Tuple[Tuple[str, str], ...]
    here: FrozenSet[int]

    @staticmethod
    def of(report: datafile.Report) -> "Content":
        return Content(tuple(report.checkpoint.pairs()) if report.checkpoint.keys is not None else (), frozenset(report.slots.found["here"]))


class Migrate(Run):
    """`migrate`: the next one ends with 0, and then the file has all that it had."""

    name, tags = "migrate", "migrate"

    def members(self, lane: int) -> Members:
        members = Members(self.port + 8 * lane, 3)
        members.lay(self.store.of(3))
        return members

    def disturb(self, members: Members, env: Dict[str, str], number: int) -> Tuple[Optional[int], Outcome]:
        path = members.file(0)
        words, before = migrate_words(members.program, members.number, 0, 3, path), Content.of(datafile.look(path))
        code, again = run(words, env), run(words)
        report = datafile.look(path)
        if again != GOES_ON or report.value is None or report.value.version != 2:
            return code, Outcome("", wrong=f"then it ends with {again}: {report.health()}")
        after = Content.of(report)
        lost = len(before.here - after.here) + len(set(before.pairs) - set(after.pairs))
        if lost and env.get("FAULT_CALL") == "read" and int(env["FAULT_TIMES"]) > 1:
            return code, Outcome("")  # What can't be read, however often, is lost to this member: migrate-group looks, and says so.
        return code, Outcome("", lost=lost)


class Alone(Run):
    """A group of one: all that it answered has to be there in its own file."""

    def __init__(self, shim: Optional[Shim], store: Store, port: int, scheme: str) -> None:
        super().__init__(shim, store, port)
        self.scheme = scheme
        self.name, self.tags = f"node, a group of one over {'TCP' if scheme else 'UDP'}", f"node {'tcp' if scheme else 'udp'}"

    def members(self, lane: int) -> Members:
        members = Members(self.port + 8 * lane, 1, self.scheme, 2)
        members.lay(self.store.of(1))
        return members

    def disturb(self, members: Members, env: Dict[str, str], number: int) -> Tuple[Optional[int], Outcome]:
        account = members.account("c", self.store.of(1).history, number)
        members.start(0, env=env)
        account.work(ASKS, ALONE_PATIENCE, lambda: members.has_ended(0))
        account.close()
        code = end(members, 0, env)
        members.start(0)
        whole = account.read_all(LONG_PATIENCE)
        account.close()
        wrong, lost = "" if whole else "started again without a fault it doesn't answer", len(account.lost())
        return code, Outcome("", wrong=wrong or ("" if lost else members.is_whole(0)), lost=lost)


class Three(Run):
    """A member of a group of three: the others answer meanwhile, and once it is started again it is one of two that do."""

    def __init__(self, shim: Optional[Shim], store: Store, port: int, scheme: str) -> None:
        super().__init__(shim, store, port)
        self.scheme = scheme
        self.name, self.tags = f"node, one of three over {'TCP' if scheme else 'UDP'}", f"node {'tcp' if scheme else 'udp'}"

    def members(self, lane: int) -> Members:
        members = Members(self.port + 8 * lane, 3, self.scheme)
        members.lay(self.store.of(3))
        return members

    def disturb(self, members: Members, env: Dict[str, str], number: int) -> Tuple[Optional[int], Outcome]:
        draw = random.Random(number)
        bad, *others = draw.sample(range(3), 3)
        account = members.account("c", self.store.of(3).history, number)
        for r in range(3):
            members.start(r, env=env if r == bad else None)
        done = account.work(ASKS, PATIENCE)
        code = end(members, bad, env)
        members.start(bad)
        account.put(PATIENCE)
        members.finish(others[0])
        whole = account.read_all(LONG_PATIENCE)
        account.close()
        holds_up = env.get("FAULT_CALL") in HOLDS_UP and int(env["FAULT_TIMES"]) > 1
        wrong = "the other two don't answer" if done < ASKS and not holds_up else "" if whole else "started again without a fault it and another one don't answer"
        return code, Outcome("", wrong=wrong or members.is_whole(bad), lost=len(account.lost()))


def runs(shim: Optional[Shim], store: Store, port: int) -> List[Run]:
    plain: List[Run] = [Fresh(shim, store, port), Migrate(shim, store, port)]
    return plain + [of(shim, store, port, scheme) for of in (Alone, Three) for scheme in ("", "tcp:")]


def is_of(rule: Rule, run: Run) -> bool:
    return not rule.runs or any(tag in run.tags.split() for tag in rule.runs.split())


def exception(rule: Rule, one: Run) -> str:
    """What `may_end` says of the folder and of streams to others, in words."""
    if one.is_found and rule.call in ("open", "sync") and DISK in rule.once:
        return ", goes on where it is its folder's"
    return ", goes on where it is a stream's to another" if rule.call == "socket" and "tcp" in one.tags else ""


def scenario(one: Run, rule: Rule, way: str, times: int, seed: int) -> Scenario:
    """One row: the run, the call, the way, once or from then on; its tries are all K, in an order drawn from the seed."""
    name = f"{one.name}: {rule.call} {way} {'once' if times == 1 else 'on' if times == ALWAYS else f'{times} times'}"
    promise = " or ".join(meaning(code) for code in sorted(rule.once if times == 1 else rule.on)) + exception(rule, one)

    def numbers() -> List[int]:
        if one.amiss:
            raise RuntimeError(one.amiss)
        found = list(range(1, one.counted[rule.call] + 1))
        random.Random(f"{seed} {name}").shuffle(found)
        return found

    return Scenario(name, promise, numbers, lambda lane, number: one.go(lane, rule, Fault(rule.call, way, number, times)), before=one.count)


def scenarios(shim: Optional[Shim], store: Store, port: int, seed: int) -> Iterator[Scenario]:
    for one in runs(shim, store, port):
        for rule in RULES:
            if is_of(rule, one):
                for way in rule.ways.split():
                    for times in (1, rule.times):
                        yield scenario(one, rule, way, times, seed)
