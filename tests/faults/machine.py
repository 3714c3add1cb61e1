"""The oddities of a machine: signals, clocks that jump or race, few descriptors, little memory and stack, outputs that are full, files that are moved or cut."""

from __future__ import annotations

import os
import random
import resource
import signal
import subprocess
import tempfile
import time
from functools import partial
from typing import Callable, Dict, FrozenSet, Iterator, List, Optional, Sequence, Tuple

from .account import Account
from .calls import DISK, GOES_ON, LINK, LOST, meaning, MEMORY, NO_COMPILER, OUTPUT, Store
from .members import ENDS, HANGS, Members
from .shim import Shim
from .table import LeftOut, Outcome, Scenario

PATIENCE = 60.0
IGNORED = frozenset({signal.SIGCHLD, signal.SIGCONT, signal.SIGURG, signal.SIGWINCH, signal.SIGPIPE})
"""Signals that end no process by themselves, and the one that the program has switched off."""
STOPS = frozenset({signal.SIGSTOP, signal.SIGTSTP, signal.SIGTTIN, signal.SIGTTOU})
FLOOD = 5_000  # signals
DESCRIPTORS = (7, 6, 5, 4, 3, *range(8, 14), 20, 40, 60, 70, 75, 80, 100)
PAGE = 4096
LEAST_STACK = 32 << 10  # bytes; with much less the system starts no program at all
EXEC_FAILED = 127  # the loader's, or that of a program that couldn't be started


class Machine:
    """What these rows need."""

    def __init__(self, store: Store, shim: Optional[Shim], port: int) -> None:
        self.store, self.shim, self.port = store, shim, port

    def group(self, lane: int, scheme: str = "") -> Members:
        members = Members(self.port + 8 * lane, 3, scheme)
        members.lay(self.store.of(3))
        return members

    def alone(self, lane: int, scheme: str = "") -> Members:
        members = Members(self.port + 8 * lane, 1, scheme, 2)
        members.lay(self.store.of(1))
        return members

    def with_bad_one(self, lane: int, number: int, what: Callable[[Members, int, Account], str], allowed: FrozenSet[int], scheme: str = "", needs_answers: bool = True,
                     **how: object) -> Outcome:
        """A group of three, to one of whose members something is done; then it is started again, another one is ended, and all keys are read."""
        draw = random.Random(number)
        bad, *others = draw.sample(range(3), 3)
        with self.group(lane, scheme) as members:
            account = members.account("c", self.store.of(3).history, number)
            for r in range(3):
                members.start(r, **(how if r == bad else {}))
            account.work(4, PATIENCE)
            happened = what(members, bad, account)
            done = account.work(8, PATIENCE)
            code = members.finish(bad)
            members.start(bad)
            account.put(PATIENCE)
            members.finish(others[0])
            whole = account.read_all(PATIENCE)
            account.close()
            wrong = "" if (code or GOES_ON) in allowed else f"{meaning(code)}, where it {' or '.join(meaning(one) for one in sorted(allowed))}"
            wrong = wrong or ("the others don't answer" if done < 8 and needs_answers else "") or ("" if whole else "started again it and another one don't answer") or members.is_whole(bad)
            return Outcome(happened or meaning(code), code, wrong, len(account.lost()))


def send(members: Members, r: int, number: int) -> None:
    """Sends a signal, and lets it have its effect."""
    members.process(r).send_signal(number)
    time.sleep(0.1)


def try_signal(machine: Machine, lane: int, number: int) -> Outcome:
    """One signal, whichever it is, to a member at work; one that stopped goes on a second later."""
    def what(members: Members, bad: int, account: Account) -> str:
        send(members, bad, number)
        if number in STOPS:
            account.work(4, PATIENCE)
            members.process(bad).send_signal(signal.SIGCONT)
        return ""

    allowed = frozenset({GOES_ON}) if number in IGNORED | STOPS else frozenset({-number})
    outcome = machine.with_bad_one(lane, number, what, allowed)
    return outcome._replace(happened="ended by it") if outcome.code == -number else outcome


def all_signals() -> List[int]:
    return sorted(int(number) for number in signal.valid_signals() if number != signal.SIGKILL)


def try_flood(machine: Machine, lane: int, number: int) -> Outcome:
    """Thousands of signals that end nothing, while the group is asked; each interrupts what the member waits for."""
    def what(members: Members, bad: int, account: Account) -> str:
        draw = random.Random(number)
        for count in range(FLOOD):
            members.process(bad).send_signal(draw.choice(sorted(IGNORED)))
            if count % 500 == 0:
                account.put(PATIENCE)
        return ""

    return machine.with_bad_one(lane, number, what, frozenset({GOES_ON}))


def try_stop_and_go(machine: Machine, lane: int, number: int) -> Outcome:
    """Each member stops and goes on again and again, all at one time too."""
    def what(members: Members, bad: int, account: Account) -> str:
        draw = random.Random(number)
        for _ in range(12):
            stopped = draw.sample(range(3), draw.randrange(1, 4))
            for r in stopped:
                members.process(r).send_signal(signal.SIGSTOP)
            time.sleep(draw.uniform(0, 0.3))
            for r in stopped:
                members.process(r).send_signal(signal.SIGCONT)
            account.put(PATIENCE)
        return ""

    return machine.with_bad_one(lane, number, what, frozenset({GOES_ON}))


CLOCKS: Dict[str, Dict[str, object]] = {
    "jumps an hour ahead": {"CLOCK_BY": 3600},
    "jumps an hour back": {"CLOCK_BY": -3600},
    "jumps a hundred years ahead": {"CLOCK_BY": 3.2e9},
    "goes a hundred times as fast": {"CLOCK_RATE": 100},
    "goes a tenth as fast": {"CLOCK_RATE": 0.1},
    "stands still": {"CLOCK_RATE": 0},
    "goes backward": {"CLOCK_RATE": -1},
}


def try_clock(machine: Machine, how: Dict[str, object], lane: int, number: int) -> Outcome:
    """The monotonic clock of one member, from its 300th look on."""
    if machine.shim is None:
        raise LeftOut(NO_COMPILER)

    def what(members: Members, bad: int, account: Account) -> str:
        account.work(40, PATIENCE)
        return ""

    with tempfile.NamedTemporaryFile() as counts:
        return machine.with_bad_one(lane, number, what, frozenset({GOES_ON}), env=machine.shim.environment(counts.name, CLOCK_AT=300, **how))


def limited(kind: int, most: int) -> Callable[[], None]:
    return lambda: resource.setrlimit(kind, (most, most))


def try_descriptors(machine: Machine, scheme: str, lane: int, number: int) -> Outcome:
    """A group of one with so few descriptors: it says that it can't, or it answers."""
    with machine.alone(lane, scheme) as members:
        account = members.account("c", machine.store.of(1).history, number)
        members.start(0, preexec_fn=limited(resource.RLIMIT_NOFILE, number))
        done = account.work(4, 5.0, lambda: members.has_ended(0))
        account.close()
        code = members.finish(0)
        allowed = {DISK, LINK, MEMORY, EXEC_FAILED} | ({GOES_ON} if done == 4 else set())
        wrong = "" if (code or GOES_ON) in allowed else f"it {meaning(code)} and answers nobody"
        return Outcome("answers" if code is None and done == 4 else meaning(code), code, wrong)


def run_limited(words: Sequence[str], kind: int, most: int) -> Tuple[int, str]:
    """The exit code of a command with a limit, and what it said on standard error."""
    try:
        ran = subprocess.run(words, preexec_fn=limited(kind, most), stdin=subprocess.DEVNULL, stdout=subprocess.DEVNULL, stderr=subprocess.PIPE, text=True, timeout=ENDS, check=False)
    except subprocess.TimeoutExpired:
        return HANGS, ""
    except (OSError, subprocess.SubprocessError) as error:
        return EXEC_FAILED, str(error)
    return ran.returncode, ran.stderr


def member_words(members: Members) -> List[str]:
    return members.words(0, turns=20)


def least_that_runs(words: Sequence[str], kind: int, low: int, high: int) -> int:
    """The least limit with which a command ends with 0, in pages."""
    while high - low > PAGE:
        middle = (low + high) // 2 // PAGE * PAGE
        if run_limited(words, kind, middle)[0] == GOES_ON:
            high = middle
        else:
            low = middle
    return high


def try_limits(machine: Machine, kind: int, low: int, high: int, below: int, lane: int, number: int) -> Outcome:
    """Each limit, in steps of a page, from so many pages below the least with which a member runs: it ends with 11, or runs, or isn't started; no signal ends it."""
    with machine.alone(lane) as members:
        words = member_words(members)
        least = least_that_runs(words, kind, low, high)
        ran = [(most, *run_limited(words, kind, most)) for most in range(max(low, least - below * PAGE), least + 4 * PAGE, PAGE)]
        codes = [(most, EXEC_FAILED if "loading shared libraries" in said else code) for most, code, said in ran]
        count = {code: sum(one == code for _, one in codes) for code in (GOES_ON, MEMORY, EXEC_FAILED)}
        bad = [(most, code) for most, code in codes if code not in count]
        wrong = "; ".join(f"with {most // 1024} KB: {meaning(code)}" for most, code in bad[:3])
        happened = f"from {least // 1024} KB on it runs; of {len(codes)} limits {count[MEMORY]} end with 11, {count[EXEC_FAILED]} aren't started, {len(bad)} end otherwise"
        return Outcome(happened, GOES_ON if not bad else bad[0][1], wrong)


def try_output(machine: Machine, name: str, lane: int, number: int) -> Outcome:
    """Where a member's lines go: a device that is full, a pipe whose reader is gone, one that nobody reads for a while, a file on which the limit of length comes."""
    if name == "a pipe that nobody reads":
        return stand_still(machine, lane, number)
    with open("/dev/full", "wb") as full:
        reader, writer = os.pipe()
        os.close(reader)
        out = full.fileno() if name == "/dev/full" else writer
        try:
            return machine.with_bad_one(lane, number, lambda members, bad, account: "", frozenset({OUTPUT}), stdout=out)
        finally:
            os.close(writer)


def stand_still(machine: Machine, lane: int, number: int) -> Outcome:
    reader, writer = os.pipe()

    def what(members: Members, bad: int, account: Account) -> str:
        account.work(200, PATIENCE)
        os.set_blocking(reader, False)
        end = time.monotonic() + 1.0
        while time.monotonic() < end:
            try:
                os.read(reader, 1 << 20)
            except BlockingIOError:
                time.sleep(0.01)
        return ""

    try:
        return machine.with_bad_one(lane, number, what, frozenset({GOES_ON}), stdout=writer)
    finally:
        os.close(reader)
        os.close(writer)


def try_file(machine: Machine, name: str, lane: int, number: int) -> Outcome:
    """What is done to the file of a member that runs, and how it is undone, where it can be."""
    def what(members: Members, bad: int, account: Account) -> str:
        path = members.file(bad)
        if name == "is moved, and moved back":
            os.rename(path, path + ".moved")
            account.work(80, PATIENCE)
            os.rename(path + ".moved", path)
        elif name == "is cut to half":
            os.truncate(path, os.path.getsize(path) // 2)
            account.work(80, PATIENCE)
        elif name == "is a link":
            members.finish(bad)
            os.rename(path, path + ".target")
            os.symlink(path + ".target", path)
            members.start(bad)
            account.work(80, PATIENCE)
        return ""

    return machine.with_bad_one(lane, number, what, frozenset({GOES_ON, DISK}))


def try_grown(machine: Machine, lane: int, number: int) -> Outcome:
    """The file grows under a member: it says 7 when it is started again, and once the file is as long as it was it goes on with all that it had."""
    codes: List[Optional[int]] = []

    def what(members: Members, bad: int, account: Account) -> str:
        path = members.file(bad)
        length = os.path.getsize(path)
        os.truncate(path, 2 * length)
        account.work(80, PATIENCE)
        codes.extend((members.finish(bad), members.run(bad, "1000000")))
        os.truncate(path, length)
        members.start(bad)
        return f"{meaning(codes[1])} at the next start"

    outcome = machine.with_bad_one(lane, number, what, frozenset({GOES_ON}))
    ended, refused = codes
    wrong = "" if ended in (None, DISK) else f"as its file grew it {meaning(ended)}"
    return outcome._replace(code=refused, wrong=outcome.wrong or wrong or ("" if refused == DISK else f"started again it {meaning(refused)}"))


def try_gone(machine: Machine, how: str, lane: int, number: int) -> Outcome:
    """The file is removed, or cut to nothing, under a member: it is lost, says 9 when it is started again, and the others answer."""
    with machine.group(lane) as members:
        account = members.account("c", machine.store.of(3).history, number)
        for r in range(3):
            members.start(r)
        account.work(8, PATIENCE)
        path, bad = members.file(number % 3), number % 3
        if how == "removed":
            os.unlink(path)
        else:
            os.truncate(path, 0)
        done = account.work(8, PATIENCE)
        members.finish(bad)
        if how != "removed":
            os.truncate(path, 0)
        code = members.run(bad, "1000000")
        whole = account.read_all(PATIENCE)
        account.close()
        wrong = "" if code == LOST else f"started again it {meaning(code)}"
        return Outcome(f"{meaning(code)} at the next start", code, wrong or ("" if done == 8 and whole else "the others don't answer"), len(account.lost()))


FILES = ("is moved, and moved back", "is cut to half", "is a link")
OUTPUTS = ("/dev/full", "a pipe without a reader", "a pipe that nobody reads")


def scenarios(machine: Machine, seed: int) -> Iterator[Scenario]:
    whole = "nothing is lost"

    def once() -> List[int]:
        return [seed]

    yield Scenario("machine: each signal to a member", f"it ends by it, or goes on; {whole}", all_signals, partial(try_signal, machine))
    yield Scenario(f"machine: {FLOOD:,} signals that end nothing", f"it goes on; {whole}", once, partial(try_flood, machine))
    yield Scenario("machine: members stop and go", f"they go on; {whole}", once, partial(try_stop_and_go, machine))
    for name, how in CLOCKS.items():
        yield Scenario(f"machine: a member's clock {name}", f"the group answers; {whole}", once, partial(try_clock, machine, how))
    for scheme in ("", "tcp:"):
        yield Scenario(f"machine: few descriptors over {'TCP' if scheme else 'UDP'}", "7, 8 or 11, or it answers", lambda: list(DESCRIPTORS), partial(try_descriptors, machine, scheme))
    yield Scenario("machine: little memory", "11, or it runs", once, partial(try_limits, machine, resource.RLIMIT_AS, 1 << 20, 64 << 20, 90))
    yield Scenario("machine: little stack", "11, or it runs", once, partial(try_limits, machine, resource.RLIMIT_STACK, LEAST_STACK, 8 << 20, 90))
    for output in OUTPUTS:
        yield Scenario(f"machine: its lines go to {output}", f"{'goes on' if 'nobody' in output else '6 write fault'}; {whole}", once, partial(try_output, machine, output))
    for what in FILES:
        yield Scenario(f"machine: FILE {what}", f"goes on or 7; {whole}", once, partial(try_file, machine, what))
    yield Scenario("machine: FILE grows", f"7 at the next start; {whole}", once, partial(try_grown, machine))
    for what in ("removed", "cut to nothing"):
        yield Scenario(f"machine: FILE is {what}", f"9 at the next start; {whole}", once, partial(try_gone, machine, what))
