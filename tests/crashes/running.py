"""Runs cases and moments in processes of their own, each with some threads, and keeps account of what came of them."""

import collections
import functools
import itertools
import multiprocessing
import os
import queue
import signal
import sys
import threading
import time
import traceback
from multiprocessing.synchronize import Event
from typing import Callable, Counter, Dict, Iterator, List, NamedTuple, Optional, Tuple

from .disk import Bytes, SECTORS_ALONE
from .judging import Case, judge, Verdict
from .members import Desk
from .scenarios import Recording
from .walking import case_at, cases, Way
from .whole import BATCH, judge_moment, moments

BROKEN, SILENT = "broken", "silent"  # the judgement itself failed; nothing was said, as where a machine is busy beyond measure
# Each thread has so many ports; a group has six members at most.
PORTS = 6
THREADS = 4
# Failing states that are kept.
KEPT = 20


class Result(NamedTuple):
    """What came of one state, or of one moment: the scenario's name, whether it is the first state of its point, and how often the program was started."""

    name: str
    is_first: bool
    starts: int
    verdict: Verdict
    number: str


class Tally:
    """What came of the states, or of the groups, of one scenario."""

    def __init__(self) -> None:
        self.points = self.states = self.starts = 0
        self.failures: Counter[str] = collections.Counter()
        self.rows: Counter[str] = collections.Counter()

    def add(self, result: Result) -> None:
        self.points += result.is_first
        self.states += 1
        self.starts += result.starts
        self.failures.update({failure.split(":", 1)[0] for failure in result.verdict.failures})
        self.rows.update(result.verdict.rows)


class Plan(NamedTuple):
    """What is to be run: with which program, files and ports; for how many seconds, and how many states or groups at most; whether files that fail are
    kept, and whether the first failure ends it."""

    program: str
    folder: str
    port: int
    lanes: int
    seconds: float
    most: int
    keeps: bool = True
    ends_at_first: bool = False


Item = Tuple[str, bool, Callable[[Desk], Verdict], str, List[Optional[Bytes]]]


def case_item(name: str, is_first: bool, case: Case) -> Item:
    return name, is_first, functools.partial(judge, case), f"{case.number}: {case.state.what}", [case.state.image]


def case_items(recordings: List[Recording], way: Way) -> Iterator[Item]:
    for found in cases(recordings, way):
        yield case_item(*found)


def moment_items(recordings: List[Recording], seed: int, lag: int, share: int, shares: int, unit: int = SECTORS_ALONE) -> Iterator[Item]:
    for moment in moments(recordings, seed, lag, share, shares, unit):
        images = [state.image for state in moment.states]
        yield moment.recording.scenario.name, False, functools.partial(judge_moment, moment), moment.number, images


def item_of(recordings: List[Recording], number: str, unit: int = SECTORS_ALONE) -> Optional[Item]:
    """The state, or the moment, of a number as it is printed; None where there is none."""
    words = number.split()
    named = [it for it in recordings if it.scenario.name in words]
    if "whole" in words:
        items = moment_items(named, int(words[0]), 0, 0, 1, unit)
        return next((it for it in itertools.islice(items, BATCH * (int(words[3]) + 1)) if it[3] == number), None)
    seed, _, member, at, turn, count = words
    found = case_at(named[0], int(member), int(at), Way(int(seed), int(count) + 1, unit=unit), int(turn)) if named else []
    return case_item(*found[-1]) if len(found) > int(count) else None


class Line(NamedTuple):
    """Between the lanes and the one that started them: what they found (None from each at its end), and that they are to end."""

    results: "multiprocessing.Queue[Optional[Result]]"
    stopped: Event


class Lane:
    """One process of several, each with its share of the items."""

    def __init__(self, plan: Plan, number: int, items: Iterator[Item], line: Line) -> None:
        self.plan, self.number, self.items, self.line = plan, number, items, line
        self.taken, self.turn = 0, threading.Lock()
        self.end, self.parent = time.monotonic() + plan.seconds, os.getpid()

    def run(self) -> None:
        threads = [threading.Thread(target=self.work, args=(at,)) for at in range(THREADS)]
        for thread in threads:
            thread.start()
        for thread in threads:
            thread.join()
        self.line.results.put(None)

    def is_over(self) -> bool:
        is_enough = self.taken * self.plan.lanes + self.number >= self.plan.most
        return is_enough or self.line.stopped.is_set() or os.getppid() != self.parent or time.monotonic() > self.end

    def next(self) -> Optional[Item]:
        with self.turn:
            if self.is_over():
                return None
            self.taken += 1
            try:
                return next(self.items, None)
            except Exception:  # of whatever kind: no further item can be drawn, and that is told as a failure
                self.line.results.put(Result("drawing", False, 0, broken(), "no state"))
                return None

    def work(self, at: int) -> None:
        desk = Desk(self.plan.program, self.plan.folder, self.plan.port + PORTS * (THREADS * self.number + at))
        while (item := self.next()) is not None:
            name, is_first, try_it, number, images = item
            before = desk.starts
            try:
                verdict = try_it(desk)
            except Exception:  # of whatever kind: it is told as a failure, with the state that it is of
                verdict = broken()
            self.line.results.put(Result(name, is_first, desk.starts - before, verdict, self.keep(number, verdict, images)))

    def keep(self, number: str, verdict: Verdict, images: List[Optional[Bytes]]) -> str:
        """Keeps the files of a state that failed, and gives its number and where they are."""
        folder = os.path.join(self.plan.folder, "failed")
        if not verdict.failures or not self.plan.keeps:
            return number
        os.makedirs(folder, exist_ok=True)
        if len(os.listdir(folder)) >= KEPT:
            return number
        path = os.path.join(folder, number.split(":")[0].replace(" ", "-"))
        for member, image in enumerate(images):
            if image is not None:
                with open(f"{path}-{member}" if len(images) > 1 else path, "wb") as file:
                    file.write(image)
        return f"{number} ({path})"


def broken() -> Verdict:
    """That what was under way failed by itself, with how."""
    return Verdict([f"{BROKEN}: {traceback.format_exc().strip()}"], [])


def run_lane(lane: Lane) -> None:
    """Runs a lane to its end; it is ended by its line alone, so that no member that it started is left."""
    for number in (signal.SIGINT, signal.SIGTERM, signal.SIGHUP):
        signal.signal(number, signal.SIG_IGN)
    lane.run()


class Progress:
    """One line that tells how far it is: on a terminal written over itself, else once in half a minute."""

    def __init__(self, what: str) -> None:
        self.what, self.begun, self.told = what, time.monotonic(), 0.0
        self.is_terminal = sys.stderr.isatty()

    def tell(self, tallies: "Tallies", is_last: bool = False) -> None:
        now = time.monotonic()
        if now - self.told < (0.5 if self.is_terminal else 30.0) and not is_last:
            return
        self.told = now
        states, failed = sum(it.states for it in tallies.values()), sum(sum(it.failures.values()) for it in tallies.values())
        rows = sum(sum(it.rows.values()) for it in tallies.values())
        line = f"{self.what}: {states} in {now - self.begun:.0f} s, {failed} failed, {rows} in rows of OPERATING"
        end = "\n" if is_last or not self.is_terminal else "\r"
        print(line, end=end, file=sys.stderr, flush=True)


Items = Callable[[int, int], Iterator[Item]]
Tallies = Dict[str, Tally]


def run(plan: Plan, what: str, items: Items, say: Callable[[Result], None], tallies: Tallies) -> None:
    """Runs items in lanes, each with its share of so many shares; says each result that isn't well, and keeps account by scenario."""
    context = multiprocessing.get_context("fork")
    line = Line(context.Queue(), context.Event())
    lanes = [context.Process(target=run_lane, args=(Lane(plan, number, items(number, plan.lanes), line),)) for number in range(plan.lanes)]
    for lane in lanes:
        lane.start()
    progress, left = Progress(what), len(lanes)
    try:
        while left:
            try:
                result = line.results.get(timeout=0.5)
            except queue.Empty:
                progress.tell(tallies)
                if not any(lane.is_alive() for lane in lanes) and line.results.empty():
                    raise RuntimeError("a lane ended in the midst of its work")
                continue
            if result is None:
                left -= 1
                continue
            tallies.setdefault(result.name, Tally()).add(result)
            if result.verdict.failures:
                say(result)
                if plan.ends_at_first and not result.verdict.failures[0].startswith(SILENT):
                    line.stopped.set()
            progress.tell(tallies)
    finally:
        line.stopped.set()
        while left and any(lane.is_alive() for lane in lanes):
            try:
                left -= line.results.get(timeout=0.5) is None
            except queue.Empty:
                pass
        for lane in lanes:
            lane.join()
    progress.tell(tallies, is_last=True)
