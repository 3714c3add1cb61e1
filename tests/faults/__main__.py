"""Tries what no proof covers with the built program, and tells in one table what was promised and what happened.

  ./nozhgiva test faults                   ten minutes
  ./nozhgiva test faults -- --short           less than a minute: a part of the rows, and of each a few tries
  ./nozhgiva test faults -- --minutes 120     as many tries as there is time for
  ./nozhgiva test faults -- --only migrate    the rows that have this word in their names; --list tells all names
  ./nozhgiva test faults -- --only disk:      a disk that fails: some four minutes
  ./nozhgiva test faults -- --planted         faults are planted, and have to be found: some three minutes

Failing calls: the K-th call of a kind (of a file, of standard output, of sockets, of the clock) answers an error, does a part of what was asked, or does
it and says that it failed, once or from then on; for each K over whole runs of `--fresh`, `migrate`, and `node`. Strangers: datagrams and streams of every
kind. A disk: sectors that rot below the page cache, or can't be read until they are written. The machine: signals, clocks, few descriptors, little memory and stack, outputs, what is done
to the file. Elsewhere: what examples/ and
tests/group try, called from here. All the while a client puts and reads, with account of what it was told.

After each try nothing that was answered may be lost, the exit code has to be one of docs/NODE.md's table with its meaning, and the file has to be whole
again after a start. What is drawn is drawn from the seed, which is told: a row that went wrong is told with the words that try it again. What needs a tool or
a right that is missing is left out with a word.
Ends with 0 where all is as promised, with 1 where something isn't, with 2 where the words are wrong, there is no program, or all was left out."""

import argparse
import contextlib
import os
import random
import signal
import sys
import tempfile
import threading
import time
from concurrent.futures import ThreadPoolExecutor
from pathlib import Path
from typing import Callable, Iterator, List, NoReturn, Optional, Tuple

from nozhgiva_tools.places import in_memory
from nozhgiva_tools.run import ports
from nozhgiva_tools.run.built import or_end as program

from . import calls, disk, elsewhere, machine, planted, strangers
from .shim import compiler, Shim
from .table import by_name, LeftOut, Outcome, print_table, Progress, Row, Scenario

SHORT, LONG = 0.8, 10.0  # minutes
SHORT_ROW, LONG_ROW = 1.5, 5.0  # seconds that a row of strangers lasts
LANES = 4
FIRST = ("migrate: read EIO once", "node, a group of one over UDP: say EINTR once", "node, a group of one over UDP: say EAGAIN on", "machine: few descriptors over TCP")
"""Rows that a short run always comes to: calls that are made again, and descriptors without which a member doesn't start."""
PORTS = 8  # of a lane


def parse_words() -> argparse.Namespace:
    parser = argparse.ArgumentParser(prog="faults", description=__doc__, formatter_class=argparse.RawDescriptionHelpFormatter)
    parser.add_argument("--minutes", type=minutes, help=f"no try is begun later (default: {LONG:g})")
    parser.add_argument("--short", action="store_true", help="less than a minute")
    parser.add_argument("--seed", type=int, help="what is drawn is drawn from it (default: any)")
    parser.add_argument("--only", action="append", default=[], metavar="WORD", help="rows with this in their names; may be given more than once")
    parser.add_argument("--at", type=int, metavar="K", help="of each row this try alone")
    parser.add_argument("--lanes", type=int, default=LANES, choices=range(1, 17), metavar="N", help=f"tries at one time, 1 to 16 (default: {LANES})")
    parser.add_argument("--port", type=int, metavar="PORT", help=f"the first of the ports that are used, {PORTS} for each lane (default: any)")
    parser.add_argument("--list", action="store_true", help="only tells the rows")
    parser.add_argument("--planted", action="store_true", help="plant faults, and see that they are found")
    return parser.parse_args()


def minutes(word: str) -> float:
    number = float(word)
    if not 0 < number < 1e5:
        raise argparse.ArgumentTypeError("it has to be above 0")
    return number


class Ended(BaseException):
    """A signal ends the run: what was tried is told."""

    def __init__(self, number: int) -> None:
        self.number = number


def end_by_signal(number: int, _: object) -> NoReturn:
    raise Ended(number)


class Trial:
    """A run of all rows that are wanted, in a folder of its own."""

    def __init__(self, words: argparse.Namespace, folder: str) -> None:
        self.words, self.minutes = words, words.minutes or (SHORT if words.short else LONG)
        self.seed = random.randrange(10**6) if words.seed is None else words.seed
        self.port = words.port or ports.first_of(PORTS * (words.lanes + 1))
        self.shim = Shim(folder) if compiler() else None
        self.store = calls.Store(Path(folder), self.port + PORTS * words.lanes)
        self.until, self.is_ended = time.monotonic() + 60 * self.minutes, False
        self.progress, self.lock = Progress(self.until), threading.Lock()
        self.rows = [Row(one) for one in by_name(list(self.scenarios(Path(folder))), words.only)]
        if words.short and not words.only:
            self.rows = [row for row in self.rows if row.scenario.short]

    def scenarios(self, folder: Path) -> Iterator[Scenario]:
        yield from strangers.scenarios(folder, self.port, lambda: self.store.of(3), SHORT_ROW if self.words.short else LONG_ROW, self.seed)
        yield from disk.scenarios(disk.Rows(self.store, self.port), self.seed)
        yield from machine.scenarios(machine.Machine(self.store, self.shim, self.port), self.seed)
        yield from calls.scenarios(self.shim, self.store, self.port, self.seed)
        yield from elsewhere.scenarios()

    def numbers(self, row: Row) -> List[int]:
        """The tries of a row."""
        if self.words.at is not None:
            row.numbers = 1
            return [self.words.at]
        found = list(row.scenario.numbers())
        row.numbers = len(found)
        return found

    def one(self, row: Row, lane: int, number: int) -> None:
        try:
            outcome: Optional[Outcome] = row.scenario.go(lane, number)
        except LeftOut as why:
            outcome, row.left_out = None, str(why)
        except (OSError, RuntimeError, ValueError) as why:
            outcome = Outcome("the tool failed", wrong=f"{type(why).__name__}: {why}")
        if outcome is not None:
            with self.lock:
                row.add(number, outcome)
            self.progress.add(row.scenario.name, outcome)

    def go(self) -> None:
        """First what measures, one after the other; then all else side by side, a try of each row before the next of any."""
        for row in (row for row in self.rows if row.scenario.alone):
            for number in self.numbers(row):
                if time.monotonic() + row.scenario.seconds < self.until or self.words.only:
                    self.progress.add(row.scenario.name, None)
                    self.one(row, 0, number)
        rows = [row for row in self.rows if not row.scenario.alone]
        befores = iter(dict.fromkeys(row.scenario.before for row in rows if row.scenario.before is not None))
        tries = self.tries(rows)
        with ThreadPoolExecutor(self.words.lanes) as pool:
            try:
                list(pool.map(lambda lane: self.prepare(lane, befores), range(self.words.lanes)))
                list(pool.map(lambda lane: self.work(lane, tries), range(self.words.lanes)))
            except Ended:
                # What is under way is waited for; nothing else begins.
                self.until, self.is_ended = 0.0, True
                raise

    def prepare(self, lane: int, befores: Iterator[Callable[[int], object]]) -> None:
        while time.monotonic() < self.until or (self.words.only and not self.is_ended):
            with self.lock:
                before = next(befores, None)
            if before is None:
                return
            with contextlib.suppress(LeftOut):
                before(lane)

    def tries(self, rows: List[Row]) -> Iterator[Tuple[Row, int]]:
        """In a short run the rows after the first ones come in an order that is drawn, since not all of them are reached."""
        if self.words.short:
            random.Random(self.seed).shuffle(rows)
            rows.sort(key=lambda row: row.scenario.name not in FIRST)
        todo = [(row, iter(self.first_numbers(row))) for row in rows]
        while todo:
            left = []
            for row, numbers in todo:
                number = None if row.left_out else next(numbers, None)
                if number is not None:
                    left.append((row, numbers))
                    yield row, number
            todo = left

    def first_numbers(self, row: Row) -> Iterator[int]:
        """The tries of a row, counted once the first of them is wanted."""
        try:
            yield from self.numbers(row)
        except LeftOut as why:
            row.left_out = str(why)
        except (KeyError, RuntimeError) as why:
            row.left_out = "no time" if isinstance(why, KeyError) else str(why)

    def work(self, lane: int, tries: Iterator[Tuple[Row, int]]) -> None:
        while time.monotonic() < self.until:
            with self.lock:
                pair = next(tries, None)
            if pair is None:
                return
            self.one(pair[0], lane, pair[1])

    def again(self) -> str:
        return f"./nozhgiva test faults -- --seed {self.seed}" + (" --short" if self.words.short else "")


def run(words: argparse.Namespace, folder: str) -> int:
    trial = Trial(words, folder)
    if words.list:
        print("\n".join(row.scenario.name for row in trial.rows))
        return 0
    if not trial.rows:
        print(f"faults: no row has {' or '.join(words.only)} in its name: --list tells all", file=sys.stderr)
        return 2
    if words.planted:
        if trial.shim is None:
            print(f"left out: {calls.NO_COMPILER}\nnothing was tried: no fault can be planted")
            return 2
        return 0 if planted.print_found(planted.Planted(trial.shim, trial.store, trial.port).all(trial.seed)) else 1
    print(f"seed {trial.seed}, {trial.minutes:g} minutes, the program is {os.environ['NOZHGIVA_PROGRAM']}, load of the machine {os.getloadavg()[0]:.1f}", flush=True)
    ended = 0
    try:
        trial.go()
    except Ended as end:
        ended = 128 + end.number
    print_table(trial.rows, trial.again())
    return ended or judge(trial.rows)


def judge(rows: List[Row]) -> int:
    """The exit code. Nothing is as promised where nothing was tried: there was no time, or all was left out, which is said."""
    if not any(row.tries for row in rows):
        is_left_out = any(row.left_out for row in rows)
        print(f"nothing was tried: {'all was left out' if is_left_out else 'there was no time'}")
        return 2 if is_left_out else 1
    return 1 if any(row.wrong for row in rows) else 0


def main() -> int:
    words = parse_words()
    os.environ["NOZHGIVA_PROGRAM"] = program()
    for number in (signal.SIGINT, signal.SIGTERM, signal.SIGHUP):
        signal.signal(number, end_by_signal)
    with tempfile.TemporaryDirectory(prefix="faults-", dir=os.environ.get("TMPDIR") or in_memory()) as folder:
        tempfile.tempdir = folder
        return run(words, folder)


if __name__ == "__main__":
    try:
        sys.exit(main())
    except KeyboardInterrupt:
        sys.exit(130)
    except Ended as end:
        sys.exit(128 + end.number)
    except BrokenPipeError:
        os.dup2(os.open(os.devnull, os.O_WRONLY), 1)
        sys.exit(6)
