"""Hunts for an answer that no single store of keys and values could have given. Clients in Python and in Go put, get and delete a few keys of a group
of three, while its members are killed, paused, cut off from each other and from clients, and moved to version 2. What each client asked and was
answered, and when, has to fit one order for each key (it has to be linearizable); where nothing is known of an operation it may have happened at any
later time, or never. Each round is a new group. Before that the checker has to judge planted histories right, and after each round it has to refuse
that round's history with one stale read put into it.
  ./nozhgiva test hunt                   one round, of some twenty seconds
  ./nozhgiva test hunt -- --minutes 30      rounds for so long
  ./nozhgiva test hunt -- --spoil           puts old copies of the members' files back, against docs/NODE.md: then it has to find something, and ends with 1
  ./nozhgiva test hunt -- --check FILE      judges a history, in the form of tests/hunt/planted.txt
Members are cut off where it runs as root with iproute2, and clients in Go are there where Go is; it says what it leaves out. It ends with 0 where all
fits, with 1 where something doesn't (the history is then left in a file that it names), and with 2 where words, file or program are wrong."""

import argparse
import itertools
import os
import pathlib
import random
import signal
import subprocess
import sys
import tempfile
import time
from typing import List, Optional

from nozhgiva_tools.places import in_memory, TOP, words_of_module
from nozhgiva_tools.run.built import or_end as program
from nozhgiva_tools.run.nets import Sealed
from nozhgiva_tools.run.scripts import fail, sealed

from . import history, planted, worker as worker_in_python
from .members import Members, Stuck, Trouble
from .order import judge, Verdict
from .workers import Board, FAST, KEYS, SLOW, Worker

HERE = pathlib.Path(__file__).resolve().parent
SHORT, LONG, REST = 7.0, 60.0, 2.0


def built_worker(folder: str) -> Optional[str]:
    """The client in Go, built; None where there is no Go."""
    path = f"{folder}/worker"
    environment = dict(os.environ, GOFLAGS="-mod=mod", GOPROXY="off", GOTOOLCHAIN="local")
    if not any(name in environment for name in ("HOME", "GOCACHE", "XDG_CACHE_HOME")):
        environment["GOCACHE"] = f"{folder}/go"
    try:
        subprocess.run(["go", "build", "-o", path, "."], cwd=HERE / "worker", env=environment, check=True)
    except FileNotFoundError:
        print("left out: clients in Go, since there is no go", flush=True)
        return None
    except subprocess.CalledProcessError:
        fail("the client in Go isn't built")
    return path


class Round:
    """One group, hunted from a number."""

    def __init__(self, seed: int, words: argparse.Namespace, go: Optional[str], apart: bool) -> None:
        self.draw, self.seed, self.words, self.go = random.Random(seed), seed, words, go
        self.seconds = LONG if words.minutes else SHORT
        self.board = Board()
        self.members = Members(Sealed() if apart else None, self.draw.choice(("", "tcp:")))
        self.modes = ["--careful"] if self.draw.random() < 0.5 else []
        self.trouble = Trouble(self.members, self.draw)
        self.workers: List[Worker] = []
        self.restarts = 0

    def beginning(self) -> str:
        """What the round is, in words."""
        how = f"{'TCP' if 'tcp:' in self.members.addresses[0] else 'UDP'}{', careful files' if self.modes else ''}"
        return f"{self.words.workers} clients over {how}; faults for {self.seconds:g} s, and a migration"

    def worker(self, number: int, name: str) -> Worker:
        """A client: every second one is in Go, where there is Go."""
        words = [self.go] if self.go and number % 2 else words_of_module(worker_in_python)
        return Worker(name, [*self.members.net.inside(None), *words, str(self.members.number), *self.members.addresses], self.board, random.Random(f"{self.seed} {number}"))

    def change_pace(self) -> None:
        self.board.pause = self.draw.choice((FAST, SLOW))

    def trouble_members(self) -> None:
        """Half of a round's faults, with clients that are fast and slow by turns."""
        self.trouble.go(self.seconds / 2, self.change_pace)
        self.board.pause = SLOW

    def await_answers(self, count: int = 20, patience: float = 60) -> None:
        """Waits until so many more operations are answered. A group that stands still for good is started again, as its keepers would."""
        wanted, end = len(self.board.history) + count, time.monotonic() + patience
        while len(self.board.history) < wanted and any(worker.is_alive() for worker in self.workers):
            if time.monotonic() > end:
                self.restarts += 1
                if self.restarts > 3:
                    raise Stuck("the group stands still, though all its members run and were started again")
                for r in range(3):
                    self.members.kill(r)
                    self.members.start(r)
                end = time.monotonic() + patience
            time.sleep(0.05)

    def move(self) -> None:
        """Moves the group to version 2, the member that leads last. Clients begin again once two are moved."""
        self.await_answers()
        self.members.wait_until_level()
        leader = self.members.leader()
        for count, r in enumerate([r for r in range(3) if r != leader] + [leader], 1):
            self.members.move(r, self.draw)
            if count == 2:
                self.board.version = 2
            if count > 1:
                self.await_answers()

    def run(self) -> None:
        """The whole round; whatever happens, nothing that it started is left."""
        try:
            with self.members:
                self.play()
        finally:
            self.board.going, self.board.over = False, True
            for worker in self.workers:
                worker.process.kill()

    def play(self) -> None:
        self.members.start_all(*self.modes)
        self.workers = [self.worker(number, f"{'go' if self.go and number % 2 else 'py'}{number}") for number in range(self.words.workers)]
        for worker in self.workers:
            worker.start()
        self.await_answers()
        self.trouble_members()
        if self.words.spoil:
            self.spoil()
        self.move()
        self.trouble_members()
        self.await_answers()
        self.board.going = False
        for worker in self.workers:
            worker.join(60)
        self.read_all("last")

    def spoil(self) -> None:
        """Loses what was answered, and reads all keys before the clients, which rest, put them again."""
        def work() -> None:
            self.await_answers(60)
            self.board.pause = REST
            time.sleep(REST)
        self.members.spoil(work)
        self.read_all("look")
        self.board.pause = SLOW

    def read_all(self, name: str) -> None:
        """Reads each key in a session of its own."""
        last = self.worker(self.draw.randrange(2), name)
        if last.say(f"register {self.board.version} 60") != "session":
            raise Stuck("a session to read all keys isn't begun")
        for key in KEYS:
            asked = history.Operation(name, time.monotonic_ns(), None, "get", key, None, history.UNTOLD)
            last.told(asked, last.say(f"get {key} 60"))
        last.process.kill()
        last.process.communicate()

    def keep(self) -> pathlib.Path:
        """Leaves the history in a file."""
        folder = TOP / "out"
        folder.mkdir(exist_ok=True)
        path = folder / f"hunt-{self.seed}.txt"
        path.write_text("".join(f"{one}\n" for one in self.board.history), encoding="ascii")
        return path

    def summary(self) -> str:
        mine = self.board.history
        unknown = sum(one.returned is None for one in mine)
        troubles = ", ".join(f"{count} {kind}" for kind, count in sorted(self.trouble.counts.items()))
        sessions = f"{self.board.sessions + 1} sessions, {self.board.lost} of them lost"
        again = f", {self.restarts} times started again" if self.restarts else ""
        return f"{len(mine)} operations in {sessions}; {unknown} not known; {troubles}, 3 moved{again}"


def refuse(what: str, verdict: Verdict) -> None:
    """Says which operations don't fit."""
    print(f"{what}: key {verdict.key} " + ("fits no order" if verdict.fits is False else "isn't decided: the search takes too long") + "; around it:")
    for one in verdict.around:
        print(f"    {str(one)[:160]}")


def hunt_round(seed: int, words: argparse.Namespace, go: Optional[str], apart: bool) -> bool:
    """Whether all of a round is as it should be."""
    one = Round(seed, words, go, apart)
    print(f"seed {seed}: {one.beginning()} ..", flush=True)
    try:
        one.run()
    except (Stuck, OSError, ValueError, subprocess.SubprocessError) as error:
        one.board.faults.append(str(error))
    faults = one.board.faults + one.members.ended
    begun = time.monotonic()
    verdict = judge(one.board.history)
    took = time.monotonic() - begun
    if faults or verdict.fits is not True:
        print(f"  {one.summary()}; the history is in {one.keep()}")
        for fault in faults:
            print(f"  {fault}")
        if verdict.fits is not True:
            refuse("  history", verdict)
        return False
    spoiled = planted.with_stale_read(one.board.history, one.draw)
    if spoiled is not None and judge(spoiled).fits is not False:
        print(f"  {one.summary()}; a stale read put into the history isn't refused; the history is in {one.keep()}")
        return False
    print(f"  {one.summary()}; they fit one order ({took:.1f} s)" + ("" if spoiled is None else ", and with a stale read they don't"), flush=True)
    return True


def check_file(path: str) -> int:
    """Judges the history in a file."""
    try:
        operations = history.read(pathlib.Path(path).read_text(encoding="utf-8").splitlines())
    except (OSError, UnicodeDecodeError, history.BadHistory) as error:
        print(f"no history: {error}", file=sys.stderr)
        return 2
    verdict = judge(operations)
    if verdict.fits is True:
        print(f"{len(operations)} operations fit one order for each key")
        return 0
    refuse(path, verdict)
    return 1


def positive(word: str) -> float:
    number = float(word)
    if not 0 < number < 1e6:
        raise argparse.ArgumentTypeError("it has to be above 0")
    return number


def words_of() -> argparse.Namespace:
    parser = argparse.ArgumentParser(prog="hunt", description=__doc__, formatter_class=argparse.RawDescriptionHelpFormatter)
    parser.add_argument("--minutes", type=positive, help="rounds of a minute each for so long, in place of one short one")
    parser.add_argument("--seed", type=int, help="the number from which the first round is drawn, and the next ones from those after it; when things happen isn't drawn")
    parser.add_argument("--workers", type=int, default=6, choices=range(1, 9), metavar="N", help="how many clients, 1 to 8 (6)")
    parser.add_argument("--spoil", action="store_true", help="put old copies of the members' files back in each round")
    parser.add_argument("--check", metavar="FILE", help="judge a history, and do nothing else")
    return parser.parse_args()


def hunt(words: argparse.Namespace) -> int:
    lacking = None if os.environ.get("SEALED") else Sealed.why_none()
    if lacking is None:
        sealed(sys.argv, "--net")
        Sealed().connect()
    else:
        print(f"left out: members that are cut off ({lacking})", flush=True)
    wrong = planted.wrong_verdicts()
    if wrong:
        fail("planted histories: " + "; ".join(wrong))
    print(f"{len(planted.table())} planted histories are judged right", flush=True)
    seeds = itertools.count(random.randrange(10**6) if words.seed is None else words.seed)
    end = time.monotonic() + 60 * (words.minutes or 0)
    with tempfile.TemporaryDirectory(dir=in_memory()) as folder:
        tempfile.tempdir = folder
        go = built_worker(folder)
        while True:
            if not hunt_round(next(seeds), words, go, lacking is None):
                return 1
            if time.monotonic() >= end:
                return 0


def main() -> int:
    words = words_of()
    if words.check is not None:
        return check_file(words.check)
    program()
    return hunt(words)


if __name__ == "__main__":
    signal.signal(signal.SIGTERM, lambda *_: sys.exit(143))  # the first process of a namespace would go on otherwise
    try:
        sys.exit(main())
    except BrokenPipeError:
        os.dup2(os.open(os.devnull, os.O_WRONLY), 1)
        sys.exit(1)
    except KeyboardInterrupt:
        sys.exit(130)
