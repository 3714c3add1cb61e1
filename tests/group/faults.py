"""A group of three real members under keepers, asked by clients, with a fault each ten seconds: a kill, a pause, or messages that are lost one way.

Each answer has to be that of one register for each key, and what was acknowledged has to be there at the end. It tells the longest time in which no
client got an answer, and what the keepers did. With --patience 0 the keepers only start again what ended: for comparison, by the same seed. Where
namespaces can't be had (they take root) the members are on loopback, and no messages are cut. Ends with 0, with 1 where an answer is wrong."""

import argparse
import os
import random
import signal
import sys
import time
from typing import Callable, List, Optional, Tuple

from nozhgiva_tools.operate import standard
from nozhgiva_tools.run.keepers import Kept
from nozhgiva_tools.run.nets import best_net, Net

from .load import Load

SIZE = 3
EACH = 10.0  # seconds from fault to fault


class Faults:
    """Draws what happens, and lets it happen. Times are seconds since the beginning."""

    def __init__(self, group: Kept, seed: int) -> None:
        self.group, self.chance = group, random.Random(seed)
        self.until: List[Tuple[float, Callable[[], object]]] = []  # what ends: when, and how
        self.began = time.monotonic()
        self.killed: List[Tuple[int, float]] = []  # members, and when they were killed, by the monotonic clock
        self.paused: List[Tuple[int, float, float]] = []  # members, and from when to when they were paused

    def now(self) -> float:
        return time.monotonic() - self.began

    def say(self, text: str) -> None:
        print(f"{self.now():6.1f} {text}", flush=True)

    def happen(self) -> None:
        kinds = ["kill", "pause"] + (["cut"] * 2 if self.group.net.cuts else [])
        kind, member = self.chance.choice(kinds), self.chance.randrange(SIZE)
        length = self.chance.uniform(1, 6) if kind == "pause" else self.chance.uniform(4, 25)
        way = self.chance.choice(["hears nobody", "isn't heard", "isn't heard by the next"])
        if kind == "kill":
            self.say(f"member {member} is killed")
            if self.group.signal(member, signal.SIGKILL):
                self.killed.append((member, time.monotonic()))
        elif kind == "pause":
            self.say(f"member {member} pauses for {length:.1f} s")
            self.pause(member, length)
        else:
            self.say(f"member {member} {way} for {length:.1f} s")
            self.cut(member, way)
            self.until = [end for end in self.until if end[1] is not self.mend] + [(self.now() + length, self.mend)]

    def pause(self, member: int, length: float) -> None:
        process, begun = self.group.process(member), time.monotonic()
        self.group.signal(member, signal.SIGSTOP)

        def go_on() -> None:
            self.group.signal(member, signal.SIGCONT)
            self.paused.append((member, begun, time.monotonic() if self.group.process(member) == process else begun))

        self.until.append((self.now() + length, go_on))

    def is_paused(self, member: int, since: float, until: float) -> Optional[bool]:
        """Whether it was paused from one moment to another; False where it wasn't at any, None where it was for a part."""
        for other, begun, ended in self.paused:
            if other == member and begun < until and since < ended:
                return True if begun <= since and until <= ended else None
        return False

    def kills(self, member: int, until: float) -> int:
        """How often it was killed up to a moment."""
        return sum(other == member and at <= until for other, at in self.killed)

    def cut(self, member: int, way: str) -> None:
        """One cut at a time: the one before is mended."""
        self.mend()
        others = [other for other in range(SIZE) if other != member]
        if way == "isn't heard by the next":
            self.group.net.cut(member, (member + 1) % SIZE)
            return
        for other in others:
            self.group.net.cut(*((other, member) if way == "hears nobody" else (member, other)))

    def mend(self) -> None:
        self.group.net.mend()

    def run(self, seconds: float) -> None:
        """A fault each EACH seconds, and the ends of those that last; all are ended at the end."""
        due = EACH
        while self.now() < seconds:
            time.sleep(0.05)
            self.end_some(self.now())
            if self.now() >= due:
                due += EACH
                self.happen()
        self.end_some(float("inf"))

    def end_some(self, now: float) -> None:
        over = [end for at, end in self.until if at <= now]
        self.until = [(at, end) for at, end in self.until if at > now]
        for end in over:
            end()


def parse_words() -> argparse.Namespace:
    parser = argparse.ArgumentParser(prog="faults", description=__doc__, formatter_class=argparse.RawDescriptionHelpFormatter)
    parser.add_argument("--minutes", type=standard.above_0, default=10.0, help="(default: %(default)s)")
    parser.add_argument("--patience", type=float, default=5.0, metavar="SECONDS", help="the keepers' (default: %(default)s)")
    parser.add_argument("--seed", type=int, default=1, help="of the faults and of what is asked (default: %(default)s)")
    parser.add_argument("--scheme", default="", help="tcp: for streams")
    parser.add_argument("--rate", type=float, default=40.0, help="asks a second (default: %(default)s)")
    parser.add_argument("--loopback", action="store_true", help="no namespaces, and so no cuts, although they could be had")
    parser.add_argument("--clients", type=int, default=4, help="that ask at one time (default: %(default)s)")
    parser.add_argument("--keep-files", action="store_true", help="leave the members' files and logs, and say where")
    return parser.parse_args()


def tell(load: Load, group: Kept) -> int:
    """What came of it; 1 where an answer is wrong."""
    restarts = [line for member in range(SIZE) for line in group.said(member) if "is stopped and started" in line]
    for line in restarts:
        print(f"  {line}")
    whole = load.read_all(60.0)
    fault = load.fault()
    puts = sum(asked.is_put for asked in load.history)
    unknown = sum(asked.ended == float("inf") for asked in load.history)
    print(f"{len(load.history)} asks, {puts} puts of which {unknown} without an answer; longest time without an answer {load.longest_silence():.1f} s; "
          f"restarts of standstills {len(restarts)}; all keys read at the end: {'yes' if whole else 'no'}; {fault or 'each answer is that of one register for each key'}")
    return 0 if whole and fault is None else 1


def main() -> int:
    words = parse_words()
    signal.signal(signal.SIGTERM, lambda *_: sys.exit(130))
    net, group, load = Net(SIZE) if words.loopback else best_net(SIZE), None, None
    try:
        group = Kept(net, words.scheme, ("--patience", str(words.patience)))
        print(f"{'namespaces' if net.cuts else 'loopback, no cuts'}, {words.scheme or 'udp'}, patience {words.patience} s, seed {words.seed}, "
              f"load of the machine {os.getloadavg()[0]:.1f}; files in {group.folder}")
        group.start_all()
        group.await_leader()
        load = Load(group, clients=words.clients, rate=words.rate, keys=40, size=24, puts=0.5, seed=words.seed)
        load.start()
        Faults(group, words.seed).run(words.minutes * 60)
        time.sleep(10)
        load.stop()
        code = tell(load, group)
        print(f"load of the machine at the end {os.getloadavg()[0]:.1f}")
        return code
    except KeyboardInterrupt:
        return 130
    finally:
        if load is not None:
            load.stopping = True
        if group is not None:
            group.close(words.keep_files)
        else:
            net.end()


if __name__ == "__main__":
    sys.exit(main())
