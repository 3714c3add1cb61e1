"""Restarts two of three real members under a load of puts, each away for a while, and then loses the third, which led: is everything there?

  restarts loop      one after the other, the next once the one before has written its `start` line: a plain loop
  restarts roll      as operate/roll does, without holding the clients
  restarts held      as operate/roll does, holding the clients where a member doesn't catch up

At a load at which a member that was away never catches up the loop leaves one copy: the two don't answer once the third is gone. Ends with 0 where
all that was acknowledged is read in the end, with 1 where it isn't, with 3 where the roll stopped before the second restart."""

import argparse
import sys
import time
from typing import List

from nozhgiva_tools.operate import rolling, standard
from nozhgiva_tools.run.keepers import Kept
from nozhgiva_tools.run.nets import Net

from .load import Load

SIZE = 3


def parse_words() -> argparse.Namespace:
    parser = argparse.ArgumentParser(prog="restarts", description=__doc__, formatter_class=argparse.RawDescriptionHelpFormatter)
    parser.add_argument("way", choices=["loop", "roll", "held"])
    parser.add_argument("--keys", type=standard.counted, default=120, help="(default: %(default)s)")
    parser.add_argument("--size", type=int, default=1000, metavar="BYTES", help="of a value (default: %(default)s)")
    parser.add_argument("--rate", type=standard.above_0, default=30.0, help="puts a second (default: %(default)s)")
    parser.add_argument("--down", type=float, default=4.0, metavar="SECONDS", help="for which a member is away (default: %(default)s)")
    parser.add_argument("--bound", type=float, default=60.0, metavar="SECONDS", help="of the roll (default: %(default)s)")
    return parser.parse_args()


class Trial:
    """One group, its load, and what restarts its members. Times are seconds since the beginning."""

    def __init__(self, words: argparse.Namespace) -> None:
        self.words, self.held, self.began = words, False, time.monotonic()
        self.group = Kept(Net(SIZE), options=("--patience", "0"))
        self.load = Load(self.group, clients=4, rate=words.rate, keys=words.keys, size=words.size, puts=1.0, seed=1, held=lambda: self.held)

    def say(self, text: str) -> None:
        print(f"{time.monotonic() - self.began:6.1f} {text}", flush=True)

    def restart(self, member: int) -> None:
        self.group.stop(member)
        time.sleep(self.words.down)
        self.group.start(member)

    def hold(self) -> None:
        self.held = True

    def release(self) -> None:
        self.held = False

    def loop(self, members: List[int]) -> None:
        """The next once the one before has started."""
        for member in members:
            self.say(f"member {member} is restarted")
            self.restart(member)
            while (self.group.health(member) or {}).get("view", "-") == "-":
                time.sleep(0.1)
            time.sleep(1)

    def roll(self, members: List[int]) -> None:
        holds = self.words.way == "held"
        hands = rolling.Hands(self.group.health, self.restart, self.hold if holds else None, self.release if holds else None, time.sleep, time.monotonic, self.say)
        rolling.roll(hands, list(range(SIZE)), rolling.Bounds(self.words.bound, 10.0), members)

    def tell(self) -> None:
        for member in range(SIZE):
            line = self.group.health(member) or {}
            self.say(f"member {member}: " + ", ".join(f"{name} {line.get(name, '-')}" for name in ("state", "well", "applied", "commit", "asks")))

    def run(self) -> int:
        self.group.start_all()
        leader = self.group.await_leader()
        self.load.start()
        while len(self.load.history) < self.words.keys * 2:
            time.sleep(0.2)
        leader = self.group.await_leader()
        others = [member for member in range(SIZE) if member != leader]
        self.say(f"{len(self.load.history)} puts are done; member {leader} leads")
        try:
            self.loop(others) if self.words.way == "loop" else self.roll(others)
        except rolling.Stopped as why:
            self.say(f"stopped: {why}")
            return 3
        return self.lose(leader)

    def lose(self, member: int) -> int:
        """The third is gone: the load ends, and all is read."""
        self.tell()
        self.say(f"member {member} is lost")
        self.group.stop(member)
        self.load.stop()
        whole = self.load.read_all(30.0)
        fault = self.load.fault()
        self.say(f"{sum(asked.is_put for asked in self.load.history)} puts; all keys read: {'yes' if whole else 'no, there is no answer for 30 s'}; "
                 f"longest time without an answer until then {self.load.longest_silence():.1f} s; {fault or 'each answer is that of one register for each key'}")
        return 0 if whole and fault is None else 1

    def end(self) -> None:
        self.load.stopping = True
        self.group.close()


def main() -> int:
    trial = Trial(parse_words())
    try:
        return trial.run()
    except KeyboardInterrupt:
        return 130
    finally:
        trial.end()


if __name__ == "__main__":
    sys.exit(main())
