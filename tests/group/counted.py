"""What ./nozhgiva test mishaps does with real members, in counted time by the command `replay`: a group of three with a kill, a pause or messages that are
lost one way each ten seconds, with the policy of operate/keep and without it, by the same numbers. It needs no root and no idle machine.

Each line tells a seed, the longest time in which no client got an answer, how many answers there were, and what the policy did. A member that is killed is
started again after a second in both. Ends with 0, with 1 where no client got an answer, or none for longer than a cut lasts although the policy was there, with 2 without a program."""

import argparse
import random
import sys
from typing import List, Set, Tuple

from nozhgiva_tools.operate import standard
from nozhgiva_tools.operate.policy import PATIENCE
from nozhgiva_tools.run import built as program
from nozhgiva_tools.run.playing import Client, Group, Replay
from nozhgiva_tools.run.standing import Keepers

EACH = 10.0  # seconds from fault to fault
SIZE = 3
BACK = 1.0  # seconds from a kill to the start
PAUSE, CUT = (1.0, 6.0), (4.0, 25.0)  # seconds, of which some are drawn
WAYS = ("hears nobody", "isn't heard", "isn't heard by the next")


def parse_words() -> argparse.Namespace:
    parser = argparse.ArgumentParser(prog="counted", description=__doc__, formatter_class=argparse.RawDescriptionHelpFormatter)
    parser.add_argument("--minutes", type=standard.above_0, default=10.0, help="(default: %(default)s)")
    parser.add_argument("--seeds", type=lambda text: [standard.counted(word) for word in text.split(",")], default=[1], metavar="A,B..", help="(default: 1)")
    parser.add_argument("--sync", type=float, default=0.01, metavar="SECONDS", help="how long a sync takes (default: %(default)s)")
    parser.add_argument("--say", action="store_true", help="tell each fault and each restart")
    return parser.parse_args()


class Run:
    """One group with its faults."""

    def __init__(self, path: str, seed: int, patience: float, sync: float, say: bool) -> None:
        self.chance, self.speaks = random.Random(seed), say
        self.replay = Replay(path)
        self.keepers = Keepers(patience, seed)
        self.answers: List[float] = [0.0]
        self.group = Group(self.replay, self.hears, sync)
        self.group.begin(SIZE)
        self.keepers.group = self.group
        self.group.start_all()
        for number in (1, 2):
            self.group.add(Client(number, SIZE, 0.5))

    def hears(self, now: float, member: int, output: str) -> None:
        if output.startswith("reply ") and " op " in output:
            self.answers.append(now)
        self.keepers.hears(now, member, output)

    def say(self, text: str) -> None:
        if self.speaks:
            print(f"  {self.group.now:6.1f} {text}")

    def happen(self) -> None:
        kind, member = self.chance.choice(["kill", "pause", "cut", "cut"]), self.chance.randrange(SIZE)
        length = self.chance.uniform(*(PAUSE if kind == "pause" else CUT))
        way = self.chance.choice(WAYS)
        if kind == "kill":
            self.say(f"member {member} is killed")
            self.group.stop(member)
            self.group.plan(self.group.now + BACK, lambda at: self.group.start(member))
        elif kind == "pause":
            self.say(f"member {member} pauses for {length:.1f} s")
            self.group.free[member] = max(self.group.free[member], self.group.now + length)
        else:
            self.say(f"member {member} {way} for {length:.1f} s")
            self.cut(member, way, length)

    def cut(self, member: int, way: str, length: float) -> None:
        """One cut at a time: the one before is mended."""
        others = [other for other in range(SIZE) if other != member]
        cuts = {"hears nobody": {(other, member) for other in others}, "isn't heard": {(member, other) for other in others},
                "isn't heard by the next": {(member, (member + 1) % SIZE)}}[way]
        self.group.cuts = cuts
        self.group.plan(self.group.now + length, lambda at: self.mend(cuts))

    def mend(self, cuts: Set[Tuple[int, int]]) -> None:
        if self.group.cuts is cuts:
            self.group.cuts = set()

    def go(self, minutes: float) -> Tuple[float, int, int]:
        """The longest silence in seconds, the answers, the restarts."""
        for _ in range(int(minutes * 60 / EACH)):
            self.group.go_on(EACH)
            self.happen()
        self.group.go_on(EACH)
        self.group.cuts = set()
        self.group.go_on(2 * EACH)
        for restart in self.keepers.restarts:
            self.say(f"restarted at {restart.seconds:.1f}: member {restart.member} {restart.reason}")
        self.replay.end()
        times = sorted(self.answers) + [self.group.now]
        return max(after - before for before, after in zip(times, times[1:])), len(self.answers) - 1, len(self.keepers.restarts)


def main() -> int:
    words, path, is_well = parse_words(), program.or_end(), True
    for seed in words.seeds:
        for patience in (0.0, PATIENCE):
            silence, answers, restarts = Run(path, int(seed), patience, words.sync, words.say).go(words.minutes)
            name = f"patience {patience:.0f} s" if patience else "no policy"
            print(f"seed {seed}, {name}: longest time without an answer {silence:.1f} s, {answers} answers, {restarts} restarts", flush=True)
            is_well = is_well and answers > 0 and (not patience or silence <= CUT[1])
    return 0 if is_well else 1


if __name__ == "__main__":
    sys.exit(main())
