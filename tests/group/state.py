"""Looks at how many members have the whole state under a steady load, and whether it outlives the loss of one.

  ./nozhgiva test state                   version 1, UDP, 33 puts of 1,004 bytes a second: some two minutes and a half
  ./nozhgiva test state -- --v2 --rate 77    version 2
  ./nozhgiva test state -- --tcp             over TCP

Three members run under keepers while clients put. Both backups are killed, 15 seconds apart, and are back within two seconds. For a minute it looks, by the
files and by the members' lines, who has each block of its checkpoint. Then the primary is lost with its file, and all keys are read.

Versions 1 and 2 lose the state then, which is known: a backup that was away acknowledges before it has its blocks, and the primary writes over them faster than
they come (README: a group of three bears the loss of one member while the others have its state). Ends with 0 where all is read, with 3 where it isn't, as is known of this
version, with 1 where it isn't and the version promises it, with 2 at wrong words or without a program."""

import argparse
import os
import signal
import sys
import time
from typing import List, NamedTuple

from nozhgiva_tools.operate import standard
from nozhgiva_tools.run import built as program
from nozhgiva_tools.run.keepers import Kept
from nozhgiva_tools.run.nets import Net
from nozhgiva_tools.told import datafile

from .load import Load

SIZE = 3
KNOWN = {1, 2}  # versions that lose the state, as is known and told
HELD, LOST, AS_KNOWN = 0, 1, 3
CLIENTS, KEYS, BYTES, RATE = 4, 100, 1004, 33.0
LONGEST = {1: 1024, 2: 3000}  # bytes of a value
APART, LOOK, READ = 15.0, 2.0, 60.0  # seconds


def parse_words() -> argparse.Namespace:
    parser = argparse.ArgumentParser(prog="state", description=__doc__, formatter_class=argparse.RawDescriptionHelpFormatter)
    parser.add_argument("--v2", action="store_true", help="a group of version 2")
    parser.add_argument("--tcp", action="store_true", help="over TCP")
    parser.add_argument("--rate", type=float, default=RATE, metavar="PUTS", help="a second (default: %(default)g)")
    parser.add_argument("--size", type=int, default=BYTES, metavar="BYTES", help="of a value (default: %(default)s)")
    parser.add_argument("--seconds", type=float, default=60.0, help="for which it looks (default: %(default)g)")
    words = parser.parse_args()
    words.version = 2 if words.v2 else 1
    if not (words.rate > 0 and words.seconds > 0) or not 20 <= words.size <= LONGEST[words.version]:
        parser.error(f"--rate and --seconds are above 0, and --size is 20 to {LONGEST[words.version]}")
    return words


class Looks(NamedTuple):
    """So many looks, and in how many of them no backup had the state."""

    tried: int
    bare: int


class Trial:
    """One group and its load."""

    def __init__(self, words: argparse.Namespace) -> None:
        self.words, self.began = words, time.monotonic()
        self.group = Kept(Net(SIZE), "tcp:" if words.tcp else "", ("--patience", "0"), words.version)
        self.load = Load(self.group, CLIENTS, words.rate, KEYS, words.size, 1.0, 1)

    def say(self, text: str) -> None:
        print(f"{time.monotonic() - self.began:6.1f} {text}", flush=True)

    def answered(self) -> int:
        return len(self.load.answers)

    def run(self) -> int:
        self.group.start_all()
        self.group.await_leader(120)
        self.load.start()
        self.until(2 * KEYS)
        leader = self.group.await_leader(120)
        backups = [member for member in range(SIZE) if member != leader]
        for count, member in enumerate(backups):
            time.sleep(APART if count else 0)
            self.say(f"member {member} is killed, at {self.answered()} answers; member {leader} leads")
            self.group.signal(member, signal.SIGKILL)
        time.sleep(LOOK)
        before = self.answered()
        looks = self.look(backups)
        rate = (self.answered() - before) / self.words.seconds
        self.say(f"no backup had the state in {looks.bare} of {looks.tried} looks, at {rate:.0f} answers a second")
        return self.lose(self.group.await_leader(120))

    def until(self, count: int) -> None:
        end = time.monotonic() + 120
        while self.answered() < count:
            if time.monotonic() > end:
                raise TimeoutError(f"{self.answered()} answers in 120 s")
            time.sleep(0.1)

    def look(self, backups: List[int]) -> Looks:
        end, count, bare = time.monotonic() + self.words.seconds, 0, 0
        while time.monotonic() < end:
            having = [member for member in backups if self.has_state(member)]
            count, bare = count + 1, bare + (not having)
            time.sleep(LOOK)
        return Looks(count, bare)

    def has_state(self, member: int) -> bool:
        """Whether a member has each block of its checkpoint, by its file and by its own lines."""
        line = self.group.health(member)
        try:
            facts = datafile.look(self.group.file(member)).facts()
        except (OSError, IndexError, ValueError):
            return False
        return line is not None and "lacks_blocks" not in line["well"].split(",") and facts is not None and facts.missing == 0

    def lose(self, leader: int) -> int:
        """The primary is lost with its file: the load ends, and all is read."""
        self.say(f"member {leader}, which leads, is lost with its file")
        self.group.signal(leader, signal.SIGKILL)
        self.group.stop(leader)
        os.unlink(self.group.file(leader))
        self.load.stop()
        whole, fault = self.load.read_all(READ), self.load.fault()
        acknowledged = sum(asked.is_put and asked.ended < float("inf") for asked in self.load.history)
        self.say(f"{acknowledged} puts were acknowledged; {'all keys are read' if whole else f'no answer for {READ:g} s'}; {fault or 'no answer is wrong'}")
        return self.judge(whole and fault is None)

    def judge(self, is_held: bool) -> int:
        if is_held:
            self.say("the state outlived the loss of one member")
            return HELD
        self.say(f"the state is lost with one member{', as is known of version ' + str(self.words.version) if self.words.version in KNOWN else ''}")
        return AS_KNOWN if self.words.version in KNOWN else LOST

    def end(self) -> None:
        self.load.stopping = True
        self.group.close()


def main() -> int:
    words = parse_words()
    program.or_end()
    trial = Trial(words)
    try:
        return trial.run()
    except TimeoutError as why:
        print(f"state: it can't be tried: {why}", file=sys.stderr)
        return 2
    finally:
        trial.end()


if __name__ == "__main__":
    standard.end(main)
