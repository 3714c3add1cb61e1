"""Moves groups of real members to version 2 by operate/migrate-group, which is killed by kill -9 at moments that are drawn, and run again.

  killed --kills 50          some 8 minutes
  killed --short             a minute: 4 kills; a test of ./nozhgiva test operate does the same
  killed --again SEED        one group again, whose number was told

A group of three (or --size) holds some values. Its walk is killed after a time, or in the midst of one of its commands, alone or with what it had started;
then it is run again, and killed again, up to four times; the last one goes to its end. No hand mends anything. Each line tells a group. All members
have to be moved and to run in the end, and all values to be read. Ends with 0 where that is so, with 1 where a walk had to be mended by hand or a value
is gone, with 2 at wrong words or without a program. Processors that are busy make it longer."""

import argparse
import os
import random
import signal
import subprocess
import time
from typing import Dict, List, NamedTuple, Tuple

from nozhgiva_tools.operate import standard
from nozhgiva_tools.places import OPERATE
from nozhgiva_tools.run import built as program
from nozhgiva_tools.run.group import NUMBER
from nozhgiva_tools.run.keepers import Kept
from nozhgiva_tools.run.nets import Net

MOST = 4  # kills of one group
LONGEST = 6.0  # seconds after which a walk is killed at the latest, where it is killed by time
WITHIN = 0.3  # seconds after the beginning of a command in which it is killed, where it is killed by that
COMMANDS = 9  # of a walk through three members: a stop, a move and a start each
WALK = 240.0  # seconds that a walk may take
VALUES = 8
NOTE = "echo >> {folder}/begun\n"


def parse_words() -> argparse.Namespace:
    parser = argparse.ArgumentParser(prog="killed", description=__doc__, formatter_class=argparse.RawDescriptionHelpFormatter)
    parser.add_argument("--kills", type=standard.counted, default=50, metavar="N", help="how many kills at least (default: %(default)s)")
    parser.add_argument("--size", type=int, default=3, choices=range(2, 7), help="members of a group (default: %(default)s)")
    parser.add_argument("--seed", type=int, default=1, help="the number of the first group, by which its moments are drawn (default: %(default)s)")
    parser.add_argument("--again", type=int, metavar="SEED", help="this group alone")
    parser.add_argument("--short", action="store_true", help="4 kills")
    words = parser.parse_args()
    if words.kills < 1:
        parser.error("--kills is 1 at least")
    return words


# Keepers are in sessions of their own, as those of an init system are.
START = """#!/bin/sh
setsid {here}/keep --program {program} --log {folder}/$1.log {cluster} $1 {folder}/$1 {addresses} > /dev/null 2>> {folder}/$1.said < /dev/null &
"""
STOP = """#!/bin/sh
flock -n {folder}/$1.keep true && exit
kill "$(sed -n 's/^keeper \\([0-9]*\\),.*/\\1/p' {folder}/$1.keep)"
flock -w 60 {folder}/$1.keep true
"""
MOVE = """#!/bin/sh
exec {program} migrate {cluster} $1 {size} {folder}/$1
"""


class Commands:
    """Writes scripts that start a group's keepers, stop them and move their files; each takes a member's number. `before`: what each begins with, `move`: another text of the
    last."""

    def __init__(self, group: Kept, before: str = "", move: str = MOVE) -> None:
        self.group = group
        self.start, self.stop, self.move = (self.write(name, text, before) for name, text in (("start", START), ("stop", STOP), ("move", move)))

    def write(self, name: str, text: str, before: str) -> str:
        group, path = self.group, os.path.join(self.group.folder, name)
        first, rest = text.format(here=OPERATE, program=group.program, folder=group.folder, cluster=NUMBER, size=group.size, addresses=" ".join(group.addresses)).split("\n", 1)
        with open(path, "w", encoding="utf-8") as file:
            file.write(f"{first}\n{before}{rest}")
        os.chmod(path, 0o755)
        return path

    def start_all(self) -> None:
        for member in range(self.group.size):
            subprocess.run([self.start, str(member)], check=True)

    def stop_all(self) -> None:
        for member in range(self.group.size):
            subprocess.run([self.stop, str(member)], stderr=subprocess.DEVNULL, check=False)

    def words(self, bound: float = 60.0) -> List[str]:
        """The words that move the group, without --go."""
        files = os.path.join(self.group.folder, "{}")
        return [str(OPERATE / "migrate-group"), str(NUMBER), str(self.group.size), "--files", files, "--sockets", files + ".socket", "--stop", f"{self.stop} {{}}",
                "--start", f"{self.start} {{}}", "--migrate", f"{self.move} {{}}", "--bound", str(bound)]


class Kill(NamedTuple):
    """When a walk is killed: after so many commands that it began and so many seconds more; alone, or with what it started."""

    commands: int
    seconds: float
    is_alone: bool

    def __str__(self) -> str:
        after = f"command {self.commands} and " if self.commands else ""
        return f"{after}{self.seconds:.2f} s{'' if self.is_alone else ', all'}"


def draw_kill(chance: random.Random) -> Kill:
    is_alone = chance.random() < 0.5
    if chance.random() < 0.4:
        return Kill(0, chance.uniform(0, LONGEST), is_alone)
    return Kill(chance.randrange(1, COMMANDS + 1), chance.uniform(0, WITHIN), is_alone)


class Trial:
    """One group and its walks."""

    def __init__(self, seed: int, size: int) -> None:
        self.chance = random.Random(seed)
        self.group = Kept(Net(size))
        self.begun = os.path.join(self.group.folder, "begun")
        open(self.begun, "w", encoding="utf-8").close()
        self.commands = Commands(self.group, NOTE.format(folder=self.group.folder))
        self.kills: List[str] = []

    def ask(self, lines: str, *more: str) -> List[str]:
        words = [str(OPERATE / "ask"), "--program", self.group.program, "--again", "--for", "120", str(NUMBER), *self.group.addresses, *more]
        return subprocess.run(words, input=lines, stdout=subprocess.PIPE, stderr=subprocess.DEVNULL, text=True, check=False).stdout.splitlines()

    def run(self) -> str:
        """Why it isn't well; an empty text where it is."""
        self.commands.start_all()
        self.group.await_leader(120)
        if self.ask("".join(f"put k{i} v{i}\n" for i in range(VALUES))) != ["ok"] * VALUES:
            return "no group before anything was moved"
        for _ in range(self.chance.randrange(1, MOST + 1)):
            if not self.killed(draw_kill(self.chance)):
                break
        with open(self.group.file(0) + ".walk", "ab") as said:
            ended = subprocess.run([*self.commands.words(), "--go"], stdin=subprocess.DEVNULL, stdout=said, stderr=said, timeout=WALK, check=False).returncode
        return self.judge(ended)

    def killed(self, kill: Kill) -> bool:
        """Runs the walk, and kills it; whether it was killed before its end."""
        before = self.count()
        with open(self.group.file(0) + ".walk", "ab") as said:
            child = subprocess.Popen([*self.commands.words(), "--go"], stdin=subprocess.DEVNULL, stdout=said, stderr=said, start_new_session=True)
        until = time.monotonic() + WALK
        while child.poll() is None and self.count() < before + kill.commands and time.monotonic() < until:
            time.sleep(0.005)
        try:
            child.wait(kill.seconds)
            return False
        except subprocess.TimeoutExpired:
            (os.kill if kill.is_alone else os.killpg)(child.pid, signal.SIGKILL)
            child.wait()
        self.kills.append(str(kill))
        return True

    def count(self) -> int:
        """How many commands were begun."""
        return os.path.getsize(self.begun)

    def judge(self, ended: int) -> str:
        if ended != 0:
            with open(self.group.file(0) + ".walk", encoding="utf-8", errors="replace") as file:
                return f"run again it ended with {ended}: {file.read().splitlines()[-2:]}"
        down = [f"{member}: {state}" for member, state in self.states().items() if state not in ("leads", "follows")]
        if down:
            return f"members that don't run in version 2: {', '.join(down)}"
        values = self.ask("".join(f"get k{i}\n" for i in range(VALUES)), "--v2")
        return "" if values == [f"value v{i}" for i in range(VALUES)] else f"read in the end: {values}"

    def states(self) -> Dict[int, str]:
        return {member: (self.group.health(member) or {"state": "no keeper"})["state"] for member in range(self.group.size)}

    def end(self) -> None:
        self.commands.stop_all()
        self.group.close()


def one(seed: int, size: int) -> Tuple[int, str]:
    """Tries a group; how many kills there were, and why it isn't well."""
    begun, trial = time.monotonic(), Trial(seed, size)
    try:
        why = trial.run()
    except subprocess.TimeoutExpired:
        why = f"run again it didn't end in {WALK:.0f} s"
    finally:
        trial.end()
    print(f"{'FAILED' if why else 'well'}: group {seed}, {time.monotonic() - begun:.0f} s, killed after {'; '.join(trial.kills) or 'its end'}{': ' + why if why else ''}", flush=True)
    return len(trial.kills), why


def main() -> int:
    words = parse_words()
    program.or_end()
    wanted = 1 if words.again is not None else MOST if words.short else words.kills
    kills = failed = count = 0
    while kills < wanted and (words.again is None or count == 0):
        more, why = one((words.seed if words.again is None else words.again) + count, words.size)
        kills, failed, count = kills + more, failed + bool(why), count + 1
    print(f"{kills} kills of the walks through {count} groups; {failed} groups weren't well in the end")
    return 1 if failed or not kills else 0


if __name__ == "__main__":
    standard.end(main)
