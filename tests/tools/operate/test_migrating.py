"""A group is moved to version 2: by what played members and files tell, and with real ones. Without the built program the real ones are left out."""

import argparse
import os
import subprocess
import time
import unittest
from typing import Callable, Dict, List, Optional, Set, TypeVar

from nozhgiva_tools.operate import migrate_group as script
from nozhgiva_tools.operate.migrating import File, HANDOVER, Hands, Walk
from nozhgiva_tools.operate.rolling import Bounds, Stopped
from nozhgiva_tools.places import DOCS, OPERATE, words_of_module
from nozhgiva_tools.run import built as program
from nozhgiva_tools.run.group import NUMBER
from nozhgiva_tools.run.keepers import Kept
from nozhgiva_tools.run.nets import Net
from nozhgiva_tools.told import datafile
from tests.group import killed
from tests.group.killed import Commands

HERE = str(OPERATE)
Answer = TypeVar("Answer")


class Killed(Exception):
    """The walk is ended in its midst."""


class Played:
    """A group in counted time. `loses`: what a member's file loses when it is moved; `codes`: with what its move ends."""

    def __init__(self, size: int, leader: int = 0) -> None:
        self.size, self.leader, self.now = size, leader, 0.0
        self.version = {member: 1 for member in range(size)}
        self.since: Dict[int, Optional[float]] = {member: -100.0 for member in range(size)}
        self.lost: Dict[int, Set[str]] = {member: set() for member in range(size)}
        self.loses: Dict[int, Set[str]] = {}
        self.codes: Dict[int, int] = {}
        self.done: List[str] = []
        self.silent = 0.0  # seconds for which nobody answered
        self.steps: Optional[int] = None  # after which the walk is killed
        self.rising = 0.0  # seconds after its start in which a member isn't in the view

    def answers(self) -> Optional[int]:
        """The version that answers, if one does: version 1 as long as its primary has enough others to go on, version 2 once it can change its view."""
        least = {1: {2: 2, 3: 2, 4: 2, 5: 3, 6: 3}[self.size], 2: {2: 2, 3: 2, 4: 3, 5: 3, 6: 4}[self.size]}
        counts = {version: sum(self.version[member] == version and self.since[member] is not None for member in range(self.size)) for version in (1, 2)}
        return next((version for version in (1, 2) if counts[version] >= least[version]), None)

    def leads(self) -> Optional[int]:
        running = [member for member in range(self.size) if self.since[member] is not None and self.version[member] == self.answers()]
        if self.leader in running:
            return self.leader
        return min(running, default=None)

    def health(self, member: int) -> Optional[Dict[str, str]]:
        since = self.since[member]
        if since is None:
            return None
        is_in = self.version[member] == self.answers() and self.now - since >= self.rising
        state = "changes" if not is_in else "leads" if member == self.leads() else "follows"
        return {"member": str(member), "well": "yes" if is_in else "changes", "state": state, "applied": "100", "commit": "100", "asks": "-", "mends": "-", "unsure": "0",
                "up": f"{self.now - since:.1f}"}

    def states(self) -> List[str]:
        """Those of the members that run."""
        told = [self.health(member) for member in range(self.size)]
        return [line["state"] for line in told if line is not None]

    def stop(self, member: int) -> None:
        self.done.append(f"stop {member}")
        self.since[member] = None

    def start(self, member: int) -> None:
        self.done.append(f"start {member}")
        self.since[member] = self.now

    def migrate(self, member: int) -> int:
        assert self.since[member] is None
        self.done.append(f"move {member}")
        if not self.codes.get(member):
            self.version[member] = 2
            self.lost[member] |= self.loses.pop(member, set())
        return self.codes.get(member, 0)

    def sleep(self, seconds: float) -> None:
        self.now += seconds
        self.silent += seconds * (self.answers() is None)

    def step(self, what: Callable[[int], Answer]) -> Callable[[int], Answer]:
        """What ends the walk where it is to be killed."""
        def made(member: int) -> Answer:
            if self.steps is not None and len(self.done) >= self.steps:
                raise Killed
            return what(member)
        return made

    def walk(self, *accepted: int, steps: Optional[int] = None) -> List[str]:
        """One run of the walk, which is killed after so many steps: what it did, and why it stopped."""
        self.done, self.steps = [], steps
        hands = Hands(self.health, lambda member: File(self.version[member], set(self.lost[member]), set()), self.step(self.stop), self.step(self.start),
                      self.step(self.migrate), self.sleep, lambda: self.now, lambda text: None)
        try:
            Walk(hands, self.size, Bounds(60.0, 15.0), set(accepted)).go()
        except Stopped as why:
            self.done.append(str(why))
        except Killed:
            pass
        return self.done


def one(member: int) -> List[str]:
    return [f"stop {member}", f"move {member}", f"start {member}"]


class Walking(unittest.TestCase):
    def test_one_after_the_other_and_who_leads_last(self) -> None:
        for size in (3, 4, 5, 6):
            for leader in (0, size - 1):
                with self.subTest((size, leader)):
                    played = Played(size, leader)
                    order = [member for member in range(size) if member != leader] + [leader]
                    self.assertEqual(played.walk(), [step for member in order for step in one(member)])
                    self.assertEqual(played.silent, 0)
                    self.assertEqual(played.walk(), [])

    def test_a_group_of_two_is_moved_at_once(self) -> None:
        self.assertEqual(Played(2).walk(), ["stop 1", "stop 0", "move 1", "move 0", "start 1", "start 0"])

    def test_what_was_broken_off_goes_on(self) -> None:
        played = Played(3)
        played.codes[1] = 7
        self.assertRegex(played.walk()[-1], "member 1: migrate ended with 7")
        played.codes.clear()
        played.since[1] = played.now
        self.assertEqual(played.walk(), one(1) + one(2) + one(0))

    def test_killed_after_a_stop_before_a_move(self) -> None:
        """Whoever isn't moved and has no keeper is started first; the walk is as ever then."""
        for size in (2, 3, 4, 5, 6):
            for member in range(size):
                with self.subTest((size, member)):
                    played = Played(size)
                    played.since[member] = None
                    done = played.walk()
                    self.assertEqual((done[0], sorted(step for step in done if step.startswith("move"))), (f"start {member}", [f"move {other}" for other in range(size)]))
                    self.assertNotIn(None, played.since.values())

    def test_killed_after_any_step(self) -> None:
        """However many steps were made of a walk, and wherever one is killed that is run again, what is run in the end ends well."""
        for size in (2, 3, 4, 5, 6):
            steps = len(Played(size).walk())
            for first in range(steps + 1):
                for second in range(0, steps + 1, 2):
                    with self.subTest((size, first, second)):
                        played = Played(size)
                        played.walk(steps=first)
                        played.walk(steps=second)
                        self.assertFalse([step for step in played.walk() if step.split()[0] not in ("start", "stop", "move")])
                        self.assertEqual((set(played.version.values()), None in played.since.values()), ({2}, False))

    def test_killed_after_its_last_start(self) -> None:
        """Run again it waits until the member that was started last is where it should be."""
        for size in (2, 3, 6):
            with self.subTest(size):
                played = Played(size)
                steps = len(Played(size).walk())
                played.walk(steps=steps - 1)
                played.start(0)
                played.rising = 3.0
                self.assertIn("changes", played.states())
                self.assertEqual(played.walk(), [])
                self.assertEqual((len(played.states()), "changes" in played.states()), (size, False))

    def test_a_member_that_lost_something_stops_it_before_the_handover(self) -> None:
        played = Played(3)
        played.loses[1] = {"operation 97"}
        done = played.walk()
        self.assertEqual(done[:-1], ["stop 1", "move 1"])
        self.assertRegex(done[-1], "member 1's file has lost what it held .*operation 97.* isn't started. The others answer in version 1.*--accept 1")
        self.assertEqual(played.answers(), 1)
        self.assertEqual(played.walk()[:-1], [])
        self.assertEqual(played.walk(1), ["stop 2", "move 2", "start 1", "start 2"] + one(0))

    def test_one_that_lost_something_at_the_handover_is_not_started_before_all_are_moved(self) -> None:
        played = Played(3)
        played.loses[2] = {"operation 97"}
        done = played.walk()
        self.assertEqual(done[:-1], one(1) + ["stop 2", "move 2"])
        self.assertRegex(done[-1], "The handover isn't made.*--accept 2")
        self.assertEqual(played.walk()[:-1], [])
        done = played.walk(2)
        self.assertEqual([step for step in done if step.startswith("move")], ["move 0"])
        self.assertGreater(min(i for i, step in enumerate(done) if step.startswith("start")), done.index("move 0"))
        self.assertEqual(played.answers(), 2)

    def test_damage_that_is_there_before(self) -> None:
        played = Played(3)
        played.lost[2] = {"operation 5"}
        self.assertRegex(played.walk()[0], "member 2's file has damage .operation 5.. Wait until it is mended")

    def test_handovers_as_the_page_has_them(self) -> None:
        with open(DOCS / "NODE.md") as file:
            rows = [line.split("|") for line in file if line.startswith(("| 3 |", "| 4 |", "| 5 |", "| 6 |")) and "the " in line.split("|")[3]]
        self.assertEqual({int(row[1]): int(row[3].split()[1][0]) for row in rows}, {size: move for size, move in HANDOVER.items() if size > 2})


class Lock(unittest.TestCase):
    def test_a_walk_waits_for_the_commands_of_one_that_was_killed(self) -> None:
        words = argparse.Namespace(cluster=NUMBER, stop=f"stop {os.getpid()}", start="start", migrate="move")
        path = script.lock_path(words)
        self.assertNotEqual(path, script.lock_path(argparse.Namespace(**dict(vars(words), stop="stop"))))
        lock = script.take_lock(path)
        child = subprocess.Popen(["sleep", "3"], pass_fds=[lock])
        self.addCleanup(child.wait)
        script.drop_lock(lock, path)
        self.assertTrue(os.path.exists(path))
        with self.assertRaisesRegex(Stopped, "another walk through this group, or a command of one that was killed, still runs"):
            script.take_lock(path, 0.1)
        self.assertIsNone(child.poll())
        lock = script.take_lock(path, 30.0)
        self.assertIsNotNone(child.wait())
        other = os.open(path, os.O_RDWR)
        self.addCleanup(os.close, other)
        script.drop_lock(lock, path)
        self.assertFalse(script.is_taken(other, path))  # it was removed meanwhile: whoever waited for it takes the next one
        self.assertFalse(os.path.exists(path))


SLOT = 5 % datafile.SLOTS
LOSSY = """#!/bin/sh
file={{folder}}/$1
{{program}} migrate {{cluster}} $1 {{size}} $file || exit
[ ! -e $file.lossy ] || {{{{ rm $file.lossy; dd if=/dev/zero of=$file bs=512 seek={seek} count=8 conv=notrunc 2> /dev/null; }}}}
""".format(seek=datafile.PREPARES[2] + datafile.PREPARE_SECTORS[2] * SLOT)


@unittest.skipUnless(program.is_there(), program.MISSING)
class Real(unittest.TestCase):
    def ask(self, group: Kept, lines: str, *more: str) -> str:
        words = [os.path.join(HERE, "ask"), "--program", group.program, "--again", "--for", "120", str(NUMBER)] + group.addresses + list(more)
        return subprocess.run(words, input=lines, capture_output=True, text=True).stdout

    def begin(self, group: Kept) -> List[str]:
        """Starts the members by commands, and gives the words that move them."""
        commands = Commands(group, move=LOSSY)
        commands.start_all()
        self.addCleanup(commands.stop_all)
        return commands.words()

    def test_a_group_whose_first_member_loses_an_entry_in_its_move(self) -> None:
        group = Kept(Net(3))
        self.addCleanup(group.close)
        words = self.begin(group)
        group.await_leader(120)
        self.assertEqual(self.ask(group, "".join(f"put k{i} v{i}\n" for i in range(8))), "ok\n" * 8)
        leader = group.await_leader(120)
        first = min(member for member in range(3) if member != leader)
        end = time.monotonic() + 60
        while (group.health(first) or {}).get("applied", "0") < "9" and time.monotonic() < end:
            time.sleep(0.1)
        open(f"{group.file(first)}.lossy", "w").close()
        planned = subprocess.run(words, capture_output=True, text=True)
        self.assertEqual((planned.returncode, planned.stdout.count("would move"), planned.stdout.count("handover")), (0, 3, 1), planned.stderr)
        moved = subprocess.run(words + ["--go"], capture_output=True, text=True)
        self.assertEqual(moved.returncode, 1, moved.stdout + moved.stderr)
        self.assertIn(f"member {first}'s file has lost what it held before it was moved (operation 5)", moved.stderr)
        self.assertEqual(self.ask(group, "get k1\n"), "value v1\n")
        moved = subprocess.run(words + ["--go", "--accept", str(first)], capture_output=True, text=True)
        self.assertEqual(moved.returncode, 0, moved.stdout + moved.stderr)
        self.assertEqual(self.ask(group, "get k1\nget k7\n", "--v2"), "value v1\nvalue v7\n")

    def test_walks_that_are_killed_are_run_again(self) -> None:
        made = subprocess.run(words_of_module(killed, "--short"), capture_output=True, text=True, env=dict(os.environ, NOZHGIVA_PROGRAM=program.PATH))
        self.assertEqual(made.returncode, 0, made.stdout + made.stderr)
