"""Real members under keepers on loopback: asked, killed, damaged, and restarted one by one. Without the built program this is left out."""

import os
import signal
import subprocess
import tempfile
import time
import unittest
from typing import Callable

from nozhgiva_tools.operate import asking, vitals as health
from nozhgiva_tools.places import OPERATE
from nozhgiva_tools.run import built as program
from nozhgiva_tools.run.group import NUMBER
from nozhgiva_tools.run.keepers import Kept
from nozhgiva_tools.run.nets import Net
from nozhgiva_tools.told import datafile

HERE = str(OPERATE)


@unittest.skipUnless(program.is_there(), program.MISSING)
class Real(unittest.TestCase):
    def ask(self, group: Kept, lines: str) -> str:
        words = [os.path.join(HERE, "ask"), "--program", group.program, "--again", "--for", "120", str(NUMBER)] + group.addresses
        return subprocess.run(words, input=lines, capture_output=True, text=True).stdout

    def until(self, what: Callable[[], bool], seconds: float = 120.0) -> None:
        end = time.monotonic() + seconds
        while not what():
            self.assertLess(time.monotonic(), end)
            time.sleep(0.1)

    def test_two_members_whose_files_cant_tell_of_a_slot(self) -> None:
        """Each alone denies nothing of it; once its slots are written anew the group goes on without the member that led."""
        group = Kept(Net(3), options=("--patience", "60", "--renew", "0.02"))
        self.addCleanup(group.close)
        group.start_all()
        group.await_leader(120)
        self.assertEqual(self.ask(group, "put color green\n"), "ok\n")
        leader = group.await_leader(120)
        others = [member for member in range(3) if member != leader]
        for member in others:
            group.stop(member)
            # the slot of the next operation: one of a later operation would be no reason to wait
            following = datafile.look(group.file(member)).slots.head() + 1
            with open(group.file(member), "r+b") as file:
                file.seek((datafile.HEADERS + following % datafile.SLOTS) * datafile.SECTOR)
                file.write(bytes([255]) * 64)
            group.start(member)
            self.until(lambda: "all slots are written anew" in "".join(group.said(member)))
        self.until(lambda: all((group.health(member) or {}).get("unsure") == "0" for member in others))
        group.stop(group.await_leader(120))
        self.assertEqual(self.ask(group, "get color\n"), "value green\n")

    def test_a_group_of_one(self) -> None:
        with tempfile.TemporaryDirectory(prefix="vr-one-") as folder:
            path, address = os.path.join(folder, "0"), Net(1).hosts[0]
            words = ["--program", program.PATH, str(NUMBER), "0", path, address]
            for code, more in ((0, ["--v2"]), (1, ["--v2"])):
                self.assertEqual(subprocess.run([os.path.join(HERE, "make-member")] + words + more, capture_output=True).returncode, code)
            child = subprocess.Popen([os.path.join(HERE, "keep")] + words, stderr=subprocess.DEVNULL)
            self.addCleanup(child.wait)
            self.addCleanup(child.kill)
            self.until(lambda: os.path.exists(path + ".socket") and health.read(asking.ask(path + ".socket", "health"))["state"] == "leads")
            before = asking.ask(path + ".socket", "health")
            rolled = subprocess.run([os.path.join(HERE, "roll"), "1", "--sockets", path + ".socket"], capture_output=True, text=True)
            self.assertEqual(rolled.returncode, 0, rolled.stdout + rolled.stderr)
            self.assertLess(float(health.read(asking.ask(path + ".socket", "health"))["up"]), float(health.read(before)["up"]) + 60)
            child.terminate()
            self.assertEqual(child.wait(30), 0)

    def test_a_kill_and_a_roll(self) -> None:
        group = Kept(Net(3), options=("--patience", "60"))
        self.addCleanup(group.close)
        group.start_all()
        group.await_leader(120)
        self.assertEqual(self.ask(group, "put color green\nget color\n"), "ok\nvalue green\n")
        before = [group.process(member) for member in range(3)]
        group.signal(0, signal.SIGKILL)
        end = time.monotonic() + 60
        while group.process(0) == before[0] and time.monotonic() < end:
            time.sleep(0.1)
        self.assertNotEqual(group.process(0), before[0])
        rolled = subprocess.run([os.path.join(HERE, "roll"), "3", "--bound", "200", "--hold-after", "100", "--sockets", group.file(0)[:-1] + "{}.socket"], capture_output=True, text=True)
        self.assertEqual(rolled.returncode, 0, rolled.stdout + rolled.stderr)
        self.assertTrue(all(group.process(member) != before[member] for member in range(3)))
        self.assertEqual(self.ask(group, "get color\n"), "value green\n")
