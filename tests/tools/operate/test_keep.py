"""A keeper with a member that is played: ends, standstills, lines that are cut, signals, questions."""

import os
import signal
import socket
import subprocess
import tempfile
import time
import unittest
from typing import Callable, Optional, Tuple

from nozhgiva_tools.operate import asking, keeper, vitals as health
from nozhgiva_tools.places import OPERATE

from .files import fresh

HERE = str(OPERATE)
MEMBER = os.path.join(os.path.dirname(os.path.realpath(__file__)), "member")


class Kept:
    """A keeper of a member that does what a plan says."""

    def __init__(self, plan: str, *options: str, program: str = MEMBER, alone: bool = False, begins: bool = True, replica: int = 0) -> None:
        self.folder = tempfile.TemporaryDirectory(prefix="vr-keep-")
        self.file = os.path.join(self.folder.name, "0")
        with open(self.file + ".plan", "w") as file:
            file.write(plan)
        with open(self.file, "wb") as data:
            data.write(fresh(5, replica, 1 if alone else 2))
        self.words = [os.path.join(HERE, "keep"), "--program", program, "--pause", "0.1", "--log", self.file + ".log"] + list(options)
        self.words += ["5", str(replica), self.file, "127.0.0.1:1"] + ([] if alone else ["127.0.0.1:2"])
        self.begun = self.begin() if begins else None
        self.ended: Optional[Tuple[int, str]] = None

    def begin(self) -> "subprocess.Popen[str]":
        return subprocess.Popen(self.words, env=dict(os.environ, PLAN=self.file + ".plan"), stderr=subprocess.PIPE, text=True)

    @property
    def child(self) -> "subprocess.Popen[str]":
        """The keeper's process, once it was begun."""
        assert self.begun is not None
        return self.begun

    def starts(self) -> int:
        try:
            return os.path.getsize(self.file + ".plan.starts")
        except OSError:
            return 0

    def log(self) -> str:
        try:
            with open(self.file + ".log") as file:
                return file.read()
        except OSError:
            return ""

    def ask(self, question: str) -> str:
        """What the keeper answers; nothing until it does."""
        try:
            return asking.ask(self.file + ".socket", question)
        except OSError:
            return ""

    def member(self) -> int:
        """The member's process, as its keeper wrote it."""
        return int(self.lock().split("\n")[0].split(", member ")[1])

    def lock(self) -> str:
        """What its keeper wrote of itself, and of the file."""
        try:
            with open(self.file + ".keep") as file:
                return file.read()
        except OSError:
            return ""

    def until(self, what: Callable[[], bool], seconds: float = 20.0) -> bool:
        end = time.monotonic() + seconds
        while time.monotonic() < end:
            if what():
                return True
            time.sleep(0.05)
        return False

    def end(self, by_itself: bool = False) -> Tuple[int, str]:
        """Ends the keeper, or waits until it has ended by itself: its code, and what it said."""
        if self.ended is None:
            if not by_itself and self.child.poll() is None:
                self.child.terminate()
            said = self.child.communicate(timeout=30)[1]
            self.folder.cleanup()
            self.ended = self.child.returncode, said
        return self.ended


class Keeping(unittest.TestCase):
    def keep(self, plan: str, *options: str, program: str = MEMBER, replica: int = 0) -> Kept:
        """A keeper that is ended with the test."""
        kept = Kept(plan, *options, program=program, replica=replica)
        self.addCleanup(kept.end)
        return kept


class Ends(Keeping):
    def test_codes_that_somebody_has_to_look_at(self) -> None:
        for code, what in [(2, "addresses"), (6, "output"), (7, "lslocks"), (9, "superblock"), (10, "another member's"), (12, "--fresh"), (77, "no member ends so")]:
            with self.subTest(code):
                kept = self.keep(f"say start 0 view 0 log_view 0 commit 0\nexit {code}")
                self.assertTrue(kept.until(lambda: kept.child.poll() is not None))
                self.assertEqual(kept.starts(), 1)
                ended, said = kept.end(by_itself=True)
                self.assertEqual(ended, code)
                self.assertIn(what, said)
                self.assertIn("isn't started again", said)

    def test_ends_that_are_followed_by_a_start(self) -> None:
        for code in (0, 8, 11):
            with self.subTest(code):
                kept = self.keep(f"exit {code}\n\nsay start 0 view 0 log_view 0 commit 0\nstand")
                self.assertTrue(kept.until(lambda: kept.starts() == 2))
                self.assertEqual(kept.end()[0], 0)

    def test_a_signal_is_followed_by_a_start(self) -> None:
        kept = self.keep("stand")
        self.assertTrue(kept.until(lambda: kept.starts() == 1))
        os.kill(kept.member(), signal.SIGKILL)
        self.assertTrue(kept.until(lambda: kept.starts() == 2))
        code, said = kept.end()
        self.assertEqual(code, 0)
        self.assertIn("ended by signal 9, and is started again", said)

    def test_an_output_that_ends_is_the_end_of_its_member(self) -> None:
        kept = self.keep("close\nstand\n\nstand")
        self.assertTrue(kept.until(lambda: kept.starts() == 2))

    def test_a_member_ends_with_its_keeper(self) -> None:
        kept = self.keep("stand")
        self.assertTrue(kept.until(lambda: kept.starts() == 1))
        member = kept.member()
        self.assertEqual(kept.end()[0], 0)
        self.assertRaises(ProcessLookupError, os.kill, member, 0)


class Standstills(Keeping):
    def test_it_ends_one_and_touches_it_no_more_once_it_goes_on(self) -> None:
        kept = self.keep(
            "say start 0 view 0 log_view 0 commit 0\nbeat 20 send 1 0 1 commit view 0 op 9 commit 7\nexit 7\n\n"
            "say start 0 view 1 log_view 0 commit 7\nbeat 8 send 1 0 1 commit view 3 op 9 commit 9\nstand",
            "--patience", "2")
        self.assertTrue(kept.until(lambda: kept.starts() == 2, 10))
        self.assertFalse(kept.until(lambda: kept.starts() > 2, 4))
        self.assertEqual(health.read(kept.ask("health"))["restarts"], "1")
        code, said = kept.end()
        self.assertIn("is stopped and started: leads view 0, and its commit number 7 hasn't moved", said)

    def test_no_patience_is_patience_for_ever(self) -> None:
        kept = self.keep("beat 6 send 1 0 1 commit view 0 op 9 commit 7\nstand", "--patience", "0")
        self.assertFalse(kept.until(lambda: kept.starts() > 1, 5))
        self.assertIn("stands", kept.ask("health"))


class Lines(Keeping):
    def test_a_line_cut_in_two_is_one(self) -> None:
        kept = self.keep("part commit 0 op 12 vie\nwait 0.3\nsay w 0 client 1 request 1 put a b\nstand")
        self.assertTrue(kept.until(lambda: "applied=12" in kept.ask("health")))
        self.assertTrue(kept.until(lambda: "Z commit 0 op 12 view 0 client 1 request 1 put a b\n" in kept.log()))

    def test_the_front_of_a_line_that_was_never_ended_is_written_and_not_believed(self) -> None:
        kept = self.keep("part commit 0 op 12 view 0\nexit 0\n\nstand")
        self.assertTrue(kept.until(lambda: "Z commit 0 op 12 view 0\n" in kept.log()))
        self.assertIn("applied=0", kept.ask("health"))

    def test_a_log_that_cannot_be_written_holds_nothing_up(self) -> None:
        beats = "\n".join(f"say reply 0 client 1 request {number} op 1 ok" for number in range(3000))
        kept = self.keep(beats + "\nsay commit 0 op 3 view 0 client 1 request 1 put a b\nstand", "--log", "/dev/full")
        self.assertTrue(kept.until(lambda: "applied=3" in kept.ask("health")))
        self.assertNotEqual(health.read(kept.ask("health"))["dropped"], "0")


class Asking(Keeping):
    def test_restarts_and_health_by_socket_and_signal(self) -> None:
        kept = self.keep("say start 0 view 4 log_view 4 commit 32\nstand")
        self.assertTrue(kept.until(lambda: "view=4" in kept.ask("health")))
        self.assertEqual(kept.ask("restart"), "restarting")
        self.assertTrue(kept.until(lambda: kept.starts() == 2))
        self.assertTrue(kept.ask("what?").startswith("no question"))
        made = subprocess.run([os.path.join(HERE, "health"), kept.file + ".socket"], capture_output=True, text=True)
        self.assertEqual((made.returncode, health.read(made.stdout)["member"]), (0, "0"))
        kept.child.send_signal(signal.SIGUSR1)
        code, said = kept.end()
        self.assertIn("keep: member=0 well=yes", said)

    def test_health_without_a_keeper(self) -> None:
        made = subprocess.run([os.path.join(HERE, "health"), "/no/such/socket"], capture_output=True, text=True)
        self.assertEqual(made.returncode, 3)
        self.assertIn("no keeper answers", made.stderr)

    def test_health_by_the_keepers_port(self) -> None:
        with socket.create_server(("127.0.0.1", 0)) as one:
            port = f"127.0.0.1:{one.getsockname()[1]}"
        script = os.path.join(HERE, "health")
        kept = self.keep("say start 0 view 4 log_view 4 commit 32\nstand", "--health", port)
        self.assertTrue(kept.until(lambda: "view=4" in kept.ask("health")))
        made = subprocess.run([script, port], capture_output=True, text=True)
        self.assertEqual((made.returncode, health.read(made.stdout)["view"]), (0, "4"), made.stderr)
        made = subprocess.run([script, port, "--restart"], capture_output=True, text=True)
        self.assertEqual((made.returncode, kept.starts()), (2, 1))
        self.assertIn("--restart takes the keeper's socket", made.stderr)
        kept.end()
        made = subprocess.run([script, port], capture_output=True, text=True)
        self.assertEqual((made.returncode, made.stderr), (3, f"health: no keeper answers at {port}: Connection refused\n"))

    def test_a_second_keeper_is_refused(self) -> None:
        kept = self.keep("stand")
        self.assertTrue(kept.until(lambda: kept.starts() == 1))
        second = kept.begin()
        said = second.communicate(timeout=20)[1]
        self.assertEqual(second.returncode, keeper.HELD)
        self.assertIn(f"kept already (keeper {kept.child.pid}, member", said)
        self.assertEqual(kept.starts(), 1)

    def test_words_that_are_wrong(self) -> None:
        for words in (["5", "0"], ["5", "x", "f", "a"], ["--patience", "1", "5", "0", "f", "a"], ["--fresh", "5", "0", "f", "a"]):
            with self.subTest(str(words)):
                made = subprocess.run([os.path.join(HERE, "keep")] + words, capture_output=True, text=True)
                self.assertEqual(made.returncode, 2)
                self.assertIn("usage: keep", made.stderr)
