"""A keeper with a member that is played, at the edge: no file, no program, faults that pass, logs, signals, a member that hangs, slots that the file can't tell of."""

import os
import shutil
import signal
import socket
import subprocess
import tempfile
import time
import unittest
from typing import Tuple

from nozhgiva_tools.operate import asking
from nozhgiva_tools.run import built as program
from nozhgiva_tools.told import datafile

from .test_keep import HERE, Keeping, Kept, MEMBER

START = "say start 0 view 0 log_view 0 commit 0"


class Files(Keeping):
    def refused(self, path: str) -> Tuple[int, str]:
        """How a keeper of this path ends: its code, and what it says."""
        words = [os.path.join(HERE, "keep"), "--program", MEMBER, "5", "0", path, "127.0.0.1:1", "127.0.0.1:2"]
        made = subprocess.run(words, capture_output=True, text=True, timeout=60)
        return made.returncode, made.stderr

    def test_a_file_is_never_made(self) -> None:
        kept = self.keep("stand")
        folder = kept.folder.name
        os.mkdir(f"{folder}/mounted")
        open(f"{folder}/empty", "w").close()
        os.mkfifo(f"{folder}/pipe")
        before = sorted(os.listdir(folder))
        for path, code, text in [("mounted/1", 9, f"there is no file {folder}/mounted/1 (the folder {folder}/mounted is there)"), ("unmounted/1", 9, "isn't there either"),
                                 ("empty", 9, "is empty"), ("mounted", 7, "is no plain file"), ("pipe", 7, "is no plain file")]:
            with self.subTest(path):
                ended, said = self.refused(f"{folder}/{path}")
                self.assertEqual(ended, code)
                self.assertIn(text, said)
        self.assertEqual(os.listdir(f"{folder}/mounted"), [])
        self.assertEqual([name for name in sorted(os.listdir(folder)) if name not in before and not name.startswith("0")], [])

    def test_a_file_that_has_gone_is_no_reason_to_start(self) -> None:
        kept = self.keep("stand")
        self.assertTrue(kept.until(lambda: kept.starts() == 1))
        os.unlink(kept.file)
        os.kill(kept.member(), signal.SIGKILL)
        self.assertTrue(kept.until(lambda: kept.child.poll() is not None))
        self.assertEqual(kept.starts(), 1)
        code, said = kept.end(by_itself=True)
        self.assertEqual(code, 9)
        self.assertIn("there is no file", said)

    def test_a_file_that_cannot_be_read_is_told_while_its_member_runs(self) -> None:
        """Removed; written over; put back; and another file under its name, of which its member has nothing."""
        kept = self.keep(f"{START}\nopen\nstand")

        def is_told(*words: str) -> bool:
            return kept.until(lambda: all(f" {word} " in kept.ask("health") for word in words), 40)

        with open(kept.file, "rb") as whole:
            data = whole.read()
        self.assertTrue(is_told("well=yes", "has_state=yes", "version=1"))
        os.rename(kept.file, kept.file + ".away")
        self.assertTrue(is_told("well=no_file", "has_state=no", "version=-"))
        made = subprocess.run([os.path.join(HERE, "health"), kept.file + ".socket"], capture_output=True, text=True)
        self.assertEqual(made.returncode, 1)
        with open(kept.file, "wb") as file:
            file.write(data)
        self.assertFalse(kept.until(lambda: "well=yes" in kept.ask("health"), 4))
        os.rename(kept.file + ".away", kept.file)
        self.assertTrue(is_told("well=yes", "has_state=yes"))
        with open(kept.file, "r+b") as file:
            file.write(bytes(4 * datafile.COPY))
        self.assertTrue(is_told("well=no_file", "has_state=no"))
        log = kept.log()
        self.assertEqual((log.count("can't be read as a member's: what its member has is lost once it ends"), log.count("can be read again")), (2, 1), log)
        self.assertEqual(kept.starts(), 1)

    def test_no_program(self) -> None:
        kept = self.keep("stand", program="/no/such/program")
        code, said = kept.end(by_itself=True)
        self.assertEqual(code, 2)
        self.assertIn("there is no program /no/such/program", said)


class Passing(Keeping):
    def test_a_fault_of_the_disk_before_the_file_is_open_is_tried_again_a_few_times(self) -> None:
        kept = self.keep(f"exit 7\n\nexit 7\n\n{START}\nstand")
        self.assertTrue(kept.until(lambda: kept.starts() == 3))
        self.assertTrue(kept.until(lambda: "view=0" in kept.ask("health")))
        kept = self.keep("exit 7")
        code, said = kept.end(by_itself=True)
        self.assertEqual(code, 7)
        self.assertEqual(said.count("and is started again"), 5)
        self.assertIn("lslocks", said)

    def test_a_port_that_is_taken_is_tried_again_soon(self) -> None:
        kept = self.keep("\n\n".join(["exit 8"] * 12 + ["stand"]))  # whose pauses are 220 s where each is twice the one before
        self.assertTrue(kept.until(lambda: kept.starts() == 13, 120))


class Logs(Keeping):
    def test_a_log_that_cannot_be_opened_holds_nobody_up(self) -> None:
        kept = self.keep(f"{START}\nbeat 60 commit 0 op 12 view 0", "--log", "/dev/null/log")
        self.assertTrue(kept.until(lambda: "applied=12" in kept.ask("health")))
        self.assertIn("can't be written: Not a directory", kept.end()[1])

    def test_a_log_of_five_gigabytes_is_put_aside(self) -> None:
        kept = Kept(f"{START}\nbeat 60 commit 0 op 12 view 0", begins=False)
        self.addCleanup(kept.end)
        with open(kept.file + ".log", "wb") as file:
            file.truncate(5_000_000_000)
        kept.begun = kept.begin()
        self.assertTrue(kept.until(lambda: "applied=12" in kept.ask("health")))
        kept.child.send_signal(signal.SIGUSR1)
        self.assertTrue(kept.until(lambda: os.path.exists(kept.file + ".log.1") and os.path.getsize(kept.file + ".log.1") > 5_000_000_000 > 10_000 * os.path.getsize(kept.file + ".log")))

    def test_hup_opens_the_log_anew_and_restarts_nobody(self) -> None:
        kept = self.keep(f"{START}\nstand")
        self.assertTrue(kept.until(lambda: "Z start 0 view 0" in kept.log()))
        os.rename(kept.file + ".log", kept.file + ".moved")
        kept.child.send_signal(signal.SIGHUP)
        self.assertTrue(kept.until(lambda: "the log is opened anew" in kept.log() or os.path.exists(kept.file + ".log")))
        kept.child.send_signal(signal.SIGUSR1)
        self.assertTrue(kept.until(lambda: "member=0" in kept.log()))
        self.assertEqual(kept.starts(), 1)

    def test_hup_before_it_takes_signals(self) -> None:
        """The start of Python is made slow, and the keeper gets its HUP in it."""
        made = tempfile.TemporaryDirectory(prefix="vr-hup-")
        self.addCleanup(made.cleanup)
        folder = made.name
        with open(f"{folder}/python3", "w") as file:
            file.write(f"#!/bin/sh\ntouch {folder}/begun\nwhile [ ! -e {folder}/go ]; do sleep 0.05; done\nexec {shutil.which('python3')} \"$@\"\n")
        os.chmod(f"{folder}/python3", 0o755)
        child = subprocess.Popen([os.path.join(HERE, "keep"), "5", "0", "/no/such/file", "a:1", "--program", "/bin/true"], stderr=subprocess.PIPE, text=True,
                                 env=dict(os.environ, PATH=f"{folder}:{os.environ['PATH']}"))
        self.addCleanup(child.kill)
        end = time.monotonic() + 30
        while not os.path.exists(f"{folder}/begun") and time.monotonic() < end:
            time.sleep(0.02)
        child.send_signal(signal.SIGHUP)
        open(f"{folder}/go", "w").close()
        self.assertIn("there is no file /no/such/file", child.communicate(timeout=60)[1])
        self.assertEqual(child.returncode, 9)


class Living(Keeping):
    def test_a_member_that_is_alone_leads_once_it_has_chosen(self) -> None:
        kept = Kept(f"{START}\nsay choose 0 view 1 log 0 commit 0 head 3 own hhh\nstand", alone=True)
        self.addCleanup(kept.end)
        self.assertTrue(kept.until(lambda: "well=yes state=leads view=1" in kept.ask("health")))

    def test_a_member_that_hangs_is_told(self) -> None:
        kept = self.keep(f"{START}\nstand")
        self.assertTrue(kept.until(lambda: "well=yes state=follows" in kept.ask("health")))
        os.kill(kept.member(), signal.SIGSTOP)
        self.assertTrue(kept.until(lambda: "well=hangs" in kept.ask("health")))
        os.kill(kept.member(), signal.SIGCONT)
        self.assertTrue(kept.until(lambda: "well=yes" in kept.ask("health")))

    def test_who_asks_and_says_nothing_holds_nobody_up(self) -> None:
        kept = self.keep(f"{START}\nstand")
        self.assertTrue(kept.until(lambda: "view=0" in kept.ask("health")))
        silent = []
        for _ in range(100):
            silent.append(socket.socket(socket.AF_UNIX, socket.SOCK_STREAM))
            silent[-1].connect(kept.file + ".socket")
            self.addCleanup(silent[-1].close)
        self.assertIn("member=0", asking.ask(kept.file + ".socket", "health"))


@unittest.skipUnless(program.is_there(), program.MISSING)
class Unsure(Keeping):
    """The header sector of a slot that was never used is damaged, and the member started: it can't deny that an operation stood there."""

    CLIENT = "say session\n" + "read\nsay absent\n" * 64 + "exit 0"

    def damaged(self, plan: str) -> Kept:
        """A keeper, of a played member, on a real file with such damage."""
        kept = Kept(plan, "--renew", "0.01", begins=False)
        self.addCleanup(kept.end)
        os.unlink(kept.file)
        subprocess.run([program.PATH, "node", "5", "0", kept.file, "1", "127.0.0.1:47990", "127.0.0.1:47991", "--fresh"], check=True, stdout=subprocess.DEVNULL)
        with open(kept.file, "r+b") as file:
            file.seek((datafile.HEADERS + 20) * datafile.SECTOR)
            file.write(bytes([255]) * 64)
        kept.begun = kept.begin()
        return kept

    def test_it_is_told_and_all_slots_are_written_anew_once(self) -> None:
        kept = self.damaged(f"{START}\nstand\n\n{self.CLIENT}\n\nstand")
        self.assertTrue(kept.until(lambda: "well=unsure" in kept.ask("health") and " unsure=1 " in kept.ask("health"), 40))
        made = subprocess.run([os.path.join(HERE, "health"), kept.file + ".socket"], capture_output=True, text=True)
        self.assertEqual(made.returncode, 1)
        self.assertTrue(kept.until(lambda: "64 gets were answered" in kept.log(), 40))
        self.assertFalse(kept.until(lambda: kept.starts() > 2, 2))

    def test_no_session_is_ended_for_it(self) -> None:
        registers = "\n".join(f"say commit 0 op {op} view 0 client {op} request 0 register" for op in range(1, 32))
        kept = self.damaged(f"{START}\n{registers}\nstand\n\nstand")
        self.assertTrue(kept.until(lambda: "31 of 32 sessions are in use" in kept.log(), 40))
        self.assertEqual(kept.starts(), 1)
