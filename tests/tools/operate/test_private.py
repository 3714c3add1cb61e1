"""Whose the files are that operate/ makes: they hold keys and values, so they are for their owner alone, whatever the umask is."""

import os
import subprocess
import tempfile

from .test_keep import HERE, Keeping, Kept

PUT = "commit 0 op 1 view 0 client 1 request 1 put color"
GOT = "reply 0 client 1 request 2 op 2 value"
PLAN = f"say start 0 view 0 log_view 0 commit 0\nsay {PUT} green\nsay {GOT} green\npart commit 0 op 2 view 0 client 1 request 3 put shape rou\nexit 0\n\nstand"


class Private(Keeping):
    def setUp(self) -> None:
        self.addCleanup(os.umask, os.umask(0))

    def check(self, *paths: str) -> None:
        for path in paths:
            self.assertEqual(oct(os.stat(path).st_mode & 0o777), "0o600", path)

    def test_what_a_keeper_writes(self) -> None:
        beats = "\n".join(f"say {PUT} {'x' * 1000}{number}" for number in range(1200))
        kept = self.keep(f"{PLAN.splitlines()[0]}\n{beats}\nstand", "--log-size", "1", "--most", "100000")
        self.assertTrue(kept.until(lambda: os.path.exists(kept.file + ".log.1")))
        self.check(kept.file + ".log", kept.file + ".log.1", kept.file + ".keep", kept.file + ".socket")

    def test_what_watch_writes(self) -> None:
        with tempfile.TemporaryDirectory(prefix="vr-private-") as folder:
            subprocess.run([os.path.join(HERE, "watch"), "--log", f"{folder}/log"], input=f"{PUT} green\n", text=True, capture_output=True, check=True)
            self.check(f"{folder}/log")

    def test_what_make_member_has_made(self) -> None:
        """The program makes the file by its umask, as this one does."""
        with tempfile.TemporaryDirectory(prefix="vr-private-") as folder:
            with open(f"{folder}/program", "w") as file:
                file.write('#!/bin/sh\n: > "$4"\n')
            os.chmod(f"{folder}/program", 0o755)
            words = [os.path.join(HERE, "make-member"), "--program", f"{folder}/program", "5", "0", f"{folder}/0", "127.0.0.1:1", "127.0.0.1:2"]
            made = subprocess.run(words, capture_output=True, text=True)
            self.assertEqual(made.returncode, 0, made.stderr)
            self.check(f"{folder}/0")


class Values(Keeping):
    def written(self, kept: Kept) -> str:
        self.assertTrue(kept.until(lambda: "put shape " in kept.log()))
        return kept.log()

    def test_they_stand_in_the_log(self) -> None:
        log = self.written(self.keep(PLAN))
        for text in (f"{PUT} green\n", f"{GOT} green\n", "put shape rou\n"):
            self.assertIn(text, log)

    def test_they_are_left_out(self) -> None:
        kept = self.keep(PLAN, "--no-values")
        log = self.written(kept)
        for text in (f"{PUT} *\n", f"{GOT} *\n", "put shape *\n"):
            self.assertIn(text, log)
        self.assertNotIn("green", log + kept.end()[1])

    def test_watch_leaves_them_out(self) -> None:
        for options, value in (((), "green"), (("--no-values",), "*")):
            made = subprocess.run([os.path.join(HERE, "watch"), *options], input=f"{PUT} green\n", text=True, capture_output=True, check=True)
            self.assertIn(f"{PUT} {value}\n", made.stdout)
