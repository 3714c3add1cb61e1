"""What every script of operate/ has: a page of help, a refusal of wrong words, and an end without a traceback where its reader has gone. And the lines of the unit."""

import glob
import os
import subprocess
import tempfile
import unittest
from typing import List, Tuple

from nozhgiva_tools.places import OPERATE, PACKAGING

HERE = str(OPERATE)
UNREAD = 141


def scripts() -> List[str]:
    """All that a person runs."""
    paths = [path for path in glob.glob(os.path.join(HERE, "*"))]
    return sorted(path for path in paths if os.path.isfile(path) and os.access(path, os.X_OK))


def run_unread(words: List[str]) -> Tuple[int, str]:
    """How it ends where nobody reads its output: its code, and what it says."""
    reader, writer = os.pipe()
    os.close(reader)
    made = subprocess.run(words, input="get a\n", stdout=writer, stderr=subprocess.PIPE, text=True, timeout=60, env=dict(os.environ, PLAN=os.path.join(tempfile.gettempdir(), "no-plan")))
    os.close(writer)
    return made.returncode, made.stderr


class Scripts(unittest.TestCase):
    def test_help_and_wrong_words(self) -> None:
        self.assertGreater(len(scripts()), 10)
        for path in scripts():
            with self.subTest(os.path.relpath(path, HERE)):
                made = subprocess.run([path, "--help"], capture_output=True, text=True, timeout=60)
                self.assertEqual((made.returncode, made.stderr), (0, ""))
                self.assertGreater(len(made.stdout), 100)
                made = subprocess.run([path, "--no-such-word"], stdin=subprocess.DEVNULL, capture_output=True, text=True, timeout=60)
                self.assertEqual(made.returncode, 2, made.stderr)
                self.assertNotIn("Traceback", made.stderr)

    def test_a_reader_that_has_gone(self) -> None:
        with tempfile.NamedTemporaryFile() as file:
            file.write(bytes(10_000))
            file.flush()
            no_client = ["ask", "--for", "0.1", "5", "127.0.0.1:1", "127.0.0.1:2"]
            help_codes = {0, UNREAD}  # by whether Python holds back what it writes
            for words, codes in [(["inspect", file.name], {UNREAD}), (["inspect", file.name, "health"], {UNREAD}), (no_client, {UNREAD}), (["inspect", "--help"], help_codes), (["keep",
                                                                                                                                                                                 "--help"],
                                                                                                                                                                                help_codes)]:
                with self.subTest(str(words)):
                    ended, said = run_unread([os.path.join(HERE, words[0])] + words[1:])
                    self.assertIn(ended, codes)
                    self.assertRegex(said, r"\A(ask: no answer: [^\n]*\n)?\Z")


class Unit(unittest.TestCase):
    def test_the_sample_of_the_groups_file_is_read_by_a_shell(self) -> None:
        with open(PACKAGING / "nozhgiva@.service", encoding="utf-8") as file:
            lines = [line[4:] for line in file if line.startswith(("#   CLUSTER=", "#   ADDRS="))]
        self.assertEqual(len(lines), 2)
        with tempfile.NamedTemporaryFile("w") as sample:
            sample.write("".join(lines))
            sample.flush()
            made = subprocess.run(["sh", "-c", '. "$1"; set -- $CLUSTER $ADDRS; echo $# $1 $4', "sh", sample.name], capture_output=True, text=True)
        self.assertEqual((made.stdout, made.stderr), ("4 5 10.0.0.3:4000\n", ""))

    def test_a_reload_opens_the_log_anew_and_no_start_makes_a_member(self) -> None:
        with open(PACKAGING / "nozhgiva@.service", encoding="utf-8") as file:
            words = [line.strip() for line in file if not line.startswith("#")]
        self.assertIn("ExecReload=kill -HUP $MAINPID", words)
        self.assertFalse(any("--fresh" in line or "make-member" in line for line in words))
        self.assertIn("RestartPreventExitStatus=2 6 7 9 10 12 21", words)
