"""bench/figures as it is called: what it refuses, what it ends with, and a table out of counts that a stand-in for valgrind makes."""

import os
import shutil
import signal
import subprocess
import sys
import tempfile
import time
import unittest
from pathlib import Path
from typing import Dict, Optional

from nozhgiva_tools.places import BENCH

from .test_making import FIGURES, has_ended

SCRIPT = str(BENCH / "figures")
# As valgrind --tool=callgrind: 7 calls of the compression at the start, and 3 for each line of the input or event after the first.
VALGRIND = """#!/bin/sh
for word; do
    case $word in --callgrind-out-file=*) file=${word#*=} ;; esac
    last=$word
done
if [ "$last" = replay ]; then lines=$(wc -l); else lines=$last; fi
printf 'events: Ir\\nfn=main\\ncfn=sha2::block256::compress\\ncalls=%d 0\\n1 1\\ntotals: 1\\n' $((7 + 3 * (lines - 1))) > "$file"
"""


class Script(unittest.TestCase):
    def setUp(self) -> None:
        folder = tempfile.TemporaryDirectory()
        self.addCleanup(folder.cleanup)
        self.folder = Path(folder.name)
        (self.folder / "tmp").mkdir()

    def tool(self, name: str, text: str) -> str:
        """A program that stands in for another; its path."""
        path = self.folder / name
        path.write_text(text)
        path.chmod(0o755)
        return str(path)

    def env(self, **more: str) -> Dict[str, str]:
        return {**os.environ, "TMPDIR": str(self.folder / "tmp"), "PATH": f"{self.folder}:{os.environ['PATH']}", **more}

    def call(self, *words: str, env: Optional[Dict[str, str]] = None) -> "subprocess.CompletedProcess[str]":
        return subprocess.run([SCRIPT, *words], stdin=subprocess.DEVNULL, capture_output=True, text=True, env=env or self.env(), check=False, timeout=60)

    def test_the_list_tells_each_with_its_time_and_tools(self) -> None:
        ran = self.call("--list")
        self.assertEqual((ran.returncode, ran.stderr), (0, ""))
        self.assertEqual([line.split()[0] for line in ran.stdout.splitlines()], list(FIGURES))
        for line in ran.stdout.splitlines():
            self.assertRegex(line, r"some \d+ (s|minutes)")
        self.assertRegex(ran.stdout, r"(?m)^caches .*needs valgrind")

    def test_wrong_words_are_refused(self) -> None:
        for words in ((), ("nosuch",), ("--nosuch",), ("--list", "limit"), ("limit", "--write"), ("caches", "--nosuch"), ("caches", "--write", "--short"), ("schedule",),
                      ("schedule", "0", "2"), ("schedule", "5", "7"), ("schedule", "5", "x"), ("soak", "nosuch"), ("soak", "-1"), ("builds", "/bin/true"),
                      ("builds", "/bin/true", "/bin/true", "0"), ("builds", "/bin/true", "/nonesuch"), ("node", "/tmp", "1"), ("alone", "/nonesuch", "5"), ("codec", "--short")):
            with self.subTest(words=words):
                ran = self.call(*words, env=self.env(NOZHGIVA_PROGRAM="/bin/true"))
                self.assertEqual((ran.returncode, ran.stdout), (2, ""))
                self.assertIn("bench/figures", ran.stderr)
                self.assertNotIn("Traceback", ran.stderr)

    def test_each_has_help(self) -> None:
        for name in ("node", "caches", "codec"):
            ran = self.call(name, "--help")
            self.assertEqual((ran.returncode, ran.stderr), (0, ""))
            self.assertRegex(ran.stdout, r"It\s+takes\s+some")

    def test_a_tool_that_is_missing_is_named(self) -> None:
        for name in ("python3", "bash", "env"):
            os.symlink(sys.executable if name == "python3" else os.path.realpath(str(shutil.which(name))), self.folder / name)
        for name, tool in (("caches", "valgrind"), ("codec", "rt"), ("node", "cc")):
            ran = self.call(name, env={**self.env(), "PATH": str(self.folder)})
            self.assertEqual((ran.returncode, ran.stdout), (2, ""))
            self.assertIn(f"bench/figures: {name} needs ", ran.stderr)
            self.assertIn(tool, ran.stderr)

    def test_a_program_that_is_missing_is_told(self) -> None:
        ran = self.call("limit", env=self.env(NOZHGIVA_PROGRAM="/nonesuch"))
        self.assertEqual((ran.returncode, ran.stdout), (2, ""))
        self.assertIn("/nonesuch", ran.stderr)

    def test_a_schedule_goes_to_a_pipe_that_closes(self) -> None:
        ran = subprocess.run(["bash", "-c", f"{SCRIPT} schedule 200000 2 | head -n 2; exit ${{PIPESTATUS[0]}}"], capture_output=True, text=True, check=False)
        self.assertEqual((ran.returncode, ran.stdout, ran.stderr), (141, "cluster 2\nrequest 0 2 0 register\n", ""))

    def test_digests_out_of_what_valgrind_counted(self) -> None:
        self.tool("valgrind", VALGRIND)
        self.tool("callgrind_annotate", "")
        ran = self.call("digests", "--short", env=self.env(NOZHGIVA_PROGRAM="/bin/true"))
        self.assertEqual(ran.returncode, 0, ran.stderr)
        self.assertEqual(ran.stdout.splitlines(), [
            "|  | blocks | needed | times |", "|---|---|---|---|",
            "| plain replay, 2 replicas | 3.00 | 2.6 | 1.15 |", "| replay view after view, 3 replicas | 3.00 | 7.0 | 0.43 |",
            "| `soak` from seed 0 | 3.00 | 3.1 | 0.97 |", "| `soak` from seed 7 | 3.00 | 3.0 | 1.00 |"])
        self.assertEqual(os.listdir(self.folder / "tmp"), [])

    def test_builds_that_do_not_write_the_same(self) -> None:
        one, other = self.tool("one", "#!/bin/sh\ncat | wc -l\n"), self.tool("other", "#!/bin/sh\necho no\n")
        for pair, status in (((one, one), 0), ((one, other), 1)):
            ran = self.call("builds", "--short", *pair, "1")
            self.assertEqual(ran.returncode, status, ran.stderr)
        self.assertIn("plain replay, 2 replicas, 2,000 lines: the two don't write the same", ran.stdout)

    def test_a_limit_that_is_another(self) -> None:
        ran = self.call("limit", env=self.env(NOZHGIVA_PROGRAM=self.tool("program", "#!/bin/sh\ncat > /dev/null\n")))
        self.assertEqual(ran.returncode, 1)
        self.assertIn("| 1,000,000 | 0 | nothing |", ran.stdout)
        self.assertIn("limit ends with 1 where it ends otherwise", ran.stderr)

    def test_a_failure_of_what_is_measured_is_told(self) -> None:
        self.tool("valgrind", "#!/bin/sh\necho no memory >&2\nexit 7\n")
        self.tool("callgrind_annotate", "")
        ran = self.call("caches", "--short", env=self.env(NOZHGIVA_PROGRAM="/bin/true"))
        self.assertEqual((ran.returncode, ran.stdout), (2, ""))
        self.assertIn("ends with status 7: no memory", ran.stderr)

    def test_signals_end_all_that_was_started(self) -> None:
        program = self.tool("program", f"#!/bin/sh\nsleep 600 &\necho $! > {self.folder}/pid.new\nmv {self.folder}/pid.new {self.folder}/pid\nwait\n")
        for number, status in ((signal.SIGINT, 130), (signal.SIGTERM, 143)):
            child = subprocess.Popen([SCRIPT, "limit"], stdout=subprocess.PIPE, stderr=subprocess.PIPE, env=self.env(NOZHGIVA_PROGRAM=program), preexec_fn=heed_interrupts)
            until = time.monotonic() + 20
            while not (self.folder / "pid").exists():
                self.assertLess(time.monotonic(), until)
                time.sleep(0.05)
            other = int((self.folder / "pid").read_text())
            child.send_signal(number)
            out, err = child.communicate(timeout=20)
            self.assertEqual((child.returncode, out, err), (status, b"", b""))
            self.assertTrue(has_ended(other))
            self.assertEqual(os.listdir(self.folder / "tmp"), [])
            (self.folder / "pid").unlink()


def heed_interrupts() -> None:
    """What runs in the background ignores them, and so would all that it starts."""
    signal.signal(signal.SIGINT, signal.SIG_DFL)


if __name__ == "__main__":
    unittest.main()
