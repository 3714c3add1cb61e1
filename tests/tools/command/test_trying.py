"""No check passes without having tried something: unknown names are refused, and words where none are taken."""

import os
import shutil
import subprocess
import sys
import tempfile
import unittest
from pathlib import Path
from typing import Dict, List, Optional

from nozhgiva_tools.command import checking
from nozhgiva_tools.places import TESTS, TOP

from .common import call

# Commands in the words of the table of checks, and words behind them that name nothing that they could try.
NOTHING = (
    "nozhgiva slips nosuch", "nozhgiva slips --nosuch", "nozhgiva mutations nosuch", "nozhgiva addresses nosuch", "nozhgiva pages nosuch", "tests.crashes nosuch",
    "tests.faults --only nosuch", "tests.progress nosuch", "bench/beside --nosuch", "tests.program.examples --nosuch", "tests.program.examples nosuch",
    "nozhgiva check-commands nosuch", "nozhgiva check-commands docs/GLOSSARY.md", "tests.hunt nosuch", "tests.group.outage nosuch", "tests.program.standstill nosuch",
    "tests.program.soak_check nosuch", "tests.program.soak_check 7 0", "tests.program.soak_twice nosuch", "tests.program.soak_twice 0", "tests.program.trial --times 0",
    "nozhgiva message-rows nosuch", "nozhgiva command-rows nosuch", "packaging/check nosuch", "packaging/check-network nosuch",
    "tests.group.counted --minutes 0", "tests.group.counted --seeds ,", "tests.group.deaf --cut 0", "tests.group.faults --minutes 0", "tests.group.restarts loop --keys 0",
    "tests.group.slow --seconds 0", "tests.group.stopped --tries 0", "tests.group.watched --minutes nan", "tests.group.outage 0", "tests.hunt --minutes 0", "tests.progress --count 0",
    "tests.faults --minutes 0", "tests.crashes --minutes 0", "bench/figures", "bench/figures nosuch", "bench/figures soak nosuch", "bench/figures caches --nosuch", "bench/figures limit nosuch",
    "bench/figures apply nosuch", "env PYTHONPATH=clients/python/src clients/python/tests/failover.py --seconds 0", "clients/go/check nosuch", "clients/vectors/make-messages nosuch",
    "nozhgiva test nosuch", "nozhgiva test --quick go nosuch", "nozhgiva test go hunt -- --race", "nozhgiva test -- nosuch",
)
# What takes no words.
WORDLESS = (
    "tests.program.closed_streams", "tests.group.endless", "tests.program.full_disk", "tests.program.inspect_check",
    "tests.program.no_memory", "tests.program.not_a_file", "tests.group.reads", "tests.group.second_process", "tests.group.silent", "tests.program.stops",
)
FOLDERS = ("bench", "operate", "packaging", "clients/go", "clients/vectors", "tests/program")


def scripts() -> List[str]:
    """All that can be run of what tries, measures or operates: a new script or module is among them."""
    found = [f"{folder}/{one.name}" for folder in FOLDERS for one in (TOP / folder).iterdir() if one.is_file() and os.access(one, os.X_OK)]
    modules = [path for path in TESTS.glob("**/*.py") if path.name == "__main__.py" or path.parent.name in ("program", "group")]
    return sorted(found + [module_of(path) for path in modules if 'if __name__ == "__main__":' in path.read_text(encoding="utf-8")])


def module_of(path: Path) -> str:
    name = ".".join(path.relative_to(TOP).with_suffix("").parts)
    return name[:-len(".__main__")] if name.endswith(".__main__") else name


class Refusals(unittest.TestCase):
    def called(self, words: List[str], env: Optional[Dict[str, str]] = None) -> "subprocess.CompletedProcess[bytes]":
        ready = checking.words_to_run(words)
        ready = [str(TOP / word) if (TOP / word).is_file() else word for word in ready]
        return call([word.replace("=clients", f"={TOP}/clients") for word in ready], env=env, where=self.folder.name)

    def refused(self, words: List[str]) -> None:
        with self.subTest(words=words):
            ran = self.called(words)
            self.assertEqual(ran.returncode, 2, ran.stderr)
            self.assertTrue(ran.stderr.strip(), "it says nothing")
            self.assertNotIn(b"Traceback", ran.stderr)

    def setUp(self) -> None:
        self.folder = tempfile.TemporaryDirectory()
        self.addCleanup(self.folder.cleanup)

    def test_what_names_nothing_is_refused(self) -> None:
        for text in NOTHING:
            self.refused(text.split())

    def test_words_are_refused_where_none_are_taken(self) -> None:
        for name in WORDLESS:
            self.refused([name, "nosuch"])
        self.assertEqual(os.listdir(self.folder.name), [])

    def test_each_script_refuses_an_option_that_it_lacks_and_has_help(self) -> None:
        found = scripts()
        self.assertLess({"tests.hunt", "tests.group.faults", "tests.program.stops", "packaging/check", "clients/go/check", "bench/figures"}, set(found))
        for name in found:
            self.refused([name, "--nosuch"])
            for flag in ("-h", "--help"):
                self.helps([name, flag])
        self.assertEqual(os.listdir(self.folder.name), [])

    def helps(self, words: List[str]) -> None:
        with self.subTest(words=words):
            ran = self.called(words)
            self.assertEqual((ran.returncode, ran.stderr), (0, b""))
            self.assertGreater(len(ran.stdout), 50)

    @unittest.skipUnless(checking.pytest_words(), "no pytest")
    def test_runs_of_no_tests_fail(self) -> None:
        shutil.copy(TOP / "conftest.py", self.folder.name)
        text = (TOP / "pyproject.toml").read_text(encoding="utf-8")
        Path(self.folder.name, "pyproject.toml").write_text(text.replace('"tools"', f'"{TOP}/tools"', 1), encoding="utf-8")
        Path(self.folder.name, "empty").mkdir()
        Path(self.folder.name, "tests").mkdir()
        Path(self.folder.name, "tests", "test_some.py").write_text(
            "import unittest\nclass A(unittest.TestCase):\n    @unittest.skip('no browser')\n    def test_a(self) -> None: pass\n    def test_b(self) -> None: pass\n", encoding="ascii")
        some = "tests/test_some.py"
        for words, status in ((["empty"], 2), ([f"{some}::A::test_a"], 2), ([f"{some}::A::test_b"], 0), (["tests"], 0), (["tests/test_none.py"], 4), (["tests", "-k", "nothing"], 2)):
            with self.subTest(words=words):
                ran = call([*(checking.pytest_words() or []), *words], where=self.folder.name)
                self.assertEqual(ran.returncode, status, ran.stdout)
                self.assertEqual(b"\nnothing was tried: " in ran.stdout, status == 2, ran.stdout)

    def test_without_its_tool_a_check_tries_nothing_and_says_so(self) -> None:
        bare = Path(self.folder.name, "bare")
        bare.mkdir()
        for name in ("bash", "sh", "env", "python3", "dirname", "realpath", "sed", "awk", "mktemp", "rm"):
            os.symlink(sys.executable if name == "python3" else str(shutil.which(name)), bare / name)
        env = {**os.environ, "PATH": str(bare), "NOZHGIVA_PROGRAM": str(shutil.which("true"))}
        for words in (["tests.crashes", "--short"], ["tests.faults", "--planted"], ["tests.faults", "--only", "disk:"], ["clients/go/check"]):
            with self.subTest(words=words):
                ran = self.called(words, env)
                self.assertEqual((ran.returncode, b"\nnothing was tried: " in b"\n" + ran.stdout + ran.stderr), (2, True), ran.stdout + ran.stderr)

    def test_each_check_of_the_table_refuses_a_word_of_no_meaning(self) -> None:
        for one in checking.read_table():
            if checking.PYTEST not in one.command:
                self.refused([*one.command, "--nosuch"])


if __name__ == "__main__":
    unittest.main()
