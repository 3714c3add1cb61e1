"""What ./nozhgiva test compare tells of two programs: of the one that is built, and of others that stand before it and change one thing."""

import contextlib
import io
import os
import re
import shutil
import subprocess
import sys
import tempfile
import unittest
from pathlib import Path
from typing import Dict, Iterable, Iterator, List, Optional, Tuple
from unittest import mock

from nozhgiva_tools.places import EXAMPLES, TOP
from nozhgiva_tools.run import built
from tests.compare import __main__ as script
from tests.faults.shim import compiler, Shim

from . import Case, cases, differences, members, stack

DEEP = """#!{python}
import os, sys
def deep(n): return n and max(map(deep, [n - 1]))
sys.setrecursionlimit(9000)
while os.read(0, 1 << 16): deep(3000)
"""
"""A program that uses more stack than it should where it replays."""


PROGRAM = built.PATH or None


def compare(*words: str, top: Path = TOP, env: Optional[Dict[str, str]] = None) -> Tuple[int, str, str]:
    ran = subprocess.run([sys.executable, "-B", str(top / "tools"), "-m", "tests.compare", *words], stdout=subprocess.PIPE, stderr=subprocess.PIPE, text=True, check=False, env=env)
    return ran.returncode, ran.stdout, ran.stderr


def write_program(path: Path, text: str) -> str:
    path.parent.mkdir(parents=True, exist_ok=True)
    path.write_text(text, encoding="utf-8")
    path.chmod(0o755)
    return str(path)


class Words(unittest.TestCase):
    def test_help_is_answered_and_other_words_are_refused(self) -> None:
        self.assertEqual(compare("--help")[0], 0)
        for words in (("one",), ("--only", "nothing"), ("--soaks", "0"), ("--soaks", "many"), ("/bin/true", "/nowhere"), ("/bin/true", str(TOP))):
            status, output, said = compare(*words)
            self.assertEqual((status, output), (2, ""), words)
            self.assertIn("error: ", said)


class Differing(unittest.TestCase):
    def test_each_part_that_differs_is_told_from_its_line_on(self) -> None:
        first = {"status": b"0", "output": b"one\ntwo\nthree\n", "file": bytes(500)}
        second = {"status": b"0", "output": b"one\ntwa\nthree\n", "file": bytes(400) + b"x" + bytes(99), "more": b"m"}
        told = list(differences(first, second))
        self.assertEqual(told[0], r"output, byte 6: proved 'two\nthree\n', compiled 'twa\nthree\n'")
        self.assertEqual([one.split(":")[0] for one in told], ["output, byte 6", "file, byte 400", "more, byte 0"])
        self.assertEqual(list(differences(first, first)), [])


class Built(unittest.TestCase):
    """Copies of the script, over sources and programs of a few bytes."""

    def setUp(self) -> None:
        self.top = Path(self.folder())
        for folder in ("tests/compare", "tests/faults", "tools", "examples"):
            shutil.copytree(TOP / folder, self.top / folder, ignore=shutil.ignore_patterns("__pycache__"))
        (self.top / "tests" / "__init__.py").touch()
        shutil.copy(TOP / "crates.txt", self.top / "crates.txt")
        (self.top / "crates/one/src").mkdir(parents=True)

    def folder(self) -> str:
        folder = tempfile.TemporaryDirectory()
        self.addCleanup(folder.cleanup)
        return folder.name

    def left_out(self) -> str:
        # A program that is given is none of the two.
        status, output, _ = compare(top=self.top, env={**os.environ, "NOZHGIVA_PROGRAM": "/bin/true"})
        first, last = output.splitlines()
        self.assertEqual((status, last), (2, "nothing was tried: a proved program and a compiled one are needed"))
        return first

    def test_without_one_of_the_two_it_leaves_itself_out(self) -> None:
        self.assertTrue(self.left_out().startswith("left out: no proved program "))
        write_program(self.top / "crates/vr_app/out/vr_app", "#!/bin/true\n")
        self.assertTrue(self.left_out().startswith("left out: no compiled program "))

    def test_one_that_is_older_than_a_source_is_none(self) -> None:
        for path in ("crates/vr_app/out/vr_app", "out/vr_app"):
            write_program(self.top / path, "#!/bin/true\n")
        os.utime(self.top / "out/vr_app", (1, 1))
        self.assertTrue(self.left_out().startswith("left out: no compiled program "))

    def test_both_are_taken_whatever_is_given(self) -> None:
        for path in ("crates/vr_app/out/vr_app", "out/vr_app"):
            write_program(self.top / path, "#!/bin/true\n")
        status, output, _ = compare("--only", "soaks", "--soaks", "1", top=self.top, env={**os.environ, "NOZHGIVA_PROGRAM": "/bin/false"})
        both = [f"proved: {self.top}/crates/vr_app/out/vr_app", f"compiled: {self.top}/out/vr_app"]
        self.assertEqual(output.splitlines(), [*both, "soaks: 1 runs, 0 of them differ", "alike"])
        self.assertEqual(status, 0)


@unittest.skipIf(PROGRAM is None, "no program")
class Planted(unittest.TestCase):
    """Programs that do as the one that is built, but for one thing."""

    def setUp(self) -> None:
        held = tempfile.TemporaryDirectory()
        self.addCleanup(held.cleanup)
        self.folder = Path(held.name)

    def other(self, text: str) -> str:
        """A program in bash; `real` runs the one that is built."""
        return write_program(self.folder / "other", f"#!/usr/bin/env bash\nreal() {{ \"{PROGRAM}\" \"$@\"; }}\n{text}\n")

    def told(self, found: Iterable[Case], other: str) -> List[str]:
        return [f"{case.name}: {sentence}" for case in found for sentence in differences(*self.given(case, str(PROGRAM), other))]

    def given(self, case: Case, *programs: str) -> Iterator[Dict[str, bytes]]:
        for program in programs:
            with tempfile.TemporaryDirectory(dir=str(self.folder)) as folder:
                yield case.work(program, folder)

    def test_a_byte_of_an_example(self) -> None:
        other = self.other("real \"$@\" | sed 's/^reply 0 client 7 request 1 op 2 ok$/& /'")
        found = [case for case in cases.examples() if case.name in ("put-get.txt", "first-request.txt")]
        self.assertEqual([one.split(", byte")[0] for one in self.told(found, other)], ["put-get.txt: output"])

    def test_the_sum_of_a_soak(self) -> None:
        other = self.other("if [ \"$2\" = 1 ]; then real \"$@\" | sed 's/^sum ./sum x/'; else real \"$@\"; fi")
        status, output, _ = compare("--only", "soaks", "--soaks", "3", str(PROGRAM), other)
        self.assertEqual((status, output.count(": output, byte ")), (1, 1))
        self.assertIn("soak 1 1000: output, byte ", output)
        self.assertEqual(output.splitlines()[-2:], ["soaks: 3 runs, 1 of them differ", "1 differ"])

    def test_the_status_of_a_refusal(self) -> None:
        told = self.told(cases.odd_bytes(), self.other("real \"$@\"; s=$?; [ $s != 3 ] || s=2; exit $s"))
        self.assertIn("bytes: zeros: status, byte 0: proved '3', compiled '2'", told)
        self.assertFalse([one for one in told if not one.endswith("status, byte 0: proved '3', compiled '2'")])

    def test_what_is_said_of_words(self) -> None:
        words = list(cases.refused_words())[:5]
        self.assertEqual(len(self.told(words, self.other("real \"$@\" 2> /dev/null"))), len(words))

    def test_a_byte_of_a_file_and_a_line_of_a_member(self) -> None:
        prepared = members.prepare(str(PROGRAM), str(self.folder))
        whole = [case for case in cases.files(prepared) if case.name in ("file: as it was", "file: copies but 2")]
        self.assertEqual(self.told(whole, str(PROGRAM)), [])
        flips = self.other("real \"$@\"; s=$?; [ \"$1\" != migrate ] || printf x | dd of=file bs=1 seek=99999 conv=notrunc status=none; exit $s")
        self.assertEqual([one.split(", byte")[0] for one in self.told(whole, flips)], ["file: as it was: migrate, file", "file: copies but 2: migrate, file"])
        says = self.other("real \"$@\" | sed 's/^start 0 view/start 0 View/'; exit ${PIPESTATUS[0]}")
        self.assertIn("file: as it was: node, output", [one.split(", byte")[0] for one in self.told(whole, says)])

    @unittest.skipIf(compiler() is None, "no C compiler")
    def test_a_line_of_one_of_three_members(self) -> None:
        talk = [case for case in members.cases(Shim(str(self.folder))) if case.name == "group: three members"]
        self.assertEqual(self.told(talk, str(PROGRAM)), [])
        other = self.other(f"[ \"$1$3\" != node1 ] || exec \"{PROGRAM}\" \"$@\" > >(sed -u 's/^commit 1 op 5 /commit 1 op 6 /')\nexec \"{PROGRAM}\" \"$@\"")
        self.assertEqual([one.split(", byte")[0] for one in self.told(talk, other)], ["group: three members: member 1, lines"])

    def test_more_of_the_stack_than_a_program_takes(self) -> None:
        deep = write_program(self.folder / "deep", DEEP.format(python=sys.executable))
        schedule = cases.schedule_of(EXAMPLES / "put-get.txt")
        measured = {"replay": lambda program: [("put-get", stack.driven(program, ["replay"], schedule))]}
        for other, differs in ((str(PROGRAM), 0), (deep, 1)):
            comparison = script.Comparison(script.Programs(str(PROGRAM), other), str(self.folder))
            said = io.StringIO()
            with mock.patch.object(stack, "MEASURED", measured), contextlib.redirect_stdout(said):
                comparison.stacks()
            self.assertEqual(comparison.differs, differs, said.getvalue())
            self.assertEqual(bool(re.search("stack, put-get: compiled uses [0-9,]+ bytes of 229,376", said.getvalue())), bool(differs))


if __name__ == "__main__":
    unittest.main()
