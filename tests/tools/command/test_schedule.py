"""Which lines are refused, and why: by this explanation and by the program, and by the rows of docs/SCHEDULE.md."""

import unittest
from typing import Iterator, Tuple

from nozhgiva_tools.command import schedule

from .common import call, needs_program, NOZHGIVA, PROGRAM

# Behind `cluster 2`: lines that are taken, and lines that are refused with a word of the reason.
TAKEN = (
    b"deliver 0", b"deliver 18446744073709551615", b"tick 1", b"stop 0", b"start 1", b"migrate 0", b"fuse 0 1 0", b"fuse 1 1000000 18446744073709551615",
    b"damage 0 1423", b"stale 0 0", b"unread 0 7", b"misdirect 0 5 6", b"request 0 7 0 register", b"request 0 18446744073709551615 4294967295 get " + b"k" * 64,
    b"request 0 1 1 put a " + b"v" * 1024, b"request 1 1 1 del ~",
)
REFUSED = (
    (b"tick 0\r", "carriage return"), (b"tick 0 ", "ends with a space"), (b"tick  0", "two spaces"), (b"tick\t0", "a tab"), (b"# tick 0", "comment"), (b"", "empty"),
    (b"  tick 0", "indented"), (b"tick +0", "without sign"), (b"tick 00", "leading zeros"), (b"tick 2", "no such replica"), (b"tick", "`tick R`"),
    (b"tick 0 0", "`tick R`"), (b"cluster 2", "first line alone"), (b"hello", "no line begins with"), (b"request 3 7 0 register", "no such replica"),
    (b"request 0 0 0 register", "C is from 1"), (b"request 0 7 1 register", "number 0 stands with register"), (b"request 0 7 0 get a", "number 0 stands with register"),
    (b"request 0 7 4294967296 get a", "Q is from 0"), (b"request 0 7 1 put a", "`put KEY VALUE`"), (b"request 0 7 1 put a b c", "`put KEY VALUE`"),
    (b"request 0 7 1 post a", "register, put"), (b"request 0 7 1", "register, put"), (b"request 0 7", "`request R C Q OP`"),
    (b"request 0 7 1 put a " + b"v" * 1025, "a value has 1 to 1024 bytes"), (b"request 0 7 1 get " + b"k" * 65, "a key has 1 to 64 bytes"),
    (b"request 0 7 1 get \x7f", "isn't printable"), (b"request 0 7 1 get \xc3\xa9", "isn't printable"), (b"damage 0 1424", "no such sector"),
    (b"fuse 0 0 0", "J is from 1"), (b"fuse 0 1000001 0", "J is from 1"), (b"misdirect 0 5 5", "another sector"), (b"deliver 18446744073709551616", "X is from 0"),
    (b"tick 0" + b" " * 1200, "at most 1135"), (b"x" * 4000, "at most 1135"), (b"migrate 2", "no such replica"), (b"Tick 0", "no line begins with"),
)
FIRST_TAKEN = (b"cluster 2", b"cluster 6", b"cluster 2 careful", b"cluster 1 v2", b"cluster 6 careful v2")
FIRST_REFUSED = (b"cluster 1", b"cluster 7", b"cluster 0 v2", b"cluster 7 v2", b"cluster 3 strict", b"cluster 3 v2 careful", b"cluster", b"cluster 02", b"cluster 2 v2 v2", b"tick 0", b"clusters 2")


def program_refuses(text: bytes) -> bool:
    return call([PROGRAM, "replay"], text).returncode == 3


def why(text: bytes) -> str:
    found = schedule.first_refused(text.split(b"\n"))
    return found[1] if found else ""


class Lines(unittest.TestCase):
    def rows(self) -> Iterator[Tuple[bytes, str]]:
        yield from ((b"cluster 2\n" + line + b"\n", "") for line in TAKEN)
        yield from ((b"cluster 2\n" + line + b"\n", reason) for line, reason in REFUSED)
        yield from ((line + b"\n", "") for line in FIRST_TAKEN)
        yield from ((line + b"\n", "cluster N") for line in FIRST_REFUSED)
        yield b"", "empty"
        yield b"cluster 2", ""
        yield b"cluster 2 v2\nrequest 0 1 1 put a " + b"v" * 3000, ""
        yield b"cluster 2 v2\nrequest 0 1 1 put a " + b"v" * 3001, "a value has 1 to 3000 bytes"
        yield b"cluster 2 v2\ndamage 0 3983\n", ""
        yield b"cluster 2 v2\ndamage 0 3984\n", "S is from 0 to 3983"

    def test_reasons(self) -> None:
        for text, reason in self.rows():
            with self.subTest(text=text):
                self.assertIn(reason, why(text))
                self.assertEqual(bool(reason), bool(why(text)))

    @needs_program
    def test_the_program_refuses_the_same(self) -> None:
        for text, reason in self.rows():
            with self.subTest(text=text):
                self.assertEqual(program_refuses(text), bool(reason))

    @needs_program
    def test_run_names_the_line_of_the_file(self) -> None:
        ran = call([NOZHGIVA, "run"], b"# about\ncluster 2\n  an output\n\ntick 0\nhello\ntick 1\n")
        self.assertEqual((ran.returncode, ran.stdout), (3, b"cluster 2\ntick 0\n  send 0 0 1 commit view 0 op 0 commit 0\nhello\n"))
        self.assertTrue(ran.stderr.splitlines()[-1].startswith(b"line 6 is refused: no line begins with `hello`"), ran.stderr)


if __name__ == "__main__":
    unittest.main()
