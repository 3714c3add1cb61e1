"""What is said of an exit code, by what the system says: each cause is made, and the program ended by it."""

import fcntl
import os
import resource
import signal
import socket
import subprocess
import tempfile
import unittest
from pathlib import Path
from typing import Callable, IO, List, Optional, Tuple, Union

from nozhgiva_tools.run.ports import free_addresses

from .common import call, needs_program, NOZHGIVA

A, B = free_addresses(2)
LENGTH = 2039808
"""A member's file has as many bytes (docs/NODE.md), and none that has more is taken for one."""


Stream = Union[int, IO[bytes]]
Before = Optional[Callable[[], None]]
"""What the child does before it is the program."""


def said(words: List[str], given: bytes = b"", stdin: Optional[Stream] = None, stdout: Stream = subprocess.DEVNULL, before: Before = None) -> Tuple[int, str]:
    """The status, and the last line on standard error."""
    ran = subprocess.run([NOZHGIVA, *words], input=given if stdin is None else None, stdin=stdin, stdout=stdout, stderr=subprocess.PIPE, timeout=120, check=False, preexec_fn=before)
    return ran.returncode, (ran.stderr.decode().splitlines() or [""])[-1]


def node(file: Path, *more: str, addresses: Tuple[str, str] = (A, B)) -> List[str]:
    return ["node", "5", "0", str(file), "1", *addresses, *more]


@needs_program
class Files(unittest.TestCase):
    def setUp(self) -> None:
        room = tempfile.TemporaryDirectory()
        self.addCleanup(room.cleanup)
        self.folder = Path(room.name)

    def assert_said(self, words: List[str], status: int, text: str, before: Before = None) -> None:
        self.assertEqual([status, text], [(found := said(words, before=before))[0], text if text in found[1] else found[1]])

    def test_paths(self) -> None:
        os.mkfifo(self.folder / "pipe")
        os.symlink("gone", self.folder / "link")
        (self.folder / "plain").touch()
        rows = (("none/file", "no such folder: "), ("plain/file", "Not a directory"), ("", "is a folder, not a plain file"), ("x" * 300, "File name too long"))
        for name, text in rows:
            with self.subTest(name=name):
                self.assert_said(node(self.folder / name, "--fresh"), 7, text)
        self.assert_said(["migrate", "5", "0", "2", str(self.folder / "none" / "file")], 7, "no such folder: ")

    def test_another_process_has_the_file(self) -> None:
        file = self.folder / "0"
        self.assertEqual(said(node(file, "--fresh"))[0], 0)
        with open(file, "rb") as held:
            fcntl.flock(held, fcntl.LOCK_EX)
            self.assert_said(node(file), 7, f"another process has this file (process {os.getpid()})")

    @unittest.skipUnless(os.geteuid() == 0, "not root")
    def test_no_room(self) -> None:
        script = 'mount -t tmpfs -o size=1m tmpfs "$1" && shift && exec "$@"'
        ran = call(["unshare", "--mount", "sh", "-c", script, "sh", str(self.folder), NOZHGIVA, *node(self.folder / "0", "--fresh")])
        if b"unshare" in ran.stderr or b"mount:" in ran.stderr:
            self.skipTest("mounts may not be made here")
        self.assertEqual(ran.returncode, 7)
        self.assertRegex(ran.stderr.splitlines()[-1].decode(), "no room: .* bytes free")

    def test_limit_of_a_file(self) -> None:
        status, text = said(node(self.folder / "0", "--fresh"), before=lambda: resource.setrlimit(resource.RLIMIT_FSIZE, (4096, 4096)))
        self.assertIn((status, "ulimit -f" in text), ((-signal.SIGXFSZ, True), (7, True), (7, False)), text)

    def test_lost(self) -> None:
        self.assert_said(node(self.folder / "0"), 9, "is the path right?")
        (self.folder / "1").write_bytes(b"x" * LENGTH)
        self.assert_said(node(self.folder / "1"), 9, "nozhgiva inspect ")

    def test_too_long(self) -> None:
        for length in (LENGTH + 1, 3000000):
            with self.subTest(length=length):
                file = self.folder / str(length)
                file.write_bytes(b"x" * length)
                self.assert_said(node(file), 7, f"{file} has {length} bytes, and a member's file no more than {LENGTH}: is the path right?")
                self.assertEqual(file.read_bytes(), b"x" * length)

    def test_the_words_and_the_file(self) -> None:
        self.assertEqual(said(node(self.folder / "0", "--fresh"))[0], 0)
        self.assert_said(node(self.folder / "0", "--fresh"), 12, "leave --fresh out")
        self.assert_said(["node", "6", *node(self.folder / "0")[2:]], 10, "`found` is the file's")
        self.assert_said(["node", "5"], 2, "nozhgiva node --help")

    def test_addresses(self) -> None:
        with socket.socket(socket.AF_INET, socket.SOCK_DGRAM) as held:
            held.bind(("127.0.0.1", 0))
            taken = f"127.0.0.1:{held.getsockname()[1]}"
            rows = (((taken, B), f"{taken}: Address already in use"), (("x", B), "x is no address"), ((A, f"tcp:{B}"), "some of the addresses begin with tcp:"), (("127.0.0.1:99999", B),
                                                                                                                                                                  "is no address"))
            for number, (addresses, text) in enumerate(rows):
                with self.subTest(addresses=addresses):
                    self.assert_said(node(self.folder / str(number), "--fresh", addresses=addresses), 8, text)

    def test_descriptors(self) -> None:
        def limit() -> None:
            resource.setrlimit(resource.RLIMIT_NOFILE, (60, 60))
        self.assert_said(node(self.folder / "0", "--fresh", addresses=(f"tcp:{A}", f"tcp:{B}")), 8, "up to 80 descriptors, and may have 60", before=limit)


@needs_program
class Streams(unittest.TestCase):
    def test_output(self) -> None:
        with open("/dev/full", "wb") as full:
            self.assertEqual(said(["soak", "7", "20"], stdout=full), (6, "nozhgiva: what is behind standard output takes no more"))
        reading, writing = os.pipe()
        os.close(reading)
        with open(writing, "wb") as pipe:
            self.assertEqual(said(["soak", "7", "20"], stdout=pipe), (6, "nozhgiva: nobody reads standard output any more"))

    def test_input(self) -> None:
        folder = os.open("/", os.O_RDONLY)
        self.addCleanup(os.close, folder)
        self.assertEqual(said(["replay"], stdin=folder), (5, "nozhgiva: standard input is a folder"))
        closed = call(["sh", "-c", 'exec "$@" <&-', "sh", NOZHGIVA, "replay"])
        self.assertEqual((closed.returncode, closed.stderr.splitlines()[-1]), (5, b"nozhgiva: standard input is closed"))

    def test_refused_lines(self) -> None:
        with tempfile.TemporaryFile() as file:
            file.write(b"not this\ncluster 2\ntick 7\n")
            file.seek(9)
            self.assertEqual(said(["replay"], stdin=file), (3, "nozhgiva: line 2: the group has no such replica: R is from 0 to 1, and not 7 (`tick R`)"))
        self.assertIn("nozhgiva run FILE", said(["replay"], b"# x\n")[1])

    def test_nobody_answers(self) -> None:
        self.assertIn("whether it was executed isn't known", said(["client", "5", "9", "5", A, B], b"get a\n")[1])

    def test_a_program_that_is_gone(self) -> None:
        ran = call([NOZHGIVA, "soak", "1", "1"], env={**os.environ, "NOZHGIVA_PROGRAM": "/none"})
        self.assertEqual((ran.returncode, ran.stderr), (2, b"no program: NOZHGIVA_PROGRAM names /none\n"))

    def test_a_failed_check_of_the_compiled_one(self) -> None:
        from nozhgiva_tools.command import meanings

        self.assertIn("compiled without proofs", meanings.of("soak", [], -signal.SIGILL, "compiled", meanings.Seen(False, 0)) or "")
        self.assertIsNone(meanings.of("soak", [], -signal.SIGILL, "proved", meanings.Seen(False, 0)))


if __name__ == "__main__":
    unittest.main()
