"""What is written of the lines, and where."""

import os
import tempfile
import threading
import time
import unittest
from typing import List, Tuple

from nozhgiva_tools.operate.log import Rotating, stamp, Thinner, Writer
from nozhgiva_tools.told.lines import parse


def kept(most: int, *timed: Tuple[float, str]) -> List[str]:
    thinner = Thinner(most)
    return [text for now, text in timed if thinner.keeps(now, text.encode(), parse(text.encode()))]


class Thinning(unittest.TestCase):
    def test_a_day_of_an_idle_primary_is_a_line_a_minute(self) -> None:
        beats = [(tick / 10, f"send {tick} 0 1 commit view 0 op {tick} commit {tick}") for tick in range(6000)]
        self.assertEqual(len(kept(100, *beats)), 10)

    def test_the_same_again_is_left_out_whatever_its_number(self) -> None:
        self.assertEqual(kept(100, (0, "send 1 0 1 get_block 4"), (0.1, "send 2 0 1 get_block 4"), (0.2, "send 3 0 1 get_block 5"), (60.1, "send 9 0 1 get_block 4")),
                         ["send 1 0 1 get_block 4", "send 3 0 1 get_block 5", "send 9 0 1 get_block 4"])

    def test_a_start_forgets_what_was_written(self) -> None:
        line = "commit 0 op 1 view 0 client 1 request 1 put a b"
        self.assertEqual(kept(100, (0, line), (1, line), (2, "start 0 view 0 log_view 0 commit 0"), (3, line)), [line, "start 0 view 0 log_view 0 commit 0", line])

    def test_at_most_so_many_in_a_second_but_for_what_has_to_be_seen(self) -> None:
        many = [(0.5, f"reply 0 client 1 request {number} op 1 ok") for number in range(50)]
        self.assertEqual(len(kept(10, *many, (0.6, "wait 0 view 3 op 9"), (1.7, "reply 0 client 1 request 99 op 1 ok"))), 12)


class Files(unittest.TestCase):
    def setUp(self) -> None:
        self.folder = tempfile.TemporaryDirectory(prefix="vr-log-")
        self.addCleanup(self.folder.cleanup)
        self.path = os.path.join(self.folder.name, "log")

    def names(self) -> List[str]:
        return sorted(os.listdir(self.folder.name))

    def read(self, name: str) -> str:
        with open(os.path.join(self.folder.name, name)) as file:
            return file.read()

    def test_put_aside(self) -> None:
        file = Rotating(self.path, 10, 2)
        for text in (b"first line\n", b"second line\n", b"third line\n", b"4\n"):
            file.write(text)
        self.assertEqual([(name, self.read(name)) for name in self.names()], [("log", "4\n"), ("log.1", "third line\n"), ("log.2", "second line\n")])
        file.close()

    def test_none_kept(self) -> None:
        file = Rotating(self.path, 10, 0)
        for text in (b"first line\n", b"2\n"):
            file.write(text)
        self.assertEqual([(name, self.read(name)) for name in self.names()], [("log", "2\n")])
        file.close()

    def test_a_writer_puts_the_time_before_each_line(self) -> None:
        file = Rotating(self.path, 1000, 1)
        said: List[str] = []
        writer = Writer(file, said.append)
        writer.put(b"one")
        writer.put(b"two", said=True)
        writer.end()
        file.close()
        lines = self.read("log").splitlines()
        self.assertEqual(([line[24:] for line in lines], said), ([" one", " two"], ["two"]))
        self.assertEqual(stamp(1_000_000_000.25), "2001-09-09T01:46:40.250Z")


class Stuck:
    """A file whose writes don't come back until they are let."""

    name = "a stuck file"

    def __init__(self) -> None:
        self.gate = threading.Event()

    def open(self) -> None:
        pass

    def write(self, text: bytes) -> None:
        self.gate.wait()


class Waiting(unittest.TestCase):
    def test_nobody_waits_for_a_disk_that_hangs(self) -> None:
        file = Stuck()
        writer = Writer(file)
        began = time.monotonic()
        for _ in range(50_000):
            writer.put(b"a line")
        self.assertLess(time.monotonic() - began, 20)
        self.assertGreater(writer.dropped, 20_000)
        file.gate.set()
        writer.end()
