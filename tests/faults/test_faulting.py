"""What is judged of a measured share, of a script that measures time and of a failing disk, and how a process is ended in which a call was to fail."""

import os
import signal
import struct
import subprocess
import sys
import tempfile
import time
import unittest
from typing import Dict, List, Optional, Tuple

from . import calls, disk, elsewhere, fuse, strangers
from .members import Members
from .shim import COUNTS, KINDS

COUNTING = """
import time
with open("{path}", "ab", 0) as file:
    for _ in range(3000):
        file.write(b"x")
        time.sleep(0.01)
"""
ENDING = "import time; time.sleep(1.0); raise SystemExit(6)"


class Shares(unittest.TestCase):
    def test_one_good_measure_is_enough(self) -> None:
        for shares, is_well in (([0.8], True), ([0.799], False), ([0.7, 0.75, 0.81], True), ([0.7, 0.75, 0.79], False)):
            with self.subTest(shares):
                self.assertEqual(strangers.judge_shares(shares) == "", is_well)
        self.assertEqual(strangers.judge_shares([0.7996]), "0.800 are less than 0.8")


class Scripts(unittest.TestCase):
    def script(self, codes: List[int], times: int) -> Tuple[Optional[int], int]:
        """How a row of a script ends that ends with these codes, one after the other, and how often it was tried."""
        with tempfile.TemporaryDirectory() as folder:
            path = os.path.join(folder, "script")
            with open(path, "w", encoding="utf-8") as file:
                file.write(f"#!/bin/sh\necho >> {folder}/tried\nset -- {' '.join(map(str, codes))}\nshift $(($(wc -l < {folder}/tried) - 1))\nexit $1\n")
            os.chmod(path, 0o755)
            outcome = elsewhere.call(elsewhere.Script(path, "", "", 1, times=times, known=3), 0, 0)
            self.assertEqual(outcome.wrong == "", outcome.code in (0, 3))
            with open(os.path.join(folder, "tried"), encoding="utf-8") as file:
                return outcome.code, len(file.readlines())

    def test_what_measures_time_is_tried_again(self) -> None:
        for codes, times, wanted in (([0], 3, (0, 1)), ([1, 0], 3, (0, 2)), ([1, 1, 1, 0], 3, (1, 3)), ([1, 0], 1, (1, 1)), ([2, 0], 3, (2, 1)), ([3, 0], 3, (3, 1))):
            with self.subTest(codes=codes, times=times):
                self.assertEqual(self.script(codes, times), wanted)


class Ends(unittest.TestCase):
    """A member is held before it is judged whether its call has failed."""

    def setUp(self) -> None:
        self.folder = tempfile.TemporaryDirectory()
        self.addCleanup(self.folder.cleanup)

    def members(self, text: str) -> Members:
        members = Members.__new__(Members)
        members.members = {0: subprocess.Popen([sys.executable, "-c", text], stdin=subprocess.DEVNULL)}
        self.addCleanup(members.kill, 0)
        return members

    def env(self, disturbed: int, has_to: int) -> Dict[str, str]:
        path = os.path.join(self.folder.name, "counts")
        with open(path, "wb") as file:
            file.write(COUNTS.pack(*[1] * len(KINDS), disturbed))
        return {"FAULT_COUNTS": path, "FAULT_ENDS": str(has_to)}

    def test_one_whose_call_failed_is_waited_for(self) -> None:
        self.assertEqual(calls.end(self.members(ENDING), 0, self.env(1, 1)), 6)

    def test_one_whose_call_has_not_failed_does_nothing_more(self) -> None:
        path = os.path.join(self.folder.name, "done")
        for disturbed, has_to in ((0, 1), (1, 0)):
            env = self.env(disturbed, has_to)
            members = self.members(COUNTING.format(path=path))
            while not os.path.exists(path):
                time.sleep(0.01)
            members.hold(0)
            before = os.path.getsize(path)
            self.assertIsNone(calls.end(members, 0, env))
            self.assertEqual(os.path.getsize(path), before)
            os.unlink(path)

    def test_one_that_has_ended(self) -> None:
        members = self.members("raise SystemExit(7)")
        members.process(0).wait()
        self.assertEqual(calls.end(members, 0, self.env(1, 1)), 7)
        members = self.members("")
        os.waitid(os.P_PID, members.process(0).pid, os.WEXITED | os.WNOWAIT)
        self.assertEqual(calls.end(members, 0, self.env(0, 1)), 0)


class Disks(unittest.TestCase):
    def test_what_a_program_does_with_a_sector_that_cant_be_read(self) -> None:
        for is_bad, code, again, is_well in (
                (False, None, None, True), (True, None, None, False), (True, 7, 7, False), (False, 7, None, False), (False, None, 7, False), (False, -signal.SIGKILL, None, False)):
            with self.subTest(is_bad=is_bad, code=code, again=again):
                self.assertEqual(disk.Rows.judge(is_bad, code, again) == "", is_well)

    def test_a_sector_is_bad_until_it_is_written(self) -> None:
        folder = self.folder_of(tempfile.TemporaryDirectory())
        store, bad = os.path.join(folder, "store"), os.path.join(folder, "bad")
        for path, data in ((store, bytes([7] * 8 * 512)), (bad, bytes([0, 0, 1, 0, 0, 0, 0, 0]))):
            with open(path, "wb") as file:
                file.write(data)
        served = fuse.Disk(store, bad)
        self.assertEqual(self.asked(served, 15, 3 * 512, 1024), (0, bytes([7] * 1024)))
        self.assertEqual(self.asked(served, 15, 0, 4096), (-5, b""))
        self.assertEqual(self.asked(served, 15, 2 * 512, 1), (-5, b""))
        self.assertEqual(self.asked(served, 16, 2 * 512 + 1, 511, bytes(511))[0], 0)
        self.assertEqual(self.asked(served, 15, 2 * 512, 512), (-5, b""))
        self.assertEqual(self.asked(served, 16, 2 * 512, 512, bytes([9] * 512)), (0, struct.pack("=II", 512, 0)))
        self.assertEqual(self.asked(served, 15, 2 * 512, 512), (0, bytes([9] * 512)))
        self.assertEqual(self.asked(served, 22, 0, 0), (-38, b""))

    def folder_of(self, context: "tempfile.TemporaryDirectory[str]") -> str:
        self.addCleanup(context.cleanup)
        return context.name

    def asked(self, served: fuse.Disk, number: int, at: int, size: int, data: bytes = b"") -> Tuple[int, bytes]:
        """The error and the bytes of an answer to a request of the kernel."""
        words = struct.pack("=QQIIQII", 0, at, size, 0, 0, 0, 0) + data
        answer = served.answer(struct.pack("=IIQQIIII", 40 + len(words), number, 99, 1, 0, 0, 0, 0) + words)
        assert answer is not None
        length, error, unique = struct.unpack_from("=IiQ", answer)
        self.assertEqual((length, unique), (len(answer), 99))
        return error, answer[16:]


if __name__ == "__main__":
    unittest.main()
