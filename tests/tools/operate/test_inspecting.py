"""`inspect` on files that the program made. Without the built program this is left out."""

import json
import os
import subprocess
import tempfile
import unittest
from typing import Dict, List, Tuple

from nozhgiva_tools.places import OPERATE, words_of_module
from nozhgiva_tools.run import built as program
from nozhgiva_tools.run.group import Group
from nozhgiva_tools.run.nets import Net
from nozhgiva_tools.told import datafile
from tests.program import inspect_check

HERE = str(OPERATE)
PUTS = 69  # and a register: the checkpoint is at 64, the head at 70


def header_sector(op: int) -> int:
    return (datafile.HEADERS + op % datafile.SLOTS) * datafile.SECTOR


def prepare(op: int) -> int:
    return (datafile.PREPARES[2] + datafile.PREPARE_SECTORS[2] * (op % datafile.SLOTS)) * datafile.SECTOR


@unittest.skipUnless(program.is_there(), program.MISSING)
class Inspecting(unittest.TestCase):
    def test_whole_and_damaged_files(self) -> None:
        made = subprocess.run(words_of_module(inspect_check), capture_output=True, text=True)
        self.assertEqual(made.returncode, 0, made.stdout + made.stderr)

    def file_of_one(self) -> bytes:
        """The file of a group of one with PUTS puts."""
        with Group(Net(1), "", version=2, program=program.PATH) as group:
            group.start_all()
            answers = group.ask(7, [f"put k{i % 9} v{i}" for i in range(PUTS)])
            group.kill(0)
            with open(group.file(0), "rb") as file:
                data = file.read()
        self.assertEqual(answers.count("ok"), PUTS)
        return data

    def test_what_becomes_of_damage(self) -> None:
        """By docs/RULES.md (The opening, Visiting, ask): what is asked for, what waits until its slot is written, and what nothing stands on."""
        with tempfile.TemporaryDirectory(prefix="vr-inspect-") as folder:
            whole, path = self.file_of_one(), os.path.join(folder, "damaged")
            data = bytearray(whole)
            for at in (3 * datafile.COPY + 9, prepare(69) + 200, header_sector(70), header_sector(75), header_sector(128), prepare(40) + 200):
                data[at] ^= 255
            with open(path, "wb") as file:
                file.write(data)
            told = subprocess.run([os.path.join(HERE, "inspect"), path], capture_output=True, text=True).stdout.splitlines()
            for front, end in [("  3 mended by the member", ": copy 3, operation 69, operation 70"), ("  2 unsure until", ": operation 75, operation 128"), ("  1 idle", ": operation 40")]:
                self.assertEqual(sum(line.startswith(front) and line.endswith(end) for line in told), 1, told)
            made = subprocess.run([os.path.join(HERE, "inspect"), path, "health"], capture_output=True, text=True)
            self.assertEqual(made.returncode, 1)
            self.assertIn("damaged 6 (mended 3, unsure 2, idle 1)", made.stdout)
            self.assertIn("for a whole quorum: checkpoint 64, whose header is known; blocks that can't be read: 0; above it lost 69, unknown 75 128; "
                          "the last operation whose header is known is 70 of at most 128", told)

    def test_what_a_whole_quorum_needs(self) -> None:
        with tempfile.TemporaryDirectory(prefix="vr-inspect-") as folder:
            whole, path = self.file_of_one(), os.path.join(folder, "damaged")
            root = int.from_bytes(whole[48:56], "big")
            fine = {"checkpoint": 64, "anchored": True, "missing": 0, "lost": [], "unknown": [], "last": 70}
            rows: List[Tuple[str, List[int], Dict[str, object]]] = [
                ("nothing is damaged", [], {}),
                ("an entry", [prepare(66) + 200], {"lost": [66]}),
                ("an entry of the checkpoint", [prepare(64) + 200], {}),
                ("a slot that was never used", [header_sector(100)], {"unknown": [100]}),
                ("the root", [datafile.GRID * datafile.SECTOR + datafile.BLOCK * root + 140], {"missing": 1}),
                ("a copy of the superblock", [9], {}),
            ]
            for name, places, changed in rows:
                with self.subTest(name):
                    data = bytearray(whole)
                    for at in places:
                        data[at] ^= 255
                    with open(path, "wb") as file:
                        file.write(data)
                    told = json.loads(subprocess.run([os.path.join(HERE, "inspect"), path, "json"], capture_output=True, text=True).stdout)
                    self.assertEqual(told["whole"], dict(fine, **changed))
