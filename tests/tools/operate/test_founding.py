"""No member is made beside a group that runs: by what played members answer, and with real ones. And what is said of a disk's sectors."""

import os
import signal
import socket
import stat
import subprocess
import tempfile
import time
import unittest
from typing import Dict, List, Optional, Tuple

from nozhgiva_tools.operate import founding
from nozhgiva_tools.operate.founding import Ear, Heard, judge
from nozhgiva_tools.operate.probing import HEADER
from nozhgiva_tools.places import OPERATE
from nozhgiva_tools.run import built as program
from nozhgiva_tools.run.group import NUMBER
from nozhgiva_tools.run.keepers import Kept
from nozhgiva_tools.run.nets import Net
from nozhgiva_tools.told import datafile

HERE = str(OPERATE)


PLACES = ["h:1", "h:2", "h:3"]


def message(command: int, replica: int, op: int = 0, commit: int = 0, cluster: int = NUMBER) -> bytes:
    """As docs/FORMATS.md spells one without a body."""
    rest = HEADER.pack(b"", datafile.name(b""), b"", b"", cluster, 0, 0, 3, op, commit, HEADER.size, command, replica, 1, 0, 0, b"")[16:]
    return datafile.name(rest) + rest


class Judging(unittest.TestCase):
    def test_what_is_refused(self) -> None:
        rows: List[Tuple[Heard, str]] = [
            (Heard({}, None), "^$"),
            (Heard({0: 0, 2: 2}, 0), "^$"),
            (Heard({1: 1}, 0), "member 1 of group 5 runs at h:2"),
            (Heard({1: None}, None), "member 1 of group 5 runs. "),
            (Heard({2: 2}, 7), "member 2 of group 5 runs at h:3, and the group's log has 7 operations"),
            (Heard({0: 0}, None), "whether its log is empty can't be heard here .no member leads."),
        ]
        for heard, why in rows:
            with self.subTest(str(heard)):
                self.assertRegex(judge(NUMBER, 1, PLACES, heard, ""), why)

    def test_what_members_send(self) -> None:
        rows: List[Tuple[List[bytes], Dict[int, Optional[int]], Optional[int]]] = [
            ([message(9, 0)], {0: None}, None),
            ([message(8, 2)], {2: None}, 0),
            ([message(8, 2, op=4, commit=3)], {2: None}, 4),
            ([message(9, 0), message(10, 1)], {0: None, 1: None}, None),
            ([message(11, 0), message(6, 0, op=1)], {0: None}, 1),
            ([message(8, 2, op=4, cluster=6), message(4, 0), message(8, 7), b"x" * 200], {}, None),
        ]
        for data, members, head in rows:
            for joined in (False, True):
                with self.subTest(str((members, head, joined))), Listening() as listening:
                    listening.hear([b"".join(data)] if joined else data)
                    self.assertEqual((listening.ear.members, listening.ear.head), (members, head))

    def test_an_address_that_cant_be_heard(self) -> None:
        with socket.socket(socket.AF_INET, socket.SOCK_DGRAM) as one:
            one.bind(("127.0.0.1", 0))
            self.assertRegex(Ear(NUMBER, 3, f"127.0.0.1:{one.getsockname()[1]}").why, "is taken by another process")
        self.assertRegex(Ear(NUMBER, 3, "tcp:203.0.113.9:4000").why, "isn't of this machine")


class Listening:
    """An ear over TCP, and a stream to it."""

    def __enter__(self) -> "Listening":
        self.port = Net(9).hosts[8].rpartition(":")[2]
        self.ear = Ear(NUMBER, 3, f"tcp:127.0.0.1:{self.port}")
        return self

    def hear(self, data: List[bytes]) -> None:
        with socket.create_connection(("127.0.0.1", int(self.port))) as one:
            one.setsockopt(socket.IPPROTO_TCP, socket.TCP_NODELAY, 1)
            for piece in data:
                one.sendall(piece)
                self.ear.listen(0.05)

    def __exit__(self, *_: object) -> None:
        self.ear.close()


class Sectors(unittest.TestCase):
    def test_a_disk_a_partition_and_what_is_none(self) -> None:
        with tempfile.TemporaryDirectory() as folder:
            device = os.stat(folder).st_dev
            number, system = f"{os.major(device)}:{os.minor(device)}", os.path.join(folder, "sys")
            mounts = os.path.join(folder, "mounts")
            open(mounts, "w").close()
            self.assertIsNone(founding.physical_sector(folder, system, mounts))
            disk = os.path.join(system, "dev", "block", number)
            for place, size in ((os.path.join(disk, "queue"), 4096), (os.path.join(system, "dev", "block", "queue"), 512)):
                os.makedirs(place, exist_ok=True)
                with open(os.path.join(place, "physical_block_size"), "w") as file:
                    file.write(f"{size}\n")
                self.assertEqual(founding.physical_sector(folder, system, mounts), size)
                os.unlink(os.path.join(place, "physical_block_size"))

    def test_a_file_system_without_a_number_of_its_own(self) -> None:
        with tempfile.TemporaryDirectory() as folder:
            mounts = os.path.join(folder, "mounts")
            with open(mounts, "w") as file:
                file.write("22 1 0:7 / /data rw,relatime shared:1 - btrfs /dev/null rw\n23 1 0:8 / /other rw - tmpfs tmpfs rw\n")
            self.assertEqual([founding.source_of(number, mounts) for number in ("0:7", "0:8", "0:9")], ["1:3", None, None])

    def test_what_is_said(self) -> None:
        self.assertEqual([founding.warning("/d", size) for size in (None, 512)], ["", ""])
        self.assertIn("the disk of /d has physical sectors of 4096 bytes", founding.warning("/d", 4096))


@unittest.skipUnless(program.is_there(), program.MISSING)
class Real(unittest.TestCase):
    def make(self, group: Kept, member: int, path: str, *more: str) -> Tuple[int, str]:
        words = [os.path.join(HERE, "make-member"), "--program", group.program, str(NUMBER), str(member), path] + group.addresses + list(more)
        made = subprocess.run(words, stdout=subprocess.DEVNULL, stderr=subprocess.PIPE, text=True)
        return made.returncode, made.stderr

    def put(self, group: Kept) -> None:
        words = [os.path.join(HERE, "ask"), "--program", group.program, "--again", "--for", "120", str(NUMBER)] + group.addresses
        self.assertEqual(subprocess.run(words, input="put color green\n", capture_output=True, text=True).stdout, "ok\n")

    def test_a_member_that_was_killed_before_a_put_isnt_remade(self) -> None:
        for scheme in ("", "tcp:"):
            with self.subTest(scheme):
                group = Kept(Net(3), scheme, options=("--patience", "60"))
                self.addCleanup(group.close)
                group.start_all()
                group.await_leader(120)
                again = group.file(1) + ".again"
                self.assert_refused(self.make(group, 1, again), "member 1 of group 5 runs at ", again)
                group.signal(1, signal.SIGKILL)
                group.stop(1)
                self.put(group)
                self.assert_refused(self.make(group, 1, again), "of group 5 runs at .*, and the group's log has 2 operations", again)
                group.stop(2)
                self.assert_refused(self.make(group, 1, again), "member 0 of group 5 runs at ", again)
                self.assertEqual(self.make(group, 1, again, "--anyway")[0], 0)

    def test_a_host_that_nobody_knows(self) -> None:
        with tempfile.TemporaryDirectory() as folder:
            path = os.path.join(folder, "0")
            words = [os.path.join(HERE, "make-member"), "--program", program.PATH, str(NUMBER), "0", path, Net(1).hosts[0], "host.invalid:4000"]
            made = subprocess.run(words, capture_output=True, text=True)
            self.assert_refused((made.returncode, made.stderr), "refused: no host is known for host.invalid:4000", path)

    def assert_refused(self, made: Tuple[int, str], why: str, path: str) -> None:
        self.assertRegex(made[1], why)
        self.assertEqual((made[0], os.path.lexists(path)), (1, False))

    def test_members_of_a_new_group(self) -> None:
        """All before one is started, and the last one beside others whose log is empty."""
        with tempfile.TemporaryDirectory() as folder:
            group = Kept(Net(3), options=("--patience", "60"))
            self.addCleanup(group.close)
            for member in range(3):
                path = os.path.join(folder, str(member))
                self.assertEqual(self.make(group, member, path)[0], 0)
                self.assertEqual(stat.S_IMODE(os.stat(path).st_mode), 0o600)
            for member in (0, 1):
                group.start(member)
            group.await_leader(120)
            code, said = self.make(group, 2, os.path.join(folder, "last"))
            self.assertEqual(code, 0, said)

    def test_nothing_is_waited_for_where_all_addresses_refuse(self) -> None:
        begun = time.monotonic()
        self.assertEqual(founding.refusal(NUMBER, 0, Net(8).hosts[5:], patience=30.0), "")
        self.assertLess(time.monotonic() - begun, 10)
