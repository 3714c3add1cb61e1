"""What a keeper notes of its member's file and remembers of its lines, and what it does where they are contradicted: an older file, another operation."""

import os
import shutil
import subprocess
import tempfile
import time
import unittest
from typing import Callable, List, Tuple

from nozhgiva_tools.operate import endings, noting
from nozhgiva_tools.operate.judging import CORRUPT
from nozhgiva_tools.operate.noting import Note
from nozhgiva_tools.places import DOCS
from nozhgiva_tools.run import built as program, keepers
from nozhgiva_tools.run.group import NUMBER
from nozhgiva_tools.run.nets import Net
from nozhgiva_tools.run.ports import free_addresses
from nozhgiva_tools.told import datafile

from .files import fresh
from .test_keep import HERE, Keeping, Kept

START = "say start 0 view 0 log_view 0 commit 0"
APPLIED = "say commit 0 op 9 view 0 client 7 request 1 put a"
OLDER = "is older than when it was seen last"


class Notes(unittest.TestCase):
    def test_what_is_written_is_read(self) -> None:
        note = Note(1, 2 ** 64 - 1, 7, 96)
        self.assertEqual(noting.read(str(note)), note)
        said = noting.Said(1, 2 ** 64 - 1, 2 ** 62, bytes(range(16)))
        self.assertEqual(noting.read_said(str(said)), said)
        for text in ("", "keeper 12, member 34", str(said), "file: replica 1 group 5 sequence 7 head"):
            self.assertIsNone(noting.read(text))

    def test_a_note_never_goes_back(self) -> None:
        note = Note(1, 5, 7, 96)
        for other, follows in [(None, True), (note, False), (Note(1, 5, 7, 95), True), (Note(1, 5, 6, 97), True), (Note(1, 5, 8, 90), False), (Note(1, 5, 7, 97), False),
                               (Note(0, 5, 9, 99), True), (Note(1, 6, 9, 99), True)]:
            with self.subTest(str(other)):
                self.assertEqual(note.follows(other), follows)


class Played(Keeping):
    """A keeper with a played member, on a file of a sequence that is given."""

    def kept_on(self, sequence: int) -> Kept:
        kept = Kept(f"{START}\nstand", begins=False)
        self.addCleanup(kept.end)
        self.put(kept, sequence)
        kept.begun = kept.begin()
        return kept

    def put(self, kept: Kept, sequence: int) -> None:
        with open(kept.file, "wb") as file:
            file.write(fresh(5, 0, 2, sequence))

    def again(self, kept: Kept) -> "subprocess.Popen[str]":
        """Ends the keeper, and starts it anew."""
        kept.child.terminate()
        kept.child.communicate(timeout=30)
        kept.begun = kept.begin()
        return kept.begun

    def test_an_older_file_is_refused_and_a_later_one_is_not(self) -> None:
        kept = self.kept_on(7)
        self.assertTrue(kept.until(lambda: "sequence 7 head 0" in kept.lock()))
        self.again(kept)
        self.assertTrue(kept.until(lambda: kept.starts() == 2))
        kept.child.terminate()
        kept.child.communicate(timeout=30)
        self.put(kept, 6)
        kept.begun = kept.begin()
        said = kept.child.communicate(timeout=30)[1]
        self.assertEqual((kept.child.returncode, kept.starts()), (endings.OLDER, 2))
        self.assertIn(OLDER, said)
        self.assertIn("its superblock is of sequence 6, and was of 7", said)
        self.put(kept, 8)
        kept.begun = kept.begin()
        self.assertTrue(kept.until(lambda: kept.starts() == 3))

    def test_what_was_seen_last_is_noted_at_the_end(self) -> None:
        kept = self.kept_on(7)
        self.assertTrue(kept.until(lambda: "sequence 7 head 0" in kept.lock()))
        self.put(kept, 9)
        kept.child.terminate()
        kept.child.communicate(timeout=30)
        self.assertIn("sequence 9 head 0", kept.lock())

    def test_a_file_that_was_put_back_while_its_member_was_down(self) -> None:
        """Also where somebody asks for its health meanwhile, so that it is looked at."""
        kept = Kept(f"{START}\nwait 5\nexit 0", "--pause", "8", begins=False)
        self.addCleanup(kept.end)
        self.put(kept, 7)
        kept.begun = kept.begin()
        self.assertTrue(kept.until(lambda: "sequence 7 head 0" in kept.lock()))
        self.assertTrue(kept.until(lambda: "state=down" in kept.ask("health")))
        self.put(kept, 6)
        self.assertTrue(kept.until(lambda: bool([kept.ask("health")]) and kept.child.poll() is not None, 30))
        self.assertEqual((kept.child.returncode, kept.starts()), (endings.OLDER, 1))

    def test_the_file_of_another_group_is_no_older_one(self) -> None:
        kept = self.kept_on(7)
        self.assertTrue(kept.until(lambda: "sequence 7 head 0" in kept.lock()))
        with open(kept.file, "wb") as file:
            file.write(fresh(6, 0, 2))
        self.again(kept)
        self.assertTrue(kept.until(lambda: kept.starts() == 2))

    def test_after_a_disk_fault_nothing_is_noted(self) -> None:
        """A sync may have failed, and what the system shows of the file may never get to the disk."""
        kept = Kept(f"{START}\nwait 2\nexit 7", begins=False)
        self.addCleanup(kept.end)
        self.put(kept, 7)
        kept.begun = kept.begin()
        self.assertEqual(kept.child.wait(30), 7)
        self.assertNotIn("sequence", kept.lock())


class Contradictions(Keeping):
    def test_another_operation_under_the_same_number(self) -> None:
        kept = self.keep(f"{START}\n{APPLIED} x\nwait 2\nexit 0\n\n{START}\n{APPLIED} x\nwait 2\nexit 0\n\n{START}\n{APPLIED} y\nstand", "--pause", "0.1")
        self.assertTrue(kept.until(lambda: kept.starts() == 2 and "state=follows" in kept.ask("health")))
        self.assertNotIn("corrupt", kept.ask("health"))
        self.assertTrue(kept.until(lambda: "well=corrupt " in kept.ask("health")))
        self.assertEqual(kept.log().count("member 0 is corrupt: operation 9 isn't what it was when the member applied it before"), 1)

    def test_and_by_a_keeper_that_was_started_since(self) -> None:
        for other, is_told in (("x", False), ("y", True)):
            with self.subTest(other):
                kept = self.keep(f"{START}\n{APPLIED} x\nstand\n\n{START}\n{APPLIED} {other}\nstand")
                self.assertTrue(kept.until(lambda: "op 9 as " in kept.lock()))
                kept.child.terminate()
                kept.child.communicate(timeout=30)
                kept.begun = kept.begin()
                self.assertTrue(kept.until(lambda: kept.starts() == 2 and "applied=9 " in kept.ask("health")))
                self.assertEqual("well=corrupt " in kept.ask("health"), is_told)


@unittest.skipUnless(program.is_there(), program.MISSING)
class Real(unittest.TestCase):
    """A group of one under its keeper, whose file is put back from a copy that is some operations old."""

    def setUp(self) -> None:
        folder = tempfile.TemporaryDirectory(prefix="vr-noting-")
        self.addCleanup(folder.cleanup)
        self.file, self.address = os.path.join(folder.name, "0"), free_addresses(1)[0]
        subprocess.run([os.path.join(HERE, "make-member"), "--v2", "--program", program.PATH, "5", "0", self.file, self.address], check=True, capture_output=True)

    def keeper(self) -> "subprocess.Popen[str]":
        child = subprocess.Popen([os.path.join(HERE, "keep"), "--program", program.PATH, "5", "0", self.file, self.address], stderr=subprocess.PIPE, text=True)
        self.addCleanup(child.communicate)
        self.addCleanup(child.kill)
        return child

    def run_with(self, client: int, puts: int) -> None:
        """Runs the member while a client puts some keys, and ends it."""
        child = self.keeper()
        lines = "".join(f"put k{number} v{client}\n" for number in range(puts))
        asked = subprocess.run([program.PATH, "client", "5", str(client), "100000", self.address, "--v2"], input=lines, capture_output=True, text=True)
        self.assertEqual(asked.stdout.count("ok\n"), puts, asked.stderr)
        child.terminate()
        child.communicate(timeout=30)
        self.assertEqual(child.returncode, 0)

    def damage(self, places: List[int]) -> None:
        with open(self.file, "r+b") as file:
            for place in places:
                file.seek(place * datafile.SECTOR)
                file.write(bytes([255]) * datafile.SECTOR)

    def test_a_copy_that_is_some_puts_old(self) -> None:
        for puts in (9, 40):  # within one save of the superblock, and over the next one
            with self.subTest(puts):
                self.run_with(7 + puts, 5)
                shutil.copy(self.file, self.file + ".old")
                self.run_with(8 + puts, puts)
                shutil.move(self.file, self.file + ".new")
                shutil.copy(self.file + ".old", self.file)
                child = self.keeper()
                said = child.communicate(timeout=30)[1]
                self.assertEqual(child.returncode, endings.OLDER, said)
                self.assertIn(OLDER, said)
                shutil.move(self.file + ".new", self.file)

    def test_a_file_that_was_removed_is_had_back_as_the_page_says(self) -> None:
        """By the lines of docs/OPERATING.md, while the member runs."""
        with open(DOCS / "OPERATING.md") as page:
            section = page.read().split("### A file that was removed\n")[1].split("\n### ")[0]
        lines = [line[4:] for line in section.splitlines() if line.startswith("    ")]
        self.assertEqual([line.split()[0] for line in lines], ["kill", "for", "nozhgiva"])
        self.keeper()
        client = [program.PATH, "client", "5", "7", "100000", self.address, "--v2"]
        self.assertEqual(subprocess.run(client, input="put color green\n", capture_output=True, text=True).stdout, "session\nok\n")
        with open(self.file + ".keep") as lock:
            process = lock.readline().split()[-1]
        os.unlink(self.file)
        script = "nozhgiva() { " + os.path.join(HERE, '"$1" "${@:2}"') + "; }\n" + "\n".join(lines)
        made = subprocess.run(["bash", "-ec", script], env=dict(os.environ, FILE=self.file, P=process), capture_output=True, text=True)
        self.assertEqual(made.returncode, 0, made.stdout + made.stderr)
        self.assertEqual(oct(os.stat(self.file).st_mode & 0o777), "0o600")
        client[3] = "8"
        self.assertEqual(subprocess.run(client, input="get color\n", capture_output=True, text=True).stdout, "session\nvalue green\n")
        with open(self.file + ".keep") as lock:
            self.assertNotEqual(lock.readline().split()[-1], process)

    def test_damage_of_the_last_entry_is_no_age(self) -> None:
        """Both places of it: what stood there can't be told, and the member itself knows what to do."""
        self.run_with(7, 9)
        last = datafile.Report(self.file).slots.head()
        self.assertEqual(last, 10)
        self.damage([datafile.HEADERS + last, *range(datafile.PREPARES[2] + 8 * last, datafile.PREPARES[2] + 8 * last + 8)])
        child = self.keeper()
        self.assertRaises(subprocess.TimeoutExpired, child.wait, 3)
        child.terminate()
        self.assertIn("member 0 started", child.communicate(timeout=30)[1])


@unittest.skipUnless(program.is_there(), program.MISSING)
class Forgotten(unittest.TestCase):
    """Three members. Two acknowledge some puts, one of them gets its file put back, and with the third one begins a log without them. So the group has
    forgotten what it acknowledged, and only the member that comes back could know."""

    def setUp(self) -> None:
        self.group = keepers.Kept(Net(3))
        self.addCleanup(self.group.close)

    def put(self, client: int, value: str, count: int) -> None:
        lines = "".join(f"put k{number} {value}\n" for number in range(count))
        words = [program.PATH, "client", str(NUMBER), str(client), "100000", *self.group.addresses]
        made = subprocess.run(words, input=lines, capture_output=True, text=True)
        self.assertEqual(made.stdout.count("ok\n"), count, made.stdout)

    def status(self) -> Tuple[int, str]:
        words = [os.path.join(HERE, "status"), str(NUMBER), *self.group.addresses, "--sockets", os.path.join(self.group.folder, "{}.socket")]
        made = subprocess.run(words, capture_output=True, text=True)
        return made.returncode, made.stdout

    def until(self, what: Callable[[], bool]) -> None:
        end = time.monotonic() + 60
        while not what():
            self.assertLess(time.monotonic(), end)
            time.sleep(0.2)

    def test_it_is_refused_and_if_that_is_passed_by_it_is_told(self) -> None:
        group = self.group
        group.start_all()
        first = group.await_leader(60)
        second, third = [member for member in range(3) if member != first]
        self.put(7, "old", 40)
        group.stop(third)
        group.stop(second)
        shutil.copy(group.file(second), group.file(second) + ".old")
        group.start(second)
        self.put(8, "acknowledged", 9)
        group.stop(first)
        group.stop(second)
        shutil.copy(group.file(second) + ".old", group.file(second))
        group.start(second)
        self.assertEqual(group.members.pop(second).wait(30), endings.OLDER)
        os.unlink(group.file(second) + ".keep")
        group.start(second)
        group.start(third)
        group.await_leader(60)
        self.put(9, "new", 30)
        group.start(first)
        self.until(lambda: self.status()[0] == CORRUPT)
        self.assertIn(f"member {first} applied something else than before", self.status()[1])
