"""`backup` and `restore`: a group that is lost and had back, a file that is written to meanwhile, backups that are damaged. Without the built program what asks members is
left out."""

import hashlib
import os
import re
import subprocess
import tempfile
import time
import unittest
import unittest.mock
from typing import Dict, IO, Iterable, List, Set, Tuple

from nozhgiva_tools.operate import backups
from nozhgiva_tools.places import OPERATE
from nozhgiva_tools.run import built as program
from nozhgiva_tools.run.group import Group
from nozhgiva_tools.run.nets import Net
from nozhgiva_tools.told.datafile import Header
from nozhgiva_tools.told.table import Session, Table

HERE = str(OPERATE)
NOBODY = ["127.0.0.1:1", "127.0.0.1:2"]


def run(name: str, *words: str) -> Tuple[int, str, str]:
    made = subprocess.run([os.path.join(HERE, name), *words], stdin=subprocess.DEVNULL, capture_output=True, text=True, timeout=120)
    return made.returncode, made.stdout, made.stderr


def keys_of(text: str) -> Dict[str, str]:
    """The keys of a backup's text, by its form alone."""
    return dict(line.split(" ")[1:] for line in text.splitlines() if line.startswith("key "))


def after(lines: Iterable[str]) -> Dict[str, str]:
    """What a map of keys holds after these lines of a client. Apart from `told.store` on purpose: backups are made by that, and it is judged here."""
    keys: Dict[str, str] = {}
    for words in (line.split(" ") for line in lines):
        if words[0] == "put":
            keys[words[1]] = words[2]
        elif words[0] == "del":
            keys.pop(words[1], None)
    return keys


class Members(Group):
    """A new group on loopback."""

    keeps_lines = False

    def __init__(self, number: int, count: int, version: int) -> None:
        super().__init__(Net(count), "", version=version, number=number)
        self.files = [self.file(member) for member in range(count)]
        self.start_all()

    def of_group(self) -> List[str]:
        """The words that name it to a script."""
        return [str(self.number), *self.addresses, *self.of_version()]

    def begin(self, lines: List[str]) -> Tuple["subprocess.Popen[str]", IO[str]]:
        """A client, the first of its group, that asks these lines, and the file of its answers."""
        answers = tempfile.TemporaryFile("w+")
        with tempfile.TemporaryFile("w+") as given:
            given.write("".join(f"{line}\n" for line in lines))
            given.seek(0)
            client = subprocess.Popen(self.asking(7), stdin=given, stdout=answers, text=True)
        return client, answers

    def answers(self, lines: List[str]) -> List[str]:
        return self.ask(7, lines)[1:]

    def end(self) -> None:
        for member in list(self.members):
            self.kill(member)


class Folder(unittest.TestCase):
    def setUp(self) -> None:
        folder = tempfile.TemporaryDirectory(prefix="nozhgiva-backup-")
        self.addCleanup(folder.cleanup)
        self.folder = folder.name

    def path(self, name: str, text: bytes = b"") -> str:
        path = os.path.join(self.folder, name)
        if text:
            with open(path, "wb") as file:
                file.write(text)
        return path


@unittest.skipUnless(program.is_there(), program.MISSING)
class Groups(Folder):
    def members(self, number: int, count: int, version: int = 1) -> Members:
        members = Members(number, count, version)
        self.addCleanup(members.close)
        return members

    def await_commit(self, file: str, op: int) -> None:
        """Waits until a file tells that so much is committed."""
        end = time.monotonic() + 120
        while time.monotonic() < end:
            found = re.search(r" commit (\d+) ", run("inspect", file, "health")[1])
            if found and int(found.group(1)) >= op:
                return
            time.sleep(0.2)
        self.fail(f"no commit number {op} in {file}")

    def refuse_damage(self, file: str, op: int) -> None:
        """Damage to what is committed is told by its place, and nothing is written. The places are those of docs/FORMATS.md for a checkpoint at 128."""
        with open(file, "rb") as whole_file:
            whole = whole_file.read()
        for places, wanted in [([(400 + 8 * address) * 512 + 140 for address in (10, 74)], "the checkpoint at operation 128 can't be read: blocks "),
                               ([(144 + 4 * (op % 64)) * 512 + 140], f"operation {op} is committed and can't be read"),
                               ([9, 10249, 20489], "no two good copies of the superblock agree")]:
            with self.subTest(wanted):
                data = bytearray(whole)
                for place in places:
                    data[place] ^= 255
                code, text, said = run("backup", self.path("damaged", bytes(data)))
                self.assertEqual((code, text), (1, ""))
                self.assertIn(wanted, said)

    def test_a_group_is_lost_and_had_back(self) -> None:
        """The first client's line K is operation K + 1, behind its register, so what each backup has to hold follows from its operation alone. A change of view
        has a member save a commit number above its checkpoint's."""
        lines = [f"del k{i % 7}" if i % 5 == 4 else f"put k{i % 29} v{i}" for i in range(130)] + [f"put long {'x' * 1024}"]
        old = self.members(5, 3)
        self.assertNotIn("unknown", old.answers(lines))
        code, text, said = run("backup", old.files[0])
        op = int(text.splitlines()[3].split(" ")[1])
        self.assertEqual((code, keys_of(text)), (0, after(lines[:op - 1])), said)
        self.assertGreaterEqual(op, 128)
        self.assertIn(f"operations {op + 1} to {len(lines) + 1} stand above the commit number", said)
        old.kill(0)
        self.await_commit(old.files[1], 129)
        code, text, said = run("backup", old.files[1])
        op = int(text.splitlines()[3].split(" ")[1])
        self.assertEqual((code, keys_of(text)), (0, after(lines[:op - 1])), said)
        old.end()
        self.refuse_damage(old.files[1], op)
        kept = self.path("backup")
        self.assertEqual(run("backup", old.files[0], "--uncommitted", "--to", kept)[0], 0)
        self.assertEqual(os.stat(kept).st_mode & 0o777, 0o600)
        for file in old.files:
            os.unlink(file)
        new = self.members(6, 3)
        code, text, said = run("restore", kept, *new.of_group())
        self.assertEqual((code, "may not be committed" in said), (0, True), said)
        self.assertEqual(run("restore", kept, *new.of_group(), "--uncommitted")[0], 1)  # k.. has another value
        code, text, said = run("restore", kept, *new.of_group(), "--uncommitted", "--over")
        self.assertEqual(code, 0, said)
        wanted = after(lines)
        names = sorted({line.split(" ")[1] for line in lines})
        answers = new.answers([f"get {name}" for name in names])
        self.assertEqual(answers, [f"value {wanted[name]}" if name in wanted else "absent" for name in names])

    def test_a_file_that_is_written_to_meanwhile(self) -> None:
        lines = [f"put k{i % 128} {'v' * (i % 700)}{i}" for i in range(60000)]
        group = self.members(5, 1, 2)
        client, answers = group.begin(lines)
        seen: Set[int] = set()
        while client.poll() is None and len(seen) < 5:
            code, text, said = run("backup", group.files[0])
            self.assertEqual(code, 0, said)
            op = int(text.splitlines()[3].split(" ")[1])
            self.assertEqual(keys_of(text), after(lines[:max(0, op - 1)]), f"at operation {op}")
            seen.add(op)
        is_over = client.poll() is not None
        client.kill()
        client.wait()
        answers.close()
        self.assertFalse(is_over, "the client was too fast to be looked at")
        self.read_half_done(group.files[0])

    def read_half_done(self, file: str) -> None:
        """What can't be read is looked at again while the file changes, and said where it doesn't."""
        with open(file, "rb") as whole_file:
            whole = whole_file.read()
        half = bytes(40960) + whole[40960:]
        with unittest.mock.patch("nozhgiva_tools.told.datafile.read_sectors", side_effect=[(half, 0), (half, 0), (whole, 0)]):
            self.assertEqual(backups.read_file(file)[0].version, 2)
        with unittest.mock.patch("nozhgiva_tools.told.datafile.read_sectors", return_value=(half, 0)):
            self.assertRaises(backups.Unreadable, backups.read_file, file)

    def test_a_value_that_the_new_group_does_not_take(self) -> None:
        old, new = self.members(5, 1, 2), self.members(6, 2)
        old.answers(["put short s", f"put long {'x' * 1025}"] + ["get short"] * 30)
        kept = self.path("backup")
        self.assertEqual(run("backup", old.files[0], "--to", kept)[0], 0)
        code, _, said = run("restore", kept, *new.of_group())
        self.assertEqual((code, said), (1, "restore: refused: a group of version 1 takes values of at most 1,024 bytes, and long has a longer one: make the new group of version 2, and say --v2\n"))
        self.assertEqual(new.answers(["get short"]), ["absent"])


class Texts(Folder):
    BACKUP = backups.Backup(5, 0, 3, 1, "2026-01-02T03:04:05Z", 96, {"a": "1", "b": "~" * 1024}, [(97, ("put", "c", "3")), (98, ("del", "a"))])

    def test_one_text_worked_by_hand(self) -> None:
        body = ("nozhgiva backup 1\ngroup 5 member 0 of 3 version 1\nmade 2026-01-02T03:04:05Z\nop 96\nkeys 2 uncommitted 2\nkey a 1\nkey b " + "~" * 1024 + "\n"
                "uncommitted 97 put c 3\nuncommitted 98 del a\n").encode()
        text = body + b"sha256 " + hashlib.sha256(body).hexdigest().encode() + b"\n"
        self.assertEqual(backups.spell(self.BACKUP), text)
        self.assertEqual(backups.read(text), self.BACKUP)
        self.assertEqual(backups.keys_after(self.BACKUP, True), {"a": None, "b": "~" * 1024, "c": "3"})

    def test_each_damaged_or_cut_text_is_refused(self) -> None:
        text = backups.spell(self.BACKUP)
        for at in range(len(text)):
            with self.assertRaises(backups.Damaged, msg=f"cut at {at}"):
                backups.read(text[:at])
            with self.assertRaises(backups.Damaged, msg=f"damaged at {at}"):
                backups.read(text[:at] + bytes([text[at] ^ 1]) + text[at + 1:])

    def test_what_is_refused_before_anybody_is_asked(self) -> None:
        text = backups.spell(self.BACKUP)
        body = text[:text.index(b"sha256 ")].replace(b"keys 2", b"keys 1")
        other = body + f"sha256 {hashlib.sha256(body).hexdigest()}\n".encode()
        for what, given, cluster, wanted in [
            ("cut", text[:-1], "6", "it was cut off"), ("damaged", text.replace(b"key a 1", b"key a 2"), "6", "it is damaged"), ("no backup", b"put a 1\n", "6", "it is no backup"),
            ("longer at its end", text + b"key c 3\n", "6", "it was cut off"), ("lines that don't fit", other, "6", "it has other lines than its fifth one says"),
            ("the number of the lost group", text, "5", "give the new one another number"),
        ]:
            with self.subTest(what):
                begun = time.monotonic()
                code, out, said = run("restore", self.path("given", given), cluster, *NOBODY, "--for", "60")
                self.assertEqual((code, out), (1, ""))
                self.assertIn(wanted, said)
                self.assertLess(time.monotonic() - begun, 30)

    def test_words(self) -> None:
        kept = self.path("given", backups.spell(self.BACKUP))
        for words, wanted in [((kept, "--check"), 0), ((kept,), 2), ((kept, "6"), 2), ((kept, "6", *NOBODY, "--check"), 2), (("/no/such", "--check"), 1),
                              ((kept, "6", "no-address", "127.0.0.1:2"), 2), ((kept, "6", *NOBODY, "--for", "0.5", "--program", "/bin/false"), 13)]:
            with self.subTest(str(words)):
                code, _, said = run("restore", *words)
                self.assertEqual(code, wanted, said)
                self.assertNotIn("Traceback", said)
        for file in ("/no/such", self.folder, kept):
            with self.subTest(file):
                code, out, said = run("backup", file)
                self.assertEqual((code, out, said.startswith("backup: refused: ")), (1, "", True))


def entry(op: int, client: int, request: int, version: int = 1) -> Header:
    """What an applied entry needs of its header."""
    header = bytearray(128)
    header[72:80], header[80:84], header[88:96], header[110] = client.to_bytes(8, "big"), request.to_bytes(4, "big"), op.to_bytes(8, "big"), version
    return Header(bytes(header))


class Tables(unittest.TestCase):
    """What docs/STATE.md promises of sessions, which decides what of a log is executed."""

    def test_rows(self) -> None:
        put, delete, register = b"\2\1\0\1kw", b"\4\1k", b"\1"
        for what, client, request, body, change in [
            ("the next number", 7, 4, put, ("put", "k", "w")), ("the same number again", 7, 3, put, None), ("an older one", 7, 2, put, None), ("a gap", 7, 5, put, None),
            ("a client without a session", 8, 1, put, None), ("a delete", 7, 4, delete, ("del", "k")), ("a register", 8, 0, register, None),
        ]:
            with self.subTest(what):
                table = Table({"k": "v"}, {7: Session(3, 9)})
                self.assertEqual(table.apply(entry(10, client, request), body), change)
                self.assertEqual(table.keys, {"k": "v"} if change is None else after([" ".join(change)]))

    def test_the_session_that_was_used_longest_ago_gives_way(self) -> None:
        for version, count in ((1, 32), (2, 64)):
            table = Table({}, {client: Session(0, 100 - client) for client in range(count)})
            table.apply(entry(200, 900, 0, version), b"\1")
            self.assertEqual((len(table.sessions), count - 1 in table.sessions, 900 in table.sessions), (count, False, True))

    def test_a_key_too_many(self) -> None:
        table = Table({str(key): "v" for key in range(128)}, {7: Session(0, 1)})
        self.assertIsNone(table.apply(entry(2, 7, 1), b"\2\1\0\1kw"))
        self.assertEqual(table.apply(entry(3, 7, 2), b"\2\1\0\x015w"), ("put", "5", "w"))
