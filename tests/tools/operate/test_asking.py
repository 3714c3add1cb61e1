"""`ask` with members that answer by a script over real sockets, `watch` with lines that are given."""

import os
import re
import shutil
import subprocess
import sys
import tempfile
import time
import unittest
from typing import Callable, Dict, List, Sequence, Tuple

from fakes import Members, reply_to, request_of, State

from nozhgiva.messages import ReplyKind, Request
from nozhgiva_tools.places import OPERATE
from nozhgiva_tools.run.ports import free_addresses

HERE = str(OPERATE)
TOP = os.path.dirname(HERE)
CLIENT = os.path.join(TOP, "clients", "python")


ASK = os.path.join(HERE, "ask")
NOZHGIVA = os.path.join(TOP, "nozhgiva")
PYTHON = os.path.dirname(os.path.realpath(sys.executable))
SOON = 1.0  # seconds in which what is wrong is said
OWN = {"NOZHGIVA_GROUP", "NOZHGIVA_ADDRS"}


def environment(**more: str) -> Dict[str, str]:
    """That of a test, without a group, and with this python3 first."""
    kept = {name: value for name, value in os.environ.items() if name not in OWN}
    return {**kept, "PATH": PYTHON + os.pathsep + os.environ["PATH"], **more}


def run(words: Sequence[str], lines: str = "", **more: str) -> "subprocess.CompletedProcess[str]":
    return subprocess.run(words, input=lines, env=environment(**more), capture_output=True, text=True, timeout=60)


class Asking(unittest.TestCase):
    def ask(self, answer: Callable[[int, bytes], List[bytes]], lines: str, *options: str, size: int = 2) -> Tuple[str, int, str]:
        """What `ask` answers, its code, and what it says."""
        with Members(size, answer) as members:
            made = run([ASK, *options, "5", *members.addresses], lines)
        return made.stdout, made.returncode, made.stderr

    def registers(self, state: State) -> int:
        return [str(operation) for operation in state.executed].count("register")

    def test_each_kind_of_answer_in_one_session(self) -> None:
        state = State()
        lines = "put a 1\nget a\ndel a\ndel a\nget a\nput one-too-many x\n"
        self.assertEqual(self.ask(state, lines), ("ok\nvalue 1\nok\nabsent\nabsent\nfull\n", 0, ""))
        self.assertEqual(self.registers(state), 1)
        self.assertEqual(self.ask(state, ""), ("", 0, ""))
        self.assertEqual(self.registers(state), 1)

    def test_a_put_whose_answers_are_lost_is_asked_again_and_executed_once(self) -> None:
        for options in ((), ("--again",)):
            with self.subTest(options):
                lost = iter([True] * 3)
                state = State(quiet=lambda number: number == 1 and next(lost, False))
                self.assertEqual(self.ask(state, "put a 1\nget a\n", *options), ("ok\nvalue 1\n", 0, ""))
                self.assertEqual([str(operation) for operation in state.executed], ["register", "put a (1 bytes)", "get a"])

    def test_a_put_that_stays_unknown(self) -> None:
        for options in ((), ("--again",)):
            with self.subTest(options):
                state = State(quiet=lambda number: number == 1)
                text, code, said = self.ask(state, "put a secret\nput b 1\n", "--for", "1", *options)
                self.assertEqual((text, code), ("unknown\n", 13))
                self.assertIn("whether `put a (6 bytes)` was executed isn't known", said)
                self.assertNotIn("secret", said)
                self.assertEqual([str(operation) for operation in state.executed], ["register", "put a (6 bytes)"])

    def test_a_session_that_is_ended(self) -> None:
        """A get is asked again in a new one; a put isn't, with --again too, since it may have been executed."""
        for line, wanted, sessions in (("get a", ("absent\n", 0), 2), ("put a 1", ("unknown\n", 13), 1)):
            with self.subTest(line):
                state = State()
                ended: List[Request] = []

                def answer(member: int, data: bytes) -> List[bytes]:
                    request = request_of(data)
                    if request.number and not ended:
                        ended.append(request)
                        return [reply_to(request, member, ReplyKind.EVICTED).encode()]
                    return state(member, data)
                text, code, said = self.ask(answer, line, "--again")
                self.assertEqual(((text, code), self.registers(state)), (wanted, sessions))
                self.assertEqual("evicted" in said, sessions == 1)

    def test_nobody_answers(self) -> None:
        begun = time.monotonic()
        made = run([ASK, "--for", "1", "5", *free_addresses(2)], "put a 1\n")
        self.assertEqual((made.stdout, made.returncode), ("not asked\n", 13))
        self.assertIn("no member runs at these addresses", made.stderr)
        self.assertLess(time.monotonic() - begun, 10)

    def test_a_line_that_is_none_says_why(self) -> None:
        state = State()
        for line, why in [
            ("foo secret", "a line is put KEY VALUE, get KEY, del KEY, and begins with no other word"),
            ("", "a line is put KEY VALUE, get KEY, del KEY, and begins with no other word"),
            ("put a", "it is put KEY VALUE, with one space between words, and 2 words stand there"),
            ("put a  secret", "it is put KEY VALUE, with one space between words, and 4 words stand there"),
            ("get " + "k" * 65, "a key has 1 to 64 bytes, not 65"),
            ("put a " + "s" * 3001, "a value has 1 to 3,000 bytes, not 3,001"),
            ("put a " + "s" * 1025, "a value has 1 to 1,024 bytes, not 1,025"),
            ("put a s\u00e9cret", "each letter of a value is a visible one of ASCII"),
        ]:
            with self.subTest(line[:20]):
                text, code, said = self.ask(state, f"put first 1\n{line}\n")
                self.assertEqual((text, code), ("ok\n", 3))
                self.assertTrue(said.startswith(f"ask: refused: line 2: {why}"), said)
                self.assertNotIn("cret", said)

    def test_words_in_place_of_lines(self) -> None:
        absent, full = "ask: absent: there is no color\n", "ask: full: the key is new, and the group holds as many as it can; nothing has changed\n"
        calls: List[Callable[[List[str], List[str]], List[str]]] = [
            lambda words, group: [NOZHGIVA, *words, *group], lambda words, group: [NOZHGIVA, "ask", *group, *words], lambda words, group: [ASK, *group, *words]]
        for call in calls:
            with Members(2, State()) as members:
                for words, wanted in [
                    (["put", "color", "green"], ("ok\n", 0, "")), (["get", "color"], ("green\n", 0, "")), (["del", "color"], ("ok\n", 0, "")),
                    (["get", "color"], ("", 1, absent)), (["del", "color"], ("", 1, absent)), (["put", "one-too-many", "x"], ("", 1, full)),
                    (["put", "--", "-k", "--v"], ("ok\n", 0, "")), (["get", "--", "-k"], ("--v\n", 0, "")), (["put", "get", "put"], ("ok\n", 0, "")), (["get", "get"], ("put\n", 0, "")),
                ]:
                    with self.subTest(call(words, ["5"])):
                        made = run(call(words, ["5", *members.addresses]))
                        self.assertEqual((made.stdout, made.returncode, made.stderr), wanted)

    def test_the_group_of_the_environment(self) -> None:
        state = State()
        with Members(2, state) as members, tempfile.NamedTemporaryFile("w", suffix="group") as file:
            file.write(f'# of all members\nCLUSTER=5\nADDRS="{" ".join(members.addresses)}"\nOPTIONS=--careful\n')
            file.flush()
            both = {"NOZHGIVA_GROUP": "5", "NOZHGIVA_ADDRS": " ".join(members.addresses)}
            for more in (both, {"NOZHGIVA_GROUP": file.name}):
                with self.subTest(more):
                    made = run([NOZHGIVA, "put", "color", "green"], **more)
                    self.assertEqual((made.stdout, made.returncode, made.stderr), ("ok\n", 0, ""))
                    made = run([NOZHGIVA, "ask"], "get color\n", **more)
                    self.assertEqual((made.stdout, made.returncode, made.stderr), ("value green\n", 0, ""))
            made = run([NOZHGIVA, "get", "color", "5", *members.addresses], NOZHGIVA_GROUP="6", NOZHGIVA_ADDRS="127.0.0.1:1 127.0.0.1:2")
            self.assertEqual((made.stdout, made.returncode), ("green\n", 0))
        for more, why in (({"NOZHGIVA_GROUP": "5"}, "NOZHGIVA_ADDRS"), ({"NOZHGIVA_ADDRS": "a:1 b:1"}, "NOZHGIVA_GROUP"), ({"NOZHGIVA_GROUP": "/no/such"}, "/no/such: no such file"),
                          ({"NOZHGIVA_GROUP": "/dev/null"}, "/dev/null: it doesn't say CLUSTER=.. and ADDRS="), ({"NOZHGIVA_GROUP": "5", "NOZHGIVA_ADDRS": "a"}, "an address is HOST:PORT")):
            with self.subTest(more):
                made = run([NOZHGIVA, "get", "color"], **more)
                self.assertEqual((made.stdout, made.returncode), ("", 2))
                self.assertIn(why, made.stderr)

    def test_what_is_wrong_is_said_within_a_second(self) -> None:
        """Another number, and a port at which nobody listens: it goes on asking, and says so. Another order: it is answered, and says so."""
        def turned(place: int, data: bytes) -> List[bytes]:
            member = (place + 1) % 3
            return state(0, data) if member == 0 else [reply_to(request_of(data), member, ReplyKind.REDIRECT).encode()]
        state = State()
        with Members(3, State(cluster=6)) as other, Members(3, turned) as members:
            for addresses, why, wanted in ((other.addresses, "another group", "not asked\n"), (free_addresses(3), "no member runs", "not asked\n"),
                                           (members.addresses, "another order", "ok\n")):
                with self.subTest(why):
                    asks = subprocess.Popen([ASK, "--for", "2", "5", *addresses], stdin=subprocess.PIPE, stdout=subprocess.PIPE, stderr=subprocess.PIPE, text=True, env=environment())
                    assert asks.stdin and asks.stdout and asks.stderr
                    with asks:
                        asks.stdin.write("put a 1\n")
                        asks.stdin.close()
                        begun = time.monotonic()
                        self.assertIn(why, asks.stderr.readline())
                        self.assertLess(time.monotonic() - begun, SOON + 0.5)  # with what it takes to start
                        self.assertEqual(asks.stdout.read(), wanted)

    def test_another_version_is_found_within_a_second(self) -> None:
        for version, options in ((2, ()), (1, ("--v2",))):
            with self.subTest(version):
                begun = time.monotonic()
                self.assertEqual(self.ask(State(version=version), "put a 1\n", *options, size=3), ("ok\n", 0, ""))
                self.assertLess(time.monotonic() - begun, SOON + 0.5)

    def test_wrong_words(self) -> None:
        for words, why in ((["x", "a:1", "b:1"], "'x' is none"), (["5"], "the addresses of all members"), (["5", "a", "b:1"], "HOST:PORT"), (["5", "a:1", "tcp:b:1"], "tcp:"),
                           (["get"], "it is get KEY"), (["5", "a:1", "b:1", "put", "k"], "it is put KEY VALUE"), (["--for", "0", "5", "a:1", "b:1"], "--for is above 0")):
            with self.subTest(words):
                made = run([ASK, *words], "get a\n")
                self.assertEqual((made.stdout, made.returncode), ("", 2))
                self.assertIn(why, made.stderr)

    def test_streams_that_are_none(self) -> None:
        with Members(2, State()) as members:
            group = " ".join(["5", *members.addresses])
            for line, code, why in (("ask {} > /dev/full < lines", 6, "standard output can't be written: no space left on device"), ("put color green {} > /dev/full", 6, "standard output can't"),
                                    ("put color green {} >&-", 6, "there is no standard output"), ("ask {} <&-", 2, "there is no standard input"), ("ask {} < .", 2, "standard input is a folder"),
                                    ("get color {} < .", 0, "")):
                with self.subTest(line), tempfile.TemporaryDirectory() as folder:
                    with open(os.path.join(folder, "lines"), "w") as file:
                        file.write("put color green\n")
                    made = subprocess.run(["sh", "-c", f"{NOZHGIVA} {line.format(group)}"], cwd=folder, env=environment(), capture_output=True, text=True, timeout=60)
                    self.assertEqual((made.returncode, len(made.stderr.splitlines())), (code, bool(why)), made.stderr)
                    self.assertIn(why, made.stderr)

    @unittest.skipUnless(shutil.which("strace"), "no strace")
    def test_one_put_starts_at_most_two_processes_and_makes_at_most_800_system_calls(self) -> None:
        with Members(3, State()) as members, tempfile.NamedTemporaryFile() as trace:
            # A trace that can't be made where others may not be traced.
            if subprocess.run(["strace", "-o", "/dev/null", "true"], capture_output=True).returncode:
                self.skipTest("strace may not trace here")
            asked = ["ask", "5", *members.addresses]
            made = run(["strace", "-f", "-o", trace.name, NOZHGIVA, *asked], "put color green\n", PATH=PYTHON + ":/usr/bin:/bin")
            self.assertEqual((made.stdout, made.returncode), ("ok\n", 0))
            with open(trace.name) as file:
                lines = [line.split(None, 1) for line in file]
        calls = [call for _, call in lines if re.match(r"[a-z_0-9]+\(", call)]
        self.assertLessEqual(len({process for process, _ in lines}), 2)
        self.assertGreater(len(calls), 100)
        self.assertLessEqual(len(calls), 800)


FEW = "start 2 view 3 log_view 3 commit 0\ncommit 2 op 9 view 3 client 7 request 0 register\n"


class Watching(unittest.TestCase):
    LINES = "start 2 view 0 log_view 0 commit 0\n" + "".join(f"send {n} 2 1 commit view 3 op 9 commit 9\n" for n in range(1000)) + "commit 2 op 9 view 3 client 1 request 1 put a b\ncommit 2 op"

    def test_to_standard_output(self) -> None:
        made = subprocess.run([os.path.join(HERE, "watch")], input=self.LINES, capture_output=True, text=True)
        lines = [line.split(" ", 1)[1] for line in made.stdout.splitlines()]
        self.assertEqual(lines[:4], ["start 2 view 0 log_view 0 commit 0", "send 0 2 1 commit view 3 op 9 commit 9", "commit 2 op 9 view 3 client 1 request 1 put a b", "commit 2 op"])
        self.assertTrue(lines[4].startswith("watch: member=2 well=yes state=leads view=3 applied=9 commit=9 head=9"), lines[4])
        self.assertIn("left_out=999", lines[4])
        self.assertEqual(len(lines), 5)
        self.assertTrue(made.stderr.startswith("watch: member=2"))

    def test_a_log_that_cannot_be_written_holds_nobody_up(self) -> None:
        made = subprocess.run([os.path.join(HERE, "watch"), "--log", "/dev/full"], input=self.LINES, capture_output=True, text=True, timeout=60)
        self.assertEqual(made.returncode, 0)

    def test_a_log_that_cannot_be_made(self) -> None:
        made = subprocess.run([os.path.join(HERE, "watch"), "--log", "/no/such/log"], input="", capture_output=True, text=True)
        self.assertEqual(made.returncode, 2)
        self.assertIn("watch: refused", made.stderr)

    def watched(self, *options: str, text: str = FEW) -> "subprocess.CompletedProcess[str]":
        """How it ends, whose standard input is a plain file of this text."""
        with tempfile.TemporaryFile("w+") as file:
            file.write(text)
            file.seek(0)
            return subprocess.run([os.path.join(HERE, "watch"), *options], stdin=file, capture_output=True, text=True, timeout=60)

    def test_a_plain_file(self) -> None:
        made = self.watched()
        self.assertEqual(made.returncode, 0, made.stderr)
        self.assertEqual([line[25:] for line in made.stdout.splitlines()[:2]], FEW.splitlines())
        self.assertTrue(made.stdout.splitlines()[2][25:].startswith("watch: member=2 well=yes state=follows view=3 applied=9 "), made.stdout)

    def test_an_output_that_takes_nothing(self) -> None:
        """A full disk, and none at all: it says so once, reads on to the end, and tells on standard error what it knows."""
        for output, why in ((">/dev/full", "No space left on device"), (">&-", "Bad file descriptor")):
            with self.subTest(output):
                made = subprocess.run(["sh", "-c", f'exec "$0" {output}', os.path.join(HERE, "watch")], input=FEW, stderr=subprocess.PIPE, text=True, timeout=60)
                self.assertEqual((made.returncode, "Traceback" in made.stderr), (0, False), made.stderr)
                self.assertEqual(made.stderr.count(f"standard output can't be written: {why}"), 1)
                self.assertIn("watch: member=2 well=yes state=follows view=3 applied=9 ", made.stderr)

    def test_an_empty_file(self) -> None:
        made = self.watched(text="")
        self.assertEqual((made.returncode, "Traceback" in made.stderr), (0, False))
