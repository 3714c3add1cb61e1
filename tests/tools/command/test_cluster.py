"""Three members of this machine, by `nozhgiva cluster`: what it says, what it ends, whose ports it names, and a command beside it."""

import os
import re
import signal
import socket
import subprocess
import tempfile
import time
import unittest
from typing import List

from nozhgiva_tools.places import TOP
from nozhgiva_tools.run.ports import free_run

from .common import call, needs_program, NOZHGIVA


def processes_with(text: str) -> List[str]:
    """The processes of this machine that have this text among their words."""
    ran = subprocess.run(["pgrep", "-a", "-f", "--", text], stdout=subprocess.PIPE, text=True, check=False)
    return ran.stdout.splitlines()


def first(pattern: str, text: str) -> str:
    """What a pattern's first group finds in a text."""
    found = re.search(pattern, text)
    assert found, text
    return found[1]


@needs_program
class Clusters(unittest.TestCase):
    def begin(self, *words: str) -> "subprocess.Popen[str]":
        child = subprocess.Popen([NOZHGIVA, "cluster", *words], stdout=subprocess.PIPE, stderr=subprocess.PIPE, text=True, cwd=TOP)
        self.addCleanup(child.communicate, timeout=30)
        self.addCleanup(child.kill)
        return child

    def lines(self, child: "subprocess.Popen[str]", count: int) -> List[str]:
        assert child.stdout is not None
        return [child.stdout.readline() for _ in range(count)]

    def end(self, child: "subprocess.Popen[str]") -> List[str]:
        child.send_signal(signal.SIGINT)
        out, err = child.communicate(timeout=60)
        self.assertEqual(child.returncode, 0, err)
        return out.splitlines()

    def test_what_its_lines_started_is_ended(self) -> None:
        child = self.begin("--v2", "--port", str(free_run(3)))
        lines = self.lines(child, 3)
        members = [int(number) for number in re.findall(r"\d+", lines[0].split("processes")[1].split(",")[0])]
        ran = call(["bash", "-c", lines[1]], where=str(TOP))
        self.assertEqual(ran.stdout, b"ok\nvalue green\n", ran.stderr)
        os.kill(members[0], signal.SIGKILL)
        ended, again = self.lines(child, 2)
        self.assertIn("member 0 has ended with status 137", ended)
        started = subprocess.Popen(["bash", "-c", again], cwd=TOP, stderr=subprocess.PIPE)
        self.addCleanup(started.communicate)
        self.addCleanup(started.kill)
        folder = first(r"files in (\S+)\.", lines[0])
        until = time.monotonic() + 20
        while not [one for one in processes_with(f" {folder}/0 ") if "python3" not in one and "bash" not in one]:
            self.assertLess(time.monotonic(), until, "the printed line starts no member")
            time.sleep(0.05)
        time.sleep(0.5)
        said = self.end(child)
        self.assertEqual(said[-1], f"the members are ended, {folder} is removed")
        started.wait(30)
        self.assertEqual(processes_with(f" {folder}/"), [])
        self.assertFalse(os.path.exists(folder) or os.path.exists(f"{folder}.gone"))

    def test_numbers_of_groups_differ_and_nothing_is_said_on_standard_error(self) -> None:
        numbers = set()
        for _ in range(2):
            child = self.begin("--port", str(free_run(3)))
            lines = self.lines(child, 2)
            numbers.add(int(first(r"ask (\d+) ", lines[1])))
            member = int(first(r"processes (\d+)", lines[0]))
            os.kill(member, signal.SIGKILL)
            self.lines(child, 1)
            child.send_signal(signal.SIGINT)
            self.assertEqual(child.communicate(timeout=60)[1], "")
        self.assertEqual(len(numbers), 2)
        self.assertGreaterEqual(min(numbers), 1_000_000)

    def test_who_holds_a_port_is_named(self) -> None:
        for kind in (socket.SOCK_DGRAM, socket.SOCK_STREAM):
            with self.subTest(kind=kind), socket.socket(socket.AF_INET, kind) as held:
                held.bind(("127.0.0.1", 0))
                if kind == socket.SOCK_STREAM:
                    held.listen()
                port = held.getsockname()[1]
                ran = call([NOZHGIVA, "cluster", "--port", str(min(port, 65533))])
                self.assertEqual((ran.returncode, ran.stdout), (1, b""))
                self.assertIn(f"port {port}: process {os.getpid()}, ".encode(), ran.stderr)

    def test_a_command_beside_it(self) -> None:
        with tempfile.TemporaryDirectory() as folder:
            asks = 'echo "$NOZHGIVA_GROUP $NOZHGIVA_ADDRS"; printf "put a 1\\nget a\\n" | ./nozhgiva ask "$NOZHGIVA_GROUP" $NOZHGIVA_ADDRS; exit 7'
            for _ in range(2):
                ran = call([NOZHGIVA, "cluster", "--", "sh", "-c", asks], where=str(TOP), env={**os.environ, "TMPDIR": folder})
                lines = ran.stdout.decode().splitlines()
                self.assertEqual((ran.returncode, lines[1:]), (7, ["ok", "value 1"]), ran.stderr)
                self.assertEqual((os.listdir(folder), processes_with(f"node {lines[0].split()[0]} ")), ([], []))

    def test_a_command_is_ended_with_it(self) -> None:
        child = self.begin("--", "sh", "-c", "echo begun; exec sleep 987")
        assert child.stdout is not None
        self.assertEqual(child.stdout.readline(), "begun\n")
        child.send_signal(signal.SIGTERM)
        self.assertEqual((child.wait(30), processes_with("sleep 987")), (143, []))

    def test_wrong_words(self) -> None:
        for words in (["--port", "0"], ["--port", "65534"], ["--port", "x"], ["sh"], ["--"], ["--show", "--", "sh"], ["--no"]):
            with self.subTest(words=words):
                ran = call([NOZHGIVA, "cluster", *words])
                self.assertEqual((ran.returncode, ran.stdout, b"Traceback" in ran.stderr), (2, b"", False))
        ran = call([NOZHGIVA, "cluster", "--", "/none/such"])
        self.assertEqual((ran.returncode, b"/none/such doesn't start" in ran.stderr), (1, True))


if __name__ == "__main__":
    unittest.main()
