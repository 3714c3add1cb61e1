"""The program by way of `nozhgiva` and by itself: the same output, code and end by a signal, and at most one line more on standard error."""

import os
import signal
import subprocess
import tempfile
import time
import unittest

from nozhgiva_tools.run.ports import free_addresses

from .common import call, needs_program, NOZHGIVA, output_of, PROGRAM

PLAIN = b"cluster 2\nrequest 0 7 0 register\ndeliver 0\ndeliver 1\n"
A, B = free_addresses(2)
SILENT = ["5", "9", "20", A, B]
# By command lines: words, and what is given. {} is a folder, the same for both.
LINES = (
    (["replay"], PLAIN), (["replay"], b""), (["replay"], b"# a comment\n"), (["replay"], b"cluster 2\nhello\n"), (["replay"], b"cluster 9\n"), (["replay", "x"], b""),
    (["replay"], b"cluster 1 v2\ntick 0\n" * 1), (["replay"], PLAIN + b"\xff\x00\n"), (["replay"], b"cluster 2"), (["replay", "--help", "x"], b""),
    (["soak", "7", "2000"], b""), (["soak", "0", "0"], b""), (["soak", "7"], b""), (["soak", "-1", "5"], b""), (["soak", "", ""], b""), (["soak", "18446744073709551615", "10"], b""),
    (["node"], b""), (["node", "5", "0", "{}/none/file", "1", A, B, "--fresh"], b""), (["node", "5", "0", "{}/0", "1", A, B, "--fresh"], b""), (["node", "5", "0", "{}/0", "1", A, B], b""),
    (["node", "5", "1", "{}/0", "1", A, B], b""), (["node", "5", "0", "{}", "1", A, B], b""), (["node", "5", "0", "{}/1", "1", A, "x", "--fresh"], b""),
    (["node", "5", "0", "{}/2", "1", A, f"tcp:{B}", "--fresh"], b""), (["node", "5", "0", "{}/3", "2", A, "--fresh", "--careful", "--v2"], b""), (["migrate"], b""),
    (["migrate", "5", "0", "2", "{}/0"], b""), (["migrate", "5", "0", "2", "{}/none"], b""), (["client", *SILENT], b"get a\n"), (["client", "5", "0", "1", A, B], b""),
    (["client", *SILENT], b"put a\n"), (["trial"], b""), (["trial", "5", "10", "{}/none/", A, B], b""), (["soak", "a b", "\xe9", "*"], b""),
)
SIGNALS = (signal.SIGTERM, signal.SIGINT, signal.SIGHUP, signal.SIGUSR1, signal.SIGQUIT, signal.SIGUSR2)


@needs_program
class Same(unittest.TestCase):
    maxDiff = None

    def test_output_and_code(self) -> None:
        with tempfile.TemporaryDirectory() as folder:
            for number, (words, given) in enumerate(LINES):
                with self.subTest(words=words, given=given):
                    ran = []
                    for way in (PROGRAM, NOZHGIVA):
                        own = os.path.join(folder, os.path.basename(way))
                        os.makedirs(own, exist_ok=True)
                        ran.append(call([way, *(word.replace("{}", own) for word in words)], given))
                    alone, handed = ran
                    self.assertEqual((handed.returncode, handed.stdout), (alone.returncode, alone.stdout))
                    self.assertEqual(handed.stderr[:len(alone.stderr)], alone.stderr)
                    self.assertRegex(handed.stderr[len(alone.stderr):], rb"\A(nozhgiva: [^\n]+\n)?\Z")
        self.assertGreaterEqual(len(LINES), 30)

    def test_signals(self) -> None:
        for number in SIGNALS:
            with self.subTest(signal=number), tempfile.TemporaryDirectory() as folder:
                child = subprocess.Popen([NOZHGIVA, "node", "5", "0", f"{folder}/0", "1000000", A, B, "--fresh"], stdout=subprocess.PIPE)
                self.addCleanup(output_of(child).close)
                self.assertTrue(output_of(child).read(1))  # it serves
                child.send_signal(number)
                self.assertEqual(child.wait(30), -number)
                self.assertEqual(call(["flock", "-n", f"{folder}/0", "true"]).returncode, 0)  # and the member is gone

    def test_a_data_file_is_for_its_owner_alone(self) -> None:
        with tempfile.TemporaryDirectory() as folder:
            self.addCleanup(os.umask, os.umask(0))
            self.assertEqual(call([NOZHGIVA, "node", "5", "0", f"{folder}/0", "1", A, B, "--fresh"]).returncode, 0)
            self.assertEqual(oct(os.stat(f"{folder}/0").st_mode & 0o777), "0o600")

    def test_a_killed_one_leaves_no_member(self) -> None:
        with tempfile.TemporaryDirectory() as folder:
            child = subprocess.Popen([NOZHGIVA, "node", "5", "0", f"{folder}/0", "1000000", A, B, "--fresh"], stdout=subprocess.PIPE)
            self.addCleanup(output_of(child).close)
            self.assertTrue(output_of(child).read(1))
            child.kill()
            child.wait(30)
            self.assertEqual(call(["flock", "-w", "30", f"{folder}/0", "true"]).returncode, 0)

    def test_ignored_signals_stay_ignored(self) -> None:
        with tempfile.TemporaryDirectory() as folder:
            words = ["sh", "-c", 'trap "" HUP; exec "$@"', "sh", NOZHGIVA, "node", "5", "0", f"{folder}/0", "1000000", A, B, "--fresh"]
            child = subprocess.Popen(words, stdout=subprocess.PIPE)
            self.addCleanup(output_of(child).close)
            self.assertTrue(output_of(child).read(1))
            child.send_signal(signal.SIGHUP)
            time.sleep(0.3)
            self.assertIsNone(child.poll())
            child.terminate()
            self.assertEqual(child.wait(30), -signal.SIGTERM)


if __name__ == "__main__":
    unittest.main()
