"""What the checks need is installed by apt, or it is told that it isn't: by an apt-get that pretends, and with tools that no machine has."""

import os
import shutil
import sys
import tempfile
import time
import unittest
from pathlib import Path
from typing import Dict, List, Set, Tuple
from unittest import mock

from nozhgiva_tools.command import checking, packages

from .common import call, copy_parts, without_rt, write_script

SH = "#!/bin/sh\n"
needs_root = unittest.skipUnless(os.geteuid() == 0, "not root: apt-get is called by root alone")
# It notes its words, and gives a package's tool by making it. APT_FAILS names the step that fails, APT_HANGS the one that hangs, APT_LACKS a package
# of which no list tells; of APT_IDLE nothing is made.
APT_GET = SH + """
echo "$@" >> "$APT_SAID"
for word; do case $word in update | --download-only | --no-download) step=$word ;; esac; done
[ "$step" != "$APT_HANGS" ] || { sleep 1000 & echo $! > "$APT_SAID.hangs"; wait; }
[ "$step" != "$APT_FAILS" ] || { echo 'W: first'; echo 'E: it is out of reach'; exit 100; }
[ "$step" = --no-download ] || exit 0
for word; do case $word in nz-*) [ "$word" = "$APT_IDLE" ] || { printf '#!/bin/sh\\n' > "$APT_BIN/$word"; chmod +x "$APT_BIN/$word"; } ;; esac; done
"""
APT_CACHE = SH + 'shift\nfor word; do [ "$word" = "$APT_LACKS" ] || printf "Package: %s\\nVersion: 1\\n\\n" "$word"; done\n'
LIST = "nz-must nz-must must one\nnz-may nz-may may one,other\nnz-other nz-other must nobody\n"
CHECKS = "one 1 nz-must - true\nother 1 nz-may - true\nplain 1 - - true\n"


class Lists(unittest.TestCase):
    def test_each_row_names_checks_and_what_they_use(self) -> None:
        table = {one.name: one for one in checking.read_table()}
        found = packages.read_list()
        self.assertEqual(len({one.name for one in found}), len(found))
        for one in found:
            with self.subTest(package=one.name):
                self.assertEqual(one.checks - set(table), set())
                self.assertTrue(one.checks)
        # What a check needs as a whole is Debian's, or every Debian has it.
        given = {(one.gives, name) for one in found for name in one.checks}
        plain = {"program", "rt", "root", "flock", "dpkg-deb", "unshare"}  # `rt` is the toolchain's; the other commands are in every Debian
        for check in table.values():
            for need in (need for need in set(check.needs) - plain if not need.startswith("/dev/")):
                with self.subTest(check=check.name, need=need):
                    self.assertIn((need, check.name), given)

    def test_a_row_of_another_form_is_refused(self) -> None:
        with tempfile.NamedTemporaryFile("w", suffix=".txt") as file:
            file.write("strace strace perhaps crashes\n")
            file.flush()
            self.assertRaises(ValueError, packages.read_list, Path(file.name))

    def test_what_is_missing_is_that_of_the_checks(self) -> None:
        rows = [packages.Package("a", "sh", True, frozenset(["one"])), packages.Package("b", "nz-nonesuch", True, frozenset(["one", "two"])),
                packages.Package("c", "python:nz_nonesuch", True, frozenset(["three"])), packages.Package("d", "/dev/nz-nonesuch", True, frozenset(["two"])),
                packages.Package("e", "nz-nonesuch/sh", True, frozenset(["two"])), packages.Package("f", "python:json", True, frozenset(["three"]))]
        wanted: Tuple[Tuple[Set[str], str], ...] = (({"one"}, "b"), ({"two"}, "b d"), ({"three"}, "c"), ({"four"}, ""), (set(), ""))
        for checks, names in wanted:
            self.assertEqual(packages.names(packages.missing(rows, checks)), names)


class Pretended(unittest.TestCase):
    """An apt-get that pretends, and what it gives."""

    def setUp(self) -> None:
        room = tempfile.TemporaryDirectory()
        self.addCleanup(room.cleanup)
        self.room, self.bin, self.said = Path(room.name), Path(room.name) / "bin", Path(room.name) / "said"
        write_script(self.bin / "apt-get", APT_GET)
        write_script(self.bin / "apt-cache", APT_CACHE)
        self.env = without_rt(APT_SAID=str(self.said), APT_BIN=str(self.bin), NOZHGIVA_PROGRAM="/bin/true", CI="", APT_HANGS="-", APT_FAILS="-", APT_LACKS="-", APT_IDLE="-")
        self.env["PATH"] = f"{self.bin}:{self.env['PATH']}"
        (self.room / "list.txt").write_text(LIST, encoding="ascii")

    def forget(self) -> None:
        for path in (self.said, self.bin / "nz-must", self.bin / "nz-may"):
            path.unlink(missing_ok=True)

    def set_up(self, **env: str) -> Tuple[bool, List[str]]:
        """Whether all is well, and what was said."""
        self.forget()
        said: List[str] = []
        rows = packages.read_list(self.room / "list.txt")
        with mock.patch.dict(os.environ, {**self.env, **env}, clear=True), mock.patch.object(packages, "read_list", lambda: rows):
            return packages.set_up(said.append, {"one", "other", "plain"}, True), said

    def check(self, *words: str, **env: str) -> Tuple[int, List[str]]:
        """A run of checks in a tree of its own: how it ended, and its lines."""
        self.forget()
        top = self.room / "tree"
        if not top.exists():
            copy_parts(str(self.room))
            shutil.copy(self.room / "list.txt", top / "tests" / "packages.txt")
            (top / "tests" / "checks.txt").write_text(CHECKS, encoding="ascii")
        ran = call([str(top / "nozhgiva"), "test", *words], env={**self.env, **env})
        self.assertEqual((ran.stderr, b"Traceback" in ran.stdout), (b"", False))
        return ran.returncode, ran.stdout.decode().splitlines()

    def calls(self) -> List[str]:
        return [line.split("Retries=0 ")[1] for line in self.said.read_text(encoding="ascii").splitlines()] if self.said.exists() else []

    def assert_told(self, lines: List[str], *texts: str) -> None:
        for text in texts:
            self.assertTrue([line for line in lines if text in line], (text, lines))


@needs_root
class Installs(Pretended):
    def test_what_is_missing_is_installed_and_told_before(self) -> None:
        status, lines = self.check("--checks", CI="true")
        self.assertEqual((status, lines[-1]), (0, "3 passed, 0 failed"))
        self.assertEqual(lines[0], "set-up: apt-get installs nz-must nz-may for one, other: some minutes, 15 at most; with --no-install it is left out")
        wanted = [f"install {step} {name}" for name in ("nz-must", "nz-may") for step in ("--download-only", "--no-download")]
        self.assertEqual(self.calls(), [f"update {packages.WHOLE}", *wanted])
        self.assertEqual([line for line in lines[1:] if "left out" in line], [])
        self.said.unlink()
        with mock.patch.object(self, "forget"):  # the next run finds all
            lines = self.set_up()[1]
        self.assertEqual((lines, self.calls()), ([], []))

    def test_it_is_declined_and_parts_install_nothing(self) -> None:
        for words in (("--checks", "--no-install"), ("one", "plain", "other")):
            with self.subTest(words=words):
                status, lines = self.check(*words, CI="true")
                self.assertEqual((status, lines[-2:], self.calls()), (0, ["left out: 2 checks, and parts of 0", "1 passed, 0 failed"], []))
                self.assert_told(lines, "set-up: missing: nz-must nz-may; this run installs nothing. As root `apt-get install nz-must nz-may` has it", "left out: one: no nz-must")

    def test_a_registry_out_of_reach_is_told_and_fails_nothing(self) -> None:
        reach = "E: it is out of reach"
        rows: Tuple[Tuple[Dict[str, str], List[str]], ...] = (
            ({"APT_FAILS": "--download-only"}, [f"nz-must nz-may: apt-get install: {reach}"]),
            ({"APT_FAILS": "update"}, []),  # the lists that are there may do
            ({"APT_FAILS": "update", "APT_LACKS": "nz-must"}, [f"nz-must: apt-get update: {reach}"]))
        for env, left in rows:
            with self.subTest(env=env):
                is_well, lines = self.set_up(CI="true", **env)
                self.assertEqual((is_well, lines[2:]), (True, [f"set-up: left out: {one}" for one in left]))
        status, lines = self.check("--checks", CI="true", APT_FAILS="--download-only")
        self.assertEqual((status, lines[-2:]), (0, ["left out: 2 checks, and parts of 0", "1 passed, 0 failed"]))

    def test_a_ci_fails_for_what_it_must_have_and_the_registry_was_to_give(self) -> None:
        rows: Tuple[Tuple[Dict[str, str], bool, str], ...] = (
            ({"APT_LACKS": "nz-must"}, False, "the registry has no such package"), ({"APT_IDLE": "nz-must"}, False, "it is installed, and what is wanted of it isn't there"),
            ({"APT_FAILS": "--no-download"}, False, "E: it is out of reach"), ({"APT_LACKS": "nz-may"}, True, "the registry has no such package"), ({"APT_IDLE": "nz-may"}, True, "isn't there"))
        for env, may_pass, why in rows:
            for ci, is_ci in (("true", True), ("1", True), ("", False), ("false", False)):
                with self.subTest(env=env, ci=ci):
                    is_well, lines = self.set_up(CI=ci, **env)
                    self.assertEqual(is_well, may_pass or not is_ci, lines)
                    self.assert_told(lines, why)
                    self.assertEqual(lines[-1] == "set-up: FAILED: a CI has to have nz-must, as tests/packages.txt says", not is_well)
        status, lines = self.check("--checks", CI="true", APT_IDLE="nz-must")
        self.assertEqual((status, lines[-1]), (1, "2 passed, 1 failed"))

    def test_one_that_hangs_is_ended(self) -> None:
        begun = time.monotonic()
        with mock.patch.object(packages, "FETCH", 1.0):
            is_well, lines = self.set_up(CI="true", APT_HANGS="update", APT_LACKS="nz-must")
        self.assertLess(time.monotonic() - begun, 30)
        self.assertTrue(is_well)
        self.assert_told(lines, "set-up: left out: nz-must: apt-get update took more than 1 s", "set-up: left out: nz-may: there was no time left")
        number = Path(f"{self.said}.hangs").read_text(encoding="ascii").strip()
        self.assertEqual(call(["ps", "-o", "state=", "-p", number]).stdout.strip().replace(b"Z", b""), b"")


class Declines(Pretended):
    def test_without_root_or_apt_it_goes_on_with_what_is_there(self) -> None:
        (self.bin / "apt-get").unlink()
        bare = self.room / "bare"
        bare.mkdir()
        for name in ("bash", "sh", "dirname", "realpath", "sed", "awk", "find", "true", "env", "python3"):
            os.symlink(sys.executable if name == "python3" else str(shutil.which(name)), bare / name)
        status, lines = self.check("--checks", PATH=str(bare), CI="true")
        self.assertEqual((status, lines[-2:]), (0, ["left out: 2 checks, and parts of 0", "1 passed, 0 failed"]))
        self.assertIn("there is no apt-get" if os.geteuid() == 0 else "not root", lines[0])
        with mock.patch("os.geteuid", lambda: 1000):
            is_well, lines = self.set_up(CI="true")
        self.assertEqual((is_well, lines, self.calls()), (True, ["set-up: missing: nz-must nz-may; not root. As root `apt-get install nz-must nz-may` has it; what needs it is left out"], []))


class Times(unittest.TestCase):
    """What is slow is run by --all alone, and the others fit into their time."""

    def test_all_that_are_not_slow_fit_into_their_minutes_on_a_slow_machine(self) -> None:
        table = checking.read_table()
        self.assertLessEqual(sum(one.seconds for one in table if not one.marks & {checking.SLOW, checking.NAMED}), 1120)  # of 1,680
        self.assertLessEqual(sum(one.seconds for one in table if checking.QUICK in one.marks), 200)  # of 300

    def test_slow_ones_are_run_by_all_or_by_their_name_alone(self) -> None:
        with tempfile.TemporaryDirectory() as folder:
            top = copy_parts(folder)
            (top / "tests" / "checks.txt").write_text("good 1 - - true\nlong 300 - slow true\n", encoding="ascii")
            (top / "tests" / "packages.txt").write_text("", encoding="ascii")
            rows: Tuple[Tuple[List[str], int, List[str]], ...] = ((["--checks"], 0, ["good"]), (["--checks", "--all"], 0, ["good", "long"]), (["long"], 0, ["long"]), (["--quick"], 1, []))
            for words, status, names in rows:
                with self.subTest(words=words):
                    ran = call([str(top / "nozhgiva"), "test", *words], env=without_rt(NOZHGIVA_PROGRAM="/bin/true"))
                    self.assertEqual((ran.returncode, [line.split(":")[0] for line in ran.stdout.decode().splitlines() if ": passed in" in line]), (status, names))
            listed = call([str(top / "nozhgiva"), "test", "--list"]).stdout.decode().splitlines()
            self.assertEqual(listed[-1], "in all: 1 checks, some 0 minutes; and 1 slow ones, with --all alone, some 5 minutes")
            for wrong in (["--all", "--quick"], ["--all", "good"]):
                self.assertEqual(call([str(top / "nozhgiva"), "test", *wrong]).returncode, 2)
            (top / "tests" / "checks.txt").write_text("good 1 - quick,slow true\n", encoding="ascii")
            self.assertNotEqual(call([str(top / "nozhgiva"), "test", "--list"]).returncode, 0)


if __name__ == "__main__":
    unittest.main()
