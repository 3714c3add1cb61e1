"""Schedules are line by line those that figures were always measured on; tables are as the page has them; places leave nothing."""

import hashlib
import os
import signal
import subprocess
import sys
import tempfile
import time
import unittest
from pathlib import Path

from bench.measuring import crates, Figure, groups, models, PAGE, places, Refused, replays, schedules, tables
from nozhgiva_tools.places import TOP

FIGURES = {one.name: one for one in (*groups.FIGURES, *replays.FIGURES, *crates.FIGURES)}
COLUMNS = {**groups.COLUMNS, **replays.COLUMNS, **crates.COLUMNS}
# SHA-256 of 6,001 lines by replicas, as a script of shell and awk wrote them from which figures came until now.
DIGESTS = {
    1: "2fb78700ef2f37c11838d0b0691c8a31fdc5e474a29e77e205b8e636ffb0bf19",
    2: "22843fd5c0aeb7e39cb6d7e22b3e6a532d89d910175aeea8483e894b54cfc122",
    3: "02d1bc749e6327d8a97a4543f7804dcf6c34e6e8ef203fa005f78209bb3fa2a3",
    4: "116b2fa79adfdd9e0d0867f7fb5462f44a3008505c3d3dad44f8f87ae47ef884",
    5: "7a01ed6a28ca2be8fea24581676fca6ae01341193ccc703fb7d2fe68a5935482",
    6: "4f25ea66cf741ff126a4d9d3ec6e99226788fd160f5aee29471ad93b832ccfd1",
}


class Schedules(unittest.TestCase):
    def test_they_are_the_same_as_ever(self) -> None:
        for replicas, digest in DIGESTS.items():
            self.assertEqual(hashlib.sha256(schedules.text(6001, replicas).encode()).hexdigest(), digest, replicas)

    def test_they_have_so_many_lines(self) -> None:
        self.assertEqual(schedules.text(4, 2), "cluster 2\nrequest 0 2 0 register\ndeliver 0\ndeliver 1\n")

    def test_rounds_by_hand(self) -> None:
        self.assertEqual(schedules.rounds(2, 2), [
            "cluster 3", "request 0 7 0 register", "deliver 0", "deliver 1", "deliver 2", "deliver 3",
            f"request 0 7 1 put key1 {'v' * 100}", "deliver 4", "deliver 5", "deliver 6", "deliver 7"])


class Tables(unittest.TestCase):
    PAGE = "# A\n\n<!-- bench/figures caches -->\n\n| a | b |\n|---|---|\n| 1 | 2 |\n\n<!-- end -->\n\nAfter.\n"

    def test_a_table(self) -> None:
        self.assertEqual(tables.table(("", "b"), [(1, "x")]), ["|  | b |", "|---|---|", "| 1 | x |"])
        with self.assertRaises(ValueError):
            tables.table(("a", "b"), [(1,)])

    def test_numbers(self) -> None:
        self.assertEqual((tables.grouped(20934.4), tables.grouped(1043.26, 1), tables.grouped(7)), ("20,934", "1,043.3", "7"))

    def test_it_takes_the_place_of_the_old_one(self) -> None:
        text = tables.put(self.PAGE, "caches", ["| c |", "|---|", "| 3 |"])
        self.assertEqual(text, "# A\n\n<!-- bench/figures caches -->\n\n| c |\n|---|\n| 3 |\n\n<!-- end -->\n\nAfter.\n")
        self.assertEqual(tables.put(text, "caches", ["| c |", "|---|", "| 3 |"]), text)

    def test_a_page_without_its_place_is_refused(self) -> None:
        for text in ("# A\n", "<!-- bench/figures caches -->\n"):
            with self.assertRaisesRegex(Refused, "no place for caches"):
                tables.put(text, "caches", [])

    def test_the_page_has_each_place_with_its_columns(self) -> None:
        text = PAGE.read_text(encoding="utf-8")
        for one in FIGURES.values():
            for block in one.blocks:
                with self.subTest(block=block):
                    self.assertTrue(tables.has(text, block))
                    self.assertEqual(tables.block_of(text, block)[:2], tables.table(COLUMNS[one.name], [])[:2])

    def test_the_page_has_no_other_places(self) -> None:
        found = [line for line in PAGE.read_text(encoding="utf-8").splitlines() if line.startswith("<!-- bench/figures ")]
        self.assertEqual(sorted(found), sorted(tables.marker(block).strip() for one in FIGURES.values() for block in one.blocks))


class Places(unittest.TestCase):
    def test_what_was_started_ends_with_it(self) -> None:
        with places.Place() as place:
            child = place.start(["sh", "-c", "sleep 600 & echo $! > pid; wait"], folder=place.folder)
            until = time.monotonic() + 10
            while not (place / "pid").exists() or not (place / "pid").read_text():
                self.assertLess(time.monotonic(), until)
                time.sleep(0.02)
            other = int((place / "pid").read_text())
        self.assertIsNotNone(child.returncode)
        self.assertTrue(has_ended(other))
        self.assertFalse(place.folder.exists())

    def test_a_text_is_its_input_and_its_output_is_answered(self) -> None:
        with places.Place() as place:
            self.assertEqual(place.run(["sh", "-c", "cat; echo said >&2"], "a\n"), ("a\n", "said\n"))
            place.run(["cat"], place.text("b\n"), place / "kept")
            self.assertEqual((place / "kept").read_text(), "b\n")

    def test_a_failure_is_told_by_its_last_line(self) -> None:
        with places.Place() as place:
            with self.assertRaisesRegex(Refused, "^sh -c .* ends with status 3: worse$"):
                place.run(["sh", "-c", "echo bad >&2; echo worse >&2; exit 3"])
            with self.assertRaisesRegex(Refused, "doesn't start"):
                place.run([place / "none"])
            with self.assertRaisesRegex(Refused, "doesn't end in 0 s"):
                place.run(["sleep", "600"], most=0.05)

    def test_the_time_of_a_processor(self) -> None:
        with places.Place() as place:
            busy = "import time\nend = time.process_time() + 0.3\nwhile time.process_time() < end: pass"
            self.assertGreater(place.processor([sys.executable, "-c", busy], None, place / "out"), 290)
            self.assertLess(place.processor(["sleep", "0.3"], None, place / "out"), 200)

    def test_a_folder_that_is_not_there_is_refused(self) -> None:
        with self.assertRaisesRegex(Refused, "no folder can be made in /nonesuch"):
            places.Place("/nonesuch")


def has_ended(pid: int) -> bool:
    """Whether a process is gone, or will be as soon as somebody waits for it."""
    until = time.monotonic() + 5
    while time.monotonic() < until:
        try:
            if Path(f"/proc/{pid}/stat").read_text().rpartition(")")[2].split()[0] == "Z":
                return True
        except OSError:
            return True
        time.sleep(0.05)
    return False


class Models(unittest.TestCase):
    """A stand-in for rt makes a program that counts its crates and sources."""

    RT = """#!/bin/sh
[ "$1" = run ] || exit 9
mkdir -p out
{ echo '#!/bin/sh'; echo "echo $(ls .. | wc -l) $(ls src | wc -l) $*"; } > "out/$(basename "$PWD")"
chmod +x out/*
cp ../../crates.txt out/map
"""

    def setUp(self) -> None:
        self.folder = tempfile.TemporaryDirectory()
        self.addCleanup(self.folder.cleanup)
        Path(self.folder.name, "rt").write_text(self.RT)
        Path(self.folder.name, "rt").chmod(0o755)
        before = os.environ["PATH"]
        os.environ["PATH"] = f"{self.folder.name}:{before}"
        self.addCleanup(os.environ.__setitem__, "PATH", before)

    def test_each_is_built_of_its_crates_and_sources(self) -> None:
        for model, count in ((crates.CHOICE, "5 1"), (crates.STREAM, "7 2"), (crates.STORAGE, "10 6")):
            with places.Place() as place:
                program = models.built(place, model, None, "header", "1")
                self.assertEqual(models.said(place, program), f"{count} run --jobs 1 -- header 1")
                lines = (program.parent / "map").read_text().splitlines()
                self.assertEqual([line.partition(":")[0] for line in lines], [*model.crates, model.crate])
                self.assertEqual(lines[-1].partition(": ")[2].split(), list(model.crates))

    def test_proofs_come_with_their_sources(self) -> None:
        with places.Place() as place:
            crate = models.built(place, crates.CHOICE, None).parent.parent
            self.assertEqual(sorted(path.name for path in crate.rglob("*.antt")), ["Answers.antt", "Invariants.antt", "Lib.antt"])

    @unittest.skipUnless((TOP / ".git").exists(), "no clone, so no commit")
    def test_the_crates_of_a_commit(self) -> None:
        with places.Place() as place:
            program = models.built(place, crates.CHOICE, "HEAD")
            self.assertEqual(models.said(place, program), "5 1 run --jobs 1")
            wanted = subprocess.check_output(["git", "show", "HEAD:crates/vr_choose/src/lib.rt"], cwd=TOP)
            self.assertEqual((place / "choice" / "crates" / "vr_choose" / "src" / "lib.rt").read_bytes(), wanted)

    def test_a_commit_that_is_not_there_is_refused(self) -> None:
        with places.Place() as place, self.assertRaisesRegex(Refused, "nonesuch"):
            models.built(place, crates.CHOICE, "nonesuch")

    def test_a_crate_that_is_not_there_is_refused(self) -> None:
        with places.Place() as place, self.assertRaises(Refused):
            models.built(place, models.Model("choice", ("vr_nonesuch",)), None)


class Pipes(unittest.TestCase):
    def test_a_signal_that_nobody_hears_is_no_fault(self) -> None:
        child = subprocess.Popen(["true"], start_new_session=True)
        child.wait()
        places.send(child, signal.SIGTERM)

    def test_each_figure_has_columns(self) -> None:
        self.assertTrue(all(isinstance(one, Figure) for one in FIGURES.values()))
        self.assertLessEqual({one.name for one in FIGURES.values() if one.blocks}, set(COLUMNS))


if __name__ == "__main__":
    unittest.main()
