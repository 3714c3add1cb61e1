"""Which process works for which crate, how long tasks take on so many processors, and what ./nozhgiva gate-cost says of a command."""

import json
import subprocess
import tempfile
import unittest
from pathlib import Path
from typing import Dict, Tuple

from nozhgiva_tools.house import gate_cost
from nozhgiva_tools.places import NOZHGIVA

CHECK = "/opt/kit/bin/rattle check --crate-name app_low --antt-project /opt/kit/logic.json"
LIBRARIES: Dict[str, Tuple[str, ...]] = {"app_low": ("sha2",), "app_high": ("app_low",), "app_wide": ("app_low",)}


def run(*words: str) -> Tuple[int, str, str]:
    ran = subprocess.run([str(NOZHGIVA), "gate-cost", *words], capture_output=True, text=True, check=False)
    return ran.returncode, ran.stdout, ran.stderr


class Tasks(unittest.TestCase):
    def test_of_words_as_rt_gives_them(self) -> None:
        for words, folder, task in (
            (f"{CHECK} src/lib.rt", "/work/crates/app_low", ("app_low", "proof")),
            (f"{CHECK} --test src/lib.rt", "/work/crates/app_low", ("app_low", "tests")),
            (f"{CHECK} --incremental /tmp/kept/seed src/lib.rt", "/tmp/rt-edit-1", ("app_low", "seed")),
            (f"{CHECK} --incremental /tmp/kept/3 src/lib.rt", "/tmp/rt-edit-1", ("app_low", "edits")),
            ("/opt/kit/bin/rattle build --crate-name app_low --crate-checked out/checked", "/work/crates/app_low", ("app_low", "compile")),
            ("/opt/kit/bin/rattle-link /work/crates/app_low/out/app.o", "/work", ("app_low", "compile")),
            ("/tmp/rt-run-7/bin/app_low", "/tmp/rt-run-7", ("app_low", "run")),
            ("/usr/bin/python3 /opt/kit/bin/rt ci", "/work", None),
        ):
            self.assertEqual(gate_cost.task_of(words, folder), task, words)

    def test_seconds_of_one_kind_are_summed(self) -> None:
        seen = {(1, "a"): gate_cost.Seen(CHECK, "/", 2.5), (2, "b"): gate_cost.Seen(CHECK, "/", 1.0), (3, "c"): gate_cost.Seen("rt ci", "/", 9.0)}
        self.assertEqual(gate_cost.cost_of(seen), {"app_low": {"proof": 3.5}})


class Clocks(unittest.TestCase):
    """Three crates, of which two wait for the first; reckoned by hand."""

    def clock(self, lanes: int, **seconds: float) -> gate_cost.Clock:
        waits = gate_cost.waits_of(LIBRARIES)
        return gate_cost.clock(lanes, {one: seconds.get("_".join(one), 0.0) for one in waits}, waits)

    def test_one_processor_takes_the_sum(self) -> None:
        self.assertEqual(self.clock(1, app_low_proof=10, app_high_proof=5, app_wide_proof=7), (22, 17))

    def test_two_take_what_waits_side_by_side(self) -> None:
        self.assertEqual(self.clock(2, app_low_proof=10, app_high_proof=5, app_wide_proof=7), (17, 17))

    def test_edits_wait_for_both_checks_of_their_crate(self) -> None:
        self.assertEqual(self.clock(4, app_low_proof=10, app_low_seed=12, app_low_edits=3), (15, 15))

    def test_a_program_is_compiled_behind_its_proof_and_run_behind_that(self) -> None:
        self.assertEqual(self.clock(4, app_low_proof=10, app_low_compile=4, app_low_run=2), (16, 16))

    def test_a_circle_is_refused(self) -> None:
        waits = gate_cost.waits_of({"app_low": ("app_high",), "app_high": ("app_low",)})
        with self.assertRaises((ValueError, RecursionError)):
            gate_cost.clock(2, dict.fromkeys(waits, 1.0), waits)


class Script(unittest.TestCase):
    def test_a_process_is_seen_and_kept(self) -> None:
        with tempfile.TemporaryDirectory() as folder:
            saved = Path(folder) / "cost"
            busy = "import time; end = time.process_time() + 1.0\nwhile time.process_time() < end: pass"
            status, told, _ = run("--save", str(saved), "sh", "-c", 'python3 -c "$1" --crate-name vr_base; exit 3', "sh", busy)
            self.assertEqual(status, 3)
            self.assertRegex(told, r"(?m)^vr_base +[12] +[12] +0")
            cost, used = json.loads(saved.read_text())
            self.assertGreater(cost["vr_base"]["proof"], 0.4)
            self.assertLessEqual(cost["vr_base"]["proof"], used + 0.1)
            self.assertEqual(run("--from", str(saved)), (0, told, ""))

    def test_what_it_refuses(self) -> None:
        with tempfile.TemporaryDirectory() as folder:
            other = Path(folder) / "other"
            other.write_text("{}")
            for words, told in (
                ((), "give a command, or --from and a file"),
                (("--from", str(other), "rt"), "give a command, or --from and a file"),
                (("--from", str(other)), f"{other} is nothing that --save wrote"),
                (("--from", f"{folder}/none"), "can't be read"),
                (("--save", f"{folder}/none/cost", "true"), "can't be written"),
                (("/nonesuch/rt",), "doesn't start"),
            ):
                status, out, error = run(*words)
                self.assertEqual((status, out), (2, ""), words)
                self.assertIn(told, error)

    def test_what_was_kept_stays_where_the_command_does_not_start(self) -> None:
        with tempfile.TemporaryDirectory() as folder:
            saved = Path(folder) / "cost"
            saved.write_text("[{}, 1]")
            self.assertEqual(run("--save", str(saved), "/nonesuch/rt")[0], 2)
            self.assertEqual(saved.read_text(), "[{}, 1]")


if __name__ == "__main__":
    unittest.main()
