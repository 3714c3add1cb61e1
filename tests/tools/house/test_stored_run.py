"""The run that `rt ci` makes of the built program: the schedule of an example with its outputs, and a line that is refused after it."""

import unittest

from nozhgiva_tools.places import EXAMPLES, TOP

PROGRAM = TOP / "crates" / "vr_app"
REFUSED = "delivr 0"


class StoredRun(unittest.TestCase):
    def test_it_is_an_example_and_a_line_that_is_refused(self) -> None:
        told = [line for line in (EXAMPLES / "put-get.txt").read_text(encoding="ascii").splitlines() if line and not line.startswith("#")]
        outputs = [line[2:] for line in told if line.startswith("  ")]
        stored = {name: (PROGRAM / name).read_text(encoding="ascii").splitlines() for name in ("args", "stdin", "stdout", "status")}
        self.assertEqual(stored["stdin"], [line for line in told if not line.startswith("  ")] + [REFUSED])
        self.assertEqual(stored["stdout"], outputs)
        self.assertEqual((stored["args"], stored["status"]), (["replay"], ["3"]))
        self.assertLessEqual({"commit", "reply"}, {line.split()[0] for line in outputs})
