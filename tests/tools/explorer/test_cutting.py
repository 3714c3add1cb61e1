"""Runs whose steps are known, cut by member and put together again: each step that put anything out comes back, with its rule among those named."""

import os
import re
import tempfile
import unittest
from collections import Counter
from pathlib import Path
from typing import Counter as Counts, Dict, List, Optional, Set, Sequence, Tuple

from nozhgiva_tools.pages.explorer.members import merge_members
from nozhgiva_tools.pages.explorer.reading import ShownStep
from nozhgiva_tools.places import EXAMPLES
from nozhgiva_tools.run import built

from .schedules import Played, Schedule, Truth, write_members

PROGRAM = built.PATH
COUNT = int(os.environ.get("SCHEDULES", "40"))
LINES = 150

# The rules of the steps that put anything out, by RULES.md, in the order of the schedule; two where no member's line tells which.
README = "Made Next Counted Made".split()
WORKED = {
    "put-get.txt": "Made Next Counted Made Next Counted Made Next Counted Answered Answered Answered Answered",
    "repeats.txt": "Made Next Known Counted Answered",
    "redirect.txt": "Redirected",
    "three-replicas.txt": "Made Next Counted Made Next Counted",
    "quorum-of-six.txt": "Made Next Next Counted",
    "sessions.txt": "Made Next Counted Made Next Counted Answered Answered Answered Answered",
}


def read_readme() -> Optional[List[Played]]:
    """The steps of the example that README.md has, None where it has none."""
    text = (EXAMPLES.parent / "README.md").read_text()
    block = re.search(r"^    cluster 2\n(?:    [^\n]*\n)+", text, re.M)
    return steps_of([line[4:] for line in block[0].splitlines()]) if block else None


def steps_of(lines: Sequence[str]) -> List[Played]:
    """The steps of an example as it stands."""
    steps: List[Played] = []
    sent: List[List[str]] = []
    for line in lines:
        if line.startswith("  "):
            steps[-1].outputs.append(line.strip())
            if line.startswith("  send "):
                sent.append(line.split())
        elif line and not line.startswith(("#", "cluster")):
            words = line.split()
            message = sent[int(words[1]) % len(sent)] if words[0] == "deliver" and sent else None
            steps.append(Played(line, int(message[3]) if message else int(words[1]), message, []))
    return steps


def read_worked(name: str) -> Tuple[int, List[Played]]:
    lines = (EXAMPLES / name).read_text().splitlines()
    return int(next(line for line in lines if line.startswith("cluster")).split()[1]), steps_of(lines)


def put_together(size: int, steps: List[Played]) -> Dict[int, List[ShownStep]]:
    """The page's steps of each member, as their members would have written them."""
    with tempfile.TemporaryDirectory() as folder:
        run = merge_members(write_members(Path(folder), size, steps))
    members: Dict[int, List[ShownStep]] = {}
    sent: List[str] = []
    for step in run["steps"]:
        if any(number >= len(sent) for number in step["came"]):
            raise AssertionError("it came before it was sent")
        if any(int(sent[number].split()[3]) != int(step["line"].split()[1]) for number in step["came"]):
            raise AssertionError("it came to another member")
        if step["outputs"]:
            members.setdefault(int(step["line"].split()[1]), []).append(step)
        sent += [output for output in step["outputs"] if output.startswith("send ")]
    return members


class Cutting(unittest.TestCase):
    def compare(self, size: int, steps: List[Played]) -> Counts[str]:
        """Cuts that are told for sure are right, and no other was missed; the true rule is among those named. It gives what was counted."""
        count: Counts[str] = Counter()
        truth = Truth()
        true: Dict[int, List[Tuple[Played, Set[str]]]] = {}
        for step in steps:
            if step.outputs:
                true.setdefault(step.member, []).append((step, truth.of(step)))
            truth.hear(step)
        members = put_together(size, steps)
        for member, some in true.items():
            begins = places([step.outputs for step, _ in some])
            found = dict(zip(places([step["outputs"] for step in members[member]]), members[member]))
            sure = {place for place, step in found.items() if not step["unsure"]}
            self.assertEqual(sum(len(step.outputs) for step, _ in some), sum(len(step["outputs"]) for step in found.values()))
            self.assertLessEqual(sure, set(begins), f"member {member}: a cut where none is")
            self.assertLessEqual(set(begins), set(found), f"member {member}: a cut is missing")
            for place, (step, rules) in zip(begins, some):
                named = set(found[place]["rules"])
                if rules:
                    self.assertTrue(rules & named, f"{step}: {rules}, not {named}")
                    self.assertTrue(len(rules) > 1 or rules <= named)
                    count["alone"] += len(named) == 1
                    count["steps"] += 1
            count["cuts"] += len(found)
            count["unsure"] += len(found) - len(sure)
        return count

    @unittest.skipUnless(os.access(PROGRAM, os.X_OK), "no program: rt ci makes it, or NOZHGIVA_PROGRAM names one")
    def test_random_schedules(self) -> None:
        count: Counts[str] = Counter()
        for seed in range(COUNT):
            schedule = Schedule(PROGRAM, seed, faults=seed % 4 == 3)
            with self.subTest(seed=seed):
                count += self.compare(schedule.size, schedule.play(LINES))
        self.assertGreater(count["alone"], 0.75 * count["steps"])
        self.assertLess(count["unsure"], 0.1 * count["cuts"])

    def test_the_example_of_the_first_page(self) -> None:
        steps = read_readme()
        if steps is None:
            self.skipTest("README.md has no example")
        self.check_whole(2, steps, README)

    def test_worked_examples(self) -> None:
        for name, rules in WORKED.items():
            with self.subTest(name):
                self.check_whole(*read_worked(name), rules.split())

    def check_whole(self, size: int, steps: List[Played], rules: List[str]) -> None:
        """Each step comes back as it was, with its rule alone."""
        members = put_together(size, steps)
        places_of = dict.fromkeys(members, 0)
        said = [step for step in steps if step.outputs]
        self.assertEqual(len(said), len(rules))
        for step, rule in zip(said, rules):
            found = members[step.member][places_of[step.member]]
            places_of[step.member] += 1
            self.assertEqual([without_number(line) for line in found["outputs"]], [without_number(line) for line in step.outputs])
            self.assertEqual((found["rules"], found["unsure"]), ([rule], False), step)


def without_number(line: str) -> str:
    """A line without the number of its message."""
    return re.sub(r"^send \d+", "send", line)


def places(groups: Sequence[Sequence[str]]) -> List[int]:
    """Where each of some groups of lines begins, among all of them."""
    begins, at = [], 0
    for group in groups:
        begins.append(at)
        at += len(group)
    return begins


if __name__ == "__main__":
    unittest.main()
