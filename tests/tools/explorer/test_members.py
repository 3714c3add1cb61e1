"""What running members wrote, put together: the files in `members` are of a run in which member 0 was stopped and started again."""

import os
import random
import tempfile
import unittest
from pathlib import Path
from typing import Dict, List, Mapping, Sequence, Set, Tuple

from nozhgiva_tools.operate import log
from nozhgiva_tools.pages.explorer.members import is_outputs, merge_members, read_outputs
from nozhgiva_tools.pages.explorer.reading import ShownRun
from nozhgiva_tools.places import EXAMPLES
from nozhgiva_tools.run import built, playing
from nozhgiva_tools.told import lines
from nozhgiva_tools.told.memberlines import BadRun, seconds_of

PROGRAM = built.PATH
FILES = [Path(__file__).with_name("members") / f"out.{member}" for member in range(3)]


def paths(folder: str) -> List[str]:
    """Files of these names in a folder."""
    return [os.path.join(folder, path.name) for path in FILES]


def without_numbers(line: str) -> Tuple[str, ...]:
    """A line without the number of its message."""
    words = line.split()
    return tuple(words[:1] + words[2:] if words[0] == "send" else words)


class Members(unittest.TestCase):
    def check(self, texts: Sequence[Sequence[str]], run: ShownRun) -> None:
        """Each member's lines in their order, none missing but those that say again what was said, and nothing received before it was sent."""
        places = [0] * len(texts)
        said: List[Set[Tuple[str, ...]]] = [set() for _ in texts]
        sent: List[int] = []
        for step in run["steps"]:
            kind, member = step["line"].split()[0], int(step["line"].split()[1])
            for number in step["came"]:
                self.assertLess(number, len(sent))
                self.assertEqual(sent[number], member)
            for line in step["outputs"]:
                while texts[member][places[member]] != line:
                    self.assertIn(without_numbers(texts[member][places[member]]), said[member])
                    places[member] += 1
                places[member] += 1
                said[member].add(without_numbers(line))
                sent += [int(line.split()[3])] if line.startswith("send ") else []
            self.assertIn(kind, ("member", "stop"))
        for member, text in enumerate(texts):
            for line in text[places[member]:]:
                self.assertIn(without_numbers(line), said[member])

    def test_a_run(self) -> None:
        run = merge_members(list(map(str, FILES)))
        self.check([path.read_text().splitlines() for path in FILES], run)
        self.assertEqual(run["size"], 3)

    def test_what_answers_what(self) -> None:
        steps = merge_members(list(map(str, FILES)))["steps"]
        sent = [output.split() for step in steps for output in step["outputs"] if output.startswith("send ")]
        answers = {"prepare_ok": {"prepare", "start_view"}, "do_view_change": {"start_view_change"}, "give_prepare": {"get_prepare"}}
        for step in steps:
            words = step["outputs"][0].split() if step["outputs"] else ["none"]
            kind = words[4] if words[0] == "send" else words[0]
            came = {sent[number][4] for number in step["came"]}
            if kind in answers:
                self.assertTrue(came and came <= answers[kind], step)
            elif kind == "choose":
                self.assertEqual(came, {"do_view_change"})

    def test_a_member_that_was_started_again_had_ended(self) -> None:
        steps = merge_members(list(map(str, FILES)))["steps"]
        at = next(at for at, step in enumerate(steps) if step["outputs"] and step["outputs"][0].startswith("start 0"))
        self.assertIn("stop 0", [step["line"] for step in steps[:at]])
        self.assertFalse(any(step["line"] == "member 0" for step in steps[[step["line"] for step in steps].index("stop 0"):at]))

    def test_files_that_are_cut(self) -> None:
        draw = random.Random(1)
        with tempfile.TemporaryDirectory() as folder:
            for _ in range(30):
                texts = []
                for path in FILES:
                    lines = path.read_text().splitlines()
                    texts.append(lines[:draw.randrange(1, len(lines))])
                    (Path(folder) / path.name).write_text("\n".join(texts[-1]) + "\n")
                self.check(texts, merge_members(paths(folder)))

    def test_a_line_without_its_time(self) -> None:
        """Of a log in which a plain line stands in the midst, of an event whose first line has a time, all is shown."""
        texts = [path.read_text().splitlines() for path in FILES]
        self.assertEqual(texts[0][7:9], ["send 5 0 2 commit view 0 op 2 commit 1", "send 6 0 1 prepare view 0 op 2 made 0 commit 1"])
        with tempfile.TemporaryDirectory() as folder:
            for path, text in zip(FILES, texts):
                logged = [f"{log.stamp(Kept.EPOCH + 0.3 * at)} {line}" for at, line in enumerate(text)]
                logged[8] = text[8] if path == FILES[0] else logged[8]
                (Path(folder) / path.name).write_text("\n".join(logged) + "\n")
            self.check(texts, merge_members(paths(folder)))

    def test_outputs_of_replay_without_their_schedule(self) -> None:
        lines = [line.strip() for line in (EXAMPLES / "view-change.txt").read_text().splitlines() if line.startswith("  ")]
        with tempfile.TemporaryDirectory() as folder:
            path = Path(folder) / "outputs"
            path.write_text("\n".join(lines) + "\n")
            self.assertTrue(is_outputs(str(path)))
            self.assertFalse(is_outputs(str(EXAMPLES / "view-change.txt")))
            run = read_outputs(str(path))
        self.assertEqual([output for step in run["steps"] for output in step["outputs"]], lines)
        came = [(step["outputs"][0], step["came"]) for step in run["steps"] if step["outputs"]]
        # Message 2 commits operation 1 at replica 0; message 10 is the statement on which replica 1 chooses; 21 is the log that brings replica 0 back.
        commit = "commit 0 op 1 view 0 client 7 request 0 register"
        self.assertEqual([numbers for output, numbers in came if output == commit], [[2], [21]])
        self.assertIn(("choose 1 view 1 log 0 commit 0 head 1 own h", [10]), came)

    def test_what_no_member_writes(self) -> None:
        with tempfile.TemporaryDirectory() as folder:
            for text in ("", "hello\n", "send\n", "send a b c\n"):
                path = Path(folder) / "out"
                path.write_text(text)
                with self.subTest(text), self.assertRaises(BadRun):
                    merge_members([str(path)])
        with self.assertRaises(BadRun):
            merge_members([str(FILES[0]), str(FILES[0])])


class Kept:
    """What the keepers of a group of three write, in counted time: the group is asked, and its first member stopped and started again."""

    EPOCH = 1_800_000_000

    def __init__(self) -> None:
        self.texts = [[f"{log.stamp(self.EPOCH)} keep: member {member} started, process 1"] for member in range(3)]
        self.thinners = [log.Thinner(100) for _ in range(3)]
        self.numbers = [0] * 3
        replay = playing.Replay(PROGRAM)
        group = playing.Group(replay, self.hear)
        group.begin(3)
        group.start_all()
        group.add(playing.Client(7, 3, 0.3))
        group.go_on(2)
        group.stop(0)
        group.go_on(2)
        self.texts[0].append(f"{log.stamp(self.EPOCH + group.now)} keep: member 0 ended by signal 9, and is started again")
        group.start(0)
        group.go_on(2)
        replay.end()

    def hear(self, now: float, member: int, output: str) -> None:
        words = output.split(" ")
        if words[0] == "start":
            self.numbers[member] = 0
        if words[0] == "send":
            words[1] = str(self.numbers[member])
            self.numbers[member] += 1
        text = " ".join(words)
        if self.thinners[member].keeps(now, text.encode(), lines.parse(text.encode())):
            self.texts[member].append(f"{log.stamp(self.EPOCH + now)} {text}")


@unittest.skipUnless(os.access(PROGRAM, os.X_OK), "no program: rt ci makes it, or NOZHGIVA_PROGRAM names one")
class WhatKeepersWrite(unittest.TestCase):
    kept: Kept

    @classmethod
    def setUpClass(cls) -> None:
        cls.kept = Kept()

    def merged(self, texts: Mapping[str, Sequence[str]]) -> ShownRun:
        """The run of such files, by their names."""
        with tempfile.TemporaryDirectory() as folder:
            for name, text in texts.items():
                (Path(folder) / name).write_text("".join(line + "\n" for line in text))
            return merge_members([os.path.join(folder, name) for name in texts])

    def said(self, text: Sequence[str]) -> List[str]:
        """The lines of a log that a member put out."""
        return [line.split(" ", 1)[1] for line in text if " keep: " not in line]

    def check(self, texts: Mapping[int, Sequence[str]], run: ShownRun) -> None:
        """Each line once, in its member's order, and nothing received before it was sent."""
        found: Dict[int, List[str]] = {member: [] for member in texts}
        sent = 0
        for step in run["steps"]:
            self.assertTrue(all(number < sent for number in step["came"]))
            found[int(step["line"].split()[1])] += step["outputs"]
            sent += sum(output.startswith("send ") for output in step["outputs"])
        self.assertEqual(found, {member: self.said(text) for member, text in texts.items()})

    def test_times(self) -> None:
        run = self.merged({f"log.{member}": text for member, text in enumerate(self.kept.texts)})
        self.check(dict(enumerate(self.kept.texts)), run)
        times = [seconds_of(step["time"]) for step in run["steps"]]
        self.assertEqual(len(times), len(run["steps"]))
        self.assertTrue(all(after >= before for before, after in zip(times, times[1:])), "the clock goes back")
        stop = next(step for step in run["steps"] if step["line"] == "stop 0")
        self.assertEqual(stop["note"], "member 0 ended by signal 9, and is started again")
        ticked = [step for step in run["steps"] if step["outputs"] and " commit view " in step["outputs"][0]]
        self.assertTrue(ticked and all(step["rules"] == ["TickedPrimary"] for step in ticked))

    def test_parts_of_a_log(self) -> None:
        """A log that was put aside is put before the one that goes on."""
        whole = self.merged({f"log.{member}": text for member, text in enumerate(self.kept.texts)})
        zero, one, two = self.kept.texts
        parts = self.merged({"zero": zero, "one": one[60:], "one.1": one[30:60], "one.2": one[:30], "two": two})
        self.assertEqual(parts["steps"], whole["steps"])
        plain = {"zero": self.said(zero), "one": self.said(one)[50:], "one.1": self.said(one)[:50], "two": self.said(two)}
        self.check(dict(enumerate(self.kept.texts)), self.merged(plain))
        with self.assertRaisesRegex(BadRun, "same member"):
            self.merged({"a": self.said(one), "b": self.said(one)})

    def test_logs_that_begin_in_the_midst(self) -> None:
        cut = {member: text[len(text) // 3:] for member, text in enumerate(self.kept.texts)}
        self.check(cut, self.merged({f"log.{member}": text for member, text in cut.items()}))
        self.check(cut, self.merged({f"out.{member}": self.said(text) for member, text in cut.items()}))

    def test_a_member_of_which_there_is_no_log(self) -> None:
        some = {member: self.kept.texts[member] for member in (0, 2)}
        run = self.merged({f"log.{member}": text for member, text in some.items()})
        self.check(some, run)
        self.assertEqual((run["size"], run["absent"]), (3, [1]))


if __name__ == "__main__":
    unittest.main()
