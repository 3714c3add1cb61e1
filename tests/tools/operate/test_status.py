"""What is said of a whole group: by what was told, and of real members. Without the built program the real ones are left out."""

import json
import os
import signal
import socket
import subprocess
import time
import unittest
from typing import Callable, Dict, Optional, Tuple
from unittest import mock

from nozhgiva_tools.operate import asking
from nozhgiva_tools.operate.judging import AILS, as_json, CORRUPT, GroupTold, judge, Known, SILENT, UNKNOWN, WELL
from nozhgiva_tools.operate.probing import Reply
from nozhgiva_tools.operate.surveying import Survey
from nozhgiva_tools.operate.telling import stop_lines, table
from nozhgiva_tools.places import OPERATE
from nozhgiva_tools.run import built as program
from nozhgiva_tools.run.ports import free_addresses
from nozhgiva_tools.run.group import NUMBER
from nozhgiva_tools.run.keepers import Kept
from nozhgiva_tools.run.nets import Net

HERE = str(OPERATE)


def line(member: int, state: str, view: int = 3, **more: str) -> Dict[str, str]:
    told = {"member": str(member), "well": "yes", "state": state, "view": str(view), "applied": "40", "commit": "40", "stands": "0.0", "up": "9.0", "unsure": "0", "damaged": "0",
            "version": "1", "mode": "strict", "keys": "7", "sessions": "2", "restarts": "0", "ends": "0", "asks": "-", "mends": "-"}
    return dict(told, **more)


def known(member: int, state: str, reply: Optional[str] = "same", view: int = 3, **more: str) -> Known:
    """A member in a state, which answers the probe as one in that state does, unless another reply is given."""
    answer = {"leads": "evicted", "follows": "redirect"}.get(state) if reply == "same" else reply
    return Known(line(member, state, view, **more), "", Reply(answer, view, 1) if answer else None)


def silent(member: int, fault: str = "no keeper answers", refused: bool = False) -> Known:
    return Known(None, fault, None, refused)


def probed(kind: str, view: int = 3) -> Known:
    return Known(None, "", Reply(kind, view, 1))


LEADS, FOLLOWS, THIRD = known(0, "leads"), known(1, "follows"), known(2, "follows")
HANGS = known(2, "follows", None, well="hangs")
ROWS = [
    ("all is well", [LEADS, FOLLOWS, THIRD], WELL, 0),
    ("a group of one", [known(0, "leads")], WELL, 0),
    ("a group of one that waits", [known(0, "changes", "redirect", well="changes")], SILENT, None),
    ("one is down", [LEADS, FOLLOWS, known(2, "down", None, well="down")], AILS, 0),
    ("one hangs", [LEADS, FOLLOWS, HANGS], AILS, 0),
    ("two hang", [LEADS, known(1, "follows", None, well="hangs"), HANGS], SILENT, 0),
    ("the one that leads hangs, and says so late", [known(0, "leads", None, well="hangs"), FOLLOWS, THIRD], SILENT, None),
    ("one keeper is silent, its member isn't", [LEADS, FOLLOWS, Known(None, "no keeper answers", Reply("redirect", 3, 1))], AILS, 0),
    ("one machine is silent", [LEADS, FOLLOWS, silent(2)], AILS, 0),
    ("two machines are silent", [LEADS, silent(1), silent(2)], UNKNOWN, 0),
    ("all machines are silent", [silent(0), silent(1), silent(2)], UNKNOWN, None),
    ("nobody listens anywhere", [silent(0, refused=True), silent(1, refused=True), silent(2, refused=True)], SILENT, None),
    ("no member leads", [known(0, "changes", "redirect", 4), known(1, "changes", "redirect", 4), known(2, "changes", "redirect", 4)], SILENT, None),
    ("an old one still leads", [known(0, "leads", view=3), known(1, "leads", view=4), known(2, "follows", view=4)], AILS, 1),
    ("one that leads alone", [known(0, "leads", view=3), known(1, "changes", "redirect", 9), known(2, "changes", "redirect", 9)], SILENT, 0),
    ("something is open, and nothing is committed", [known(0, "leads", stands="1.6"), FOLLOWS, THIRD], SILENT, 0),
    ("a slow moment", [known(0, "leads", stands="0.9"), FOLLOWS, THIRD], WELL, 0),
    ("damage", [LEADS, FOLLOWS, known(2, "follows", damaged="2")], AILS, 0),
    ("a file that can't tell of a slot", [LEADS, FOLLOWS, known(2, "follows", well="unsure", damaged="1", unsure="1")], AILS, 0),
    ("a file that can't be read", [LEADS, FOLLOWS, known(2, "follows", well="no_file", has_state="no")], AILS, 0),
    ("a file of another version", [LEADS, FOLLOWS, known(2, "changes", None, well="changes")], AILS, 0),
    ("one state", [known(0, "leads", checkpoint="64", root="aa"), known(1, "follows", checkpoint="32", root="bb"), known(2, "follows", checkpoint="64", root="aa")], WELL, 0),
    ("two states of one checkpoint", [known(0, "leads", checkpoint="64", root="aa"), FOLLOWS, known(2, "follows", checkpoint="64", root="bb")], CORRUPT, 0),
    ("two states, and no answer", [known(0, "changes", "redirect", checkpoint="64", root="aa"), known(1, "changes", "redirect", checkpoint="64", root="b")], CORRUPT, None),
    ("one applied something else than before", [LEADS, FOLLOWS, known(2, "follows", well="corrupt")], CORRUPT, 0),
    ("and is down", [LEADS, FOLLOWS, known(2, "down", None, well="corrupt,down")], CORRUPT, 0),
    ("three of six are silent", [LEADS, FOLLOWS, THIRD, silent(3), silent(4), silent(5)], AILS, 0),
    ("four of six are silent", [LEADS, FOLLOWS, silent(2), silent(3), silent(4), silent(5)], UNKNOWN, 0),
]
PROBED = [
    ("all answer", [probed("evicted"), probed("redirect"), probed("redirect")], WELL, 0),
    ("one doesn't", [probed("evicted"), probed("redirect"), silent(2, "")], AILS, 0),
    ("one is in another view", [probed("evicted"), probed("redirect"), probed("redirect", 4)], AILS, 0),
    ("two are in another view", [probed("evicted"), probed("redirect", 4), probed("redirect", 4)], SILENT, 0),
    ("nobody leads", [probed("redirect"), probed("redirect"), silent(2, "")], SILENT, None),
    ("one follows, and the others are silent", [silent(0, ""), probed("redirect"), silent(2, "")], UNKNOWN, None),
]


class Judging(unittest.TestCase):
    def test_rows(self) -> None:
        for has_keepers, rows in ((True, ROWS), (False, PROBED)):
            for name, members, code, leader in rows:
                with self.subTest(name):
                    verdict = judge(members, has_keepers)
                    self.assertEqual((verdict.code, verdict.leader), (code, leader), verdict.why)
                    self.assertEqual(verdict.why == [], code == WELL)
                    told = as_json(5, members, verdict, has_keepers)
                    self.assertEqual(len(table(told).splitlines()), 2 + len(verdict.why) + len(members) + len(stop_lines(told)))
                    json.dumps(told)

    def test_without_keepers_nothing_is_said_of_the_commit_number(self) -> None:
        for has_keepers, rows in ((True, ROWS[:1]), (False, PROBED[:1])):
            for _, members, _, _ in rows:
                told = as_json(5, members, judge(members, has_keepers), has_keepers)
                self.assertEqual((told["commit"], "; commit" in table(told).splitlines()[0]), (40 if has_keepers else None, has_keepers))

    def test_no_member_of_a_corrupt_group_may_be_stopped(self) -> None:
        members = [known(0, "leads", checkpoint="64", root="aa"), known(1, "follows", checkpoint="64", root="bb"), known(2, "follows", checkpoint="64", root="bb")]
        told = as_json(5, members, judge(members, True))
        self.assertEqual((told["code"], told["verdict"], told["why"][0]), (5, "corrupt", "member 0 and members 1, 2 hold different states of checkpoint 64"))
        self.assertEqual([(member["may_be_stopped"], member["why_not"][0]["name"]) for member in told["members"]], [(False, "corrupt")] * 3)
        self.assertTrue(table(told).startswith("group 5 IS CORRUPT"))

    def test_why_no_keeper_answers(self) -> None:
        """By the system's words, else by those of what went wrong; an answer of none is told too."""
        for why, told in [(ConnectionRefusedError(111, "Connection refused"), "Connection refused"), (socket.timeout("timed out"), "timed out"), (OSError(), "nothing came")]:
            lines: Dict[int, Tuple[Optional[Dict[str, str]], str]] = {}
            Survey(5, [], None, 1.0).hear(0, mock.Mock(side_effect=why), lines)
            self.assertEqual(lines, {0: (None, f"no keeper answers ({told})")})

    def test_how_far_one_is_behind(self) -> None:
        members = [LEADS, known(1, "follows", applied="12"), known(2, "follows", applied="0")]
        self.assertEqual([member["behind"] for member in as_json(5, members, judge(members, True))["members"]], [0, 28, None])


@unittest.skipUnless(program.is_there(), program.MISSING)
class Real(unittest.TestCase):
    def status(self, group: Kept, *more: str, cluster: int = NUMBER) -> Tuple[int, GroupTold]:
        made = subprocess.run([os.path.join(HERE, "status"), str(cluster)] + group.addresses + ["--json", *more], capture_output=True, text=True)
        return made.returncode, json.loads(made.stdout)

    def until(self, code: int, group: Kept, *more: str, what: Callable[[GroupTold], bool] = lambda told: True) -> GroupTold:
        """Looks until it ends with a code, and tells this."""
        end = time.monotonic() + 60
        while True:
            found, told = self.status(group, *more)
            if found == code and what(told):
                return told
            self.assertLess(time.monotonic(), end, told)

    def test_three_members_by_their_keepers_ports(self) -> None:
        ports, group = free_addresses(3), Kept(Net(3), options=("--patience", "60"))
        self.addCleanup(group.close)
        for member in range(3):
            group.options = ["--patience", "60", "--health", ports[member]]
            group.start(member)
        group.await_leader(120)
        keepers = ("--keepers", ",".join(ports))
        told = self.until(WELL, group, *keepers)
        assert told["leader"] is not None
        leader, follower = told["leader"], (told["leader"] + 1) % 3
        self.assertEqual([member["state"] for member in told["members"]].count("follows"), 2)
        told = self.until(WELL, group, *keepers, what=lambda told: all(member["may_be_stopped"] for member in told["members"]))
        self.assertEqual((told["whole_quorums"], told["with_state"]), ([[0, 1], [0, 2], [1, 2]], [0, 1, 2]))
        puts = "".join(f"put k{number} v\n" for number in range(40))
        subprocess.run([group.program, "client", str(NUMBER), "7", "100000"] + group.addresses, input=puts, text=True, stdout=subprocess.DEVNULL, check=True)
        told = self.until(WELL, group, *keepers, what=lambda told: all(member["root"] for member in told["members"]))
        self.assertEqual(len({member["root"] for member in told["members"]}), 1)
        self.until(0, group, *keepers, "--may-stop", str(leader))
        self.assertEqual(self.until(WELL, group)["leader"], leader)
        self.assertEqual(self.status(group, "--wait", "0.5", cluster=NUMBER + 1)[0], UNKNOWN)
        group.signal(follower, signal.SIGSTOP)
        self.until(AILS, group, *keepers, what=lambda told: (told["members"][follower]["state"], told["members"][follower]["well"]) == ("hangs", "hangs"))
        self.until(1, group, *keepers, "--may-stop", str(leader), what=lambda told: [reason["name"] for reason in told["members"][leader]["why_not"]] == ["few"])
        for member in (follower, (follower + 1) % 3):
            group.signal(member, signal.SIGCONT)
            group.stop(member)
        told = self.until(SILENT, group, *keepers)
        self.assertIn("no process listens at its address", " ".join(told["why"]))

    def test_strangers_at_the_port(self) -> None:
        """Who connects and is silent, reads slowly or sends garbage keeps nobody from an answer, and the answer is the same."""
        port, group = free_addresses(1)[0], Kept(Net(2), "tcp:", ("--patience", "60"))
        self.addCleanup(group.close)
        group.options += ["--health", port]
        group.start(0)
        end, place = time.monotonic() + 60, ("127.0.0.1", int(port.split(":")[1]))
        while not group.health(0) and time.monotonic() < end:
            time.sleep(0.05)
        for number in range(200):
            one = socket.create_connection(place)
            self.addCleanup(one.close)
            if number % 2:
                one.sendall(b"restart\n" * 100)
        self.assertTrue(asking.ask_port(port).startswith("member=0 "))
        self.assertEqual(asking.ask(group.file(0) + ".socket", "health").split(" restarts=")[1].split()[0], "0")
        self.assertFalse(any("stopped and started" in text for text in group.said(0)))
        self.assertEqual(self.until(SILENT, group)["members"][1]["state"], "down")
        group.start(1)
        self.assertEqual(self.until(WELL, group)["members"][0]["fault"], None)
