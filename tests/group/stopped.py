"""Real members under keepers: is `status` right about who may be stopped? Each try brings a group into some state, asks `status`, stops one member with its
keeper, and sees whether clients are answered without it.

The states are drawn from a number: all are well; a member is down; a member was away while a hundred operations were done, and is just back; the files of
one or two members can't tell of a slot (damage while they were down; the keepers write nothing anew here); entries or a block of a checkpoint are
damaged; a member's process is stopped (SIGSTOP). Clients put all the while. Told wrong is: a member may be stopped, and its group gives no answer to a new
put within --bound seconds; or it may not, because too few would be left for any view, and the group goes on. Other members that may not be stopped, and without which the
group went on, are counted: what status asks for is enough, and not always needed. A try in which this script itself had to wait for a processor for more than
--late seconds shows nothing, since the members did too: it is told, and not counted. Ends with 0, with 1 where something was told wrong."""

import argparse
import collections
import json
import random
import signal
import subprocess
import sys
import threading
import time
from typing import Any, Callable, Counter, Dict, List, Optional, Tuple

import nozhgiva
from nozhgiva_tools.operate import judging, standard, surveying
from nozhgiva_tools.places import OPERATE
from nozhgiva_tools.run.group import NUMBER
from nozhgiva_tools.run.keepers import Kept
from nozhgiva_tools.run.nets import Net
from nozhgiva_tools.told import datafile, whole

GONE_ON = 2  # answers to puts that were asked after the stop, of which the first may have been under way
SILENCE = 6.0  # seconds without an answer after which a group that was told to stand still is left: beyond a change of views, and a keeper's patience
FEW = "no: few"


def parse_words() -> argparse.Namespace:
    parser = argparse.ArgumentParser(prog="stopped", description=__doc__, formatter_class=argparse.RawDescriptionHelpFormatter)
    parser.add_argument("--tries", type=standard.counted, default=100, help="(default: %(default)s)")
    parser.add_argument("--size", type=int, default=3, choices=[2, 3, 4, 5, 6], help="members of the group (default: %(default)s)")
    parser.add_argument("--seed", type=int, default=1, help="of the states (default: %(default)s)")
    parser.add_argument("--bound", type=float, default=30.0, metavar="SECONDS", help="in which a group has to go on (default: %(default)s)")
    parser.add_argument("--settle", type=float, default=60.0, metavar="SECONDS", help="in which a group has to be well again after a try (default: %(default)s)")
    parser.add_argument("--late", type=float, default=0.1, metavar="SECONDS", help="(default: %(default)s)")
    parser.add_argument("--port", type=int, metavar="P", help="the members' first port (default: by the number of the process)")
    return parser.parse_args()


class Asker:
    """A client that puts again and again. `answers` has when each put that was answered was asked first, and when it was answered."""

    def __init__(self, group: Kept) -> None:
        self.group, self.stopping, self.pause = group, False, 0.05
        self.answers: List[Tuple[float, float]] = []
        threading.Thread(target=self.work, daemon=True).start()

    def work(self) -> None:
        asked = nozhgiva.Group(NUMBER, self.group.addresses, timeout=0.4, retry=nozhgiva.Retry(first=0.1, factor=1.0, most=0.1, jitter=0.1))
        session, number = None, 0
        while not self.stopping:
            began = time.monotonic()
            try:
                session = session or asked.register()
                session.put(f"k{number % 40}", f"v{number}")
                self.answers.append((began, time.monotonic()))
                number += 1
            except nozhgiva.SessionLost:
                session = None
            except nozhgiva.Unknown:
                continue
            time.sleep(self.pause)

    def answered_since(self, moment: float) -> int:
        """How many puts that were asked after a moment were answered."""
        return sum(began > moment for began, _ in self.answers)

    def done(self) -> int:
        return len(self.answers)


class Lateness:
    """How much longer than it wanted this process has slept: the members wait for a processor as it does."""

    def __init__(self) -> None:
        self.most = 0.0
        threading.Thread(target=self.work, daemon=True).start()

    def work(self) -> None:
        while True:
            began = time.monotonic()
            time.sleep(0.01)
            self.most = max(self.most, time.monotonic() - began - 0.01)

    def begin(self) -> None:
        self.most = 0.0


class Tries:
    """Tries with one group."""

    def __init__(self, words: argparse.Namespace, group: Kept) -> None:
        self.words, self.group, self.draw = words, group, random.Random(words.seed)
        self.asker, self.lateness = Asker(group), Lateness()
        sockets = group.file(0)[:-1] + "{}.socket"
        self.survey = surveying.Survey(NUMBER, group.addresses, [surveying.at_socket(member, sockets, 0.6) for member in range(words.size)], 0.6)
        self.late: List[str] = []
        self.paused: List[int] = []
        self.counts: Counter[Tuple[str, str]] = collections.Counter()
        self.wrong: List[str] = []
        self.longest = 0.0

    # States.

    def some(self, count: int) -> List[int]:
        return self.draw.sample(range(self.words.size), count)

    def away(self, members: List[int], change: Optional[Callable[[int], None]] = None, wait: int = 0) -> None:
        """Members are stopped, their files changed, and they are started again after so many puts of the others."""
        for member in members:
            self.group.stop(member)
            if change is not None:
                change(member)
        goal, end = self.asker.done() + wait, time.monotonic() + 10
        while self.asker.done() < goal and time.monotonic() < end:
            time.sleep(0.02)
        for member in members:
            self.group.start(member)

    def flip(self, member: int, at: int) -> None:
        with open(self.group.file(member), "r+b") as file:
            file.seek(at)
            byte = file.read(1)
            file.seek(at)
            file.write(bytes([byte[0] ^ 255]))

    def spoil_slot(self, member: int) -> None:
        """The header sector of a slot above the head, of which nothing is named."""
        report = datafile.Report(self.group.file(member))
        assert report.value is not None, f"member {member} has no superblock that can be read"
        op = min(report.slots.head() + 20, report.value.checkpoint + datafile.SLOTS)
        self.flip(member, (datafile.HEADERS + op % datafile.SLOTS) * datafile.SECTOR)

    def spoil_entry(self, member: int) -> None:
        found = datafile.Report(self.group.file(member)).slots.found["here"]
        if found:
            op = self.draw.choice(found)
            self.flip(member, (datafile.PREPARES[1] + datafile.PREPARE_SECTORS[1] * (op % datafile.SLOTS)) * datafile.SECTOR + 130)

    def spoil_block(self, member: int) -> None:
        used = datafile.Report(self.group.file(member)).checkpoint.used
        if used:
            self.flip(member, datafile.GRID * datafile.SECTOR + datafile.BLOCK * self.draw.choice(used) + 140)

    def pause(self, member: int) -> None:
        if self.group.signal(member, signal.SIGSTOP):
            self.paused.append(member)

    def state(self) -> str:
        """Brings the group into a state, and says which."""
        kind = self.draw.choice(["well", "well", "down", "back", "unsure", "two unsure", "entry", "block", "hangs", "down, unsure", "all started", "back twice"])
        some = self.some(2)
        if kind in ("down", "down, unsure"):
            self.group.stop(some[0])
        if kind == "back":
            self.away(some[:1], wait=100)
        elif kind == "back twice":
            self.away(some[:1], wait=70)
            self.away(some[1:], wait=70)
        elif kind in ("unsure", "down, unsure"):
            self.away(some[1:], self.spoil_slot)
        elif kind == "two unsure" and self.words.size > 2:
            self.away(some[:1], self.spoil_slot)
            self.settle(5.0)
            self.away(some[1:], self.spoil_slot)
        elif kind in ("entry", "block"):
            self.away(some[:1], self.spoil_entry if kind == "entry" else self.spoil_block)
        elif kind == "hangs":
            self.pause(some[0])
        elif kind == "all started":
            self.away(list(range(self.words.size)))
        time.sleep(self.draw.choice([0.2, 1.5, 3.0]))
        return kind

    # One try.

    def status(self) -> Dict[str, Any]:
        words = [str(OPERATE / "status"), str(NUMBER), *self.group.addresses, "--sockets", self.group.file(0)[:-1] + "{}.socket", "--json", "--wait", "0.6"]
        told: Dict[str, Any] = json.loads(subprocess.run(words, stdout=subprocess.PIPE, text=True, check=False).stdout)
        return told

    def choose(self, told: Dict[str, Any]) -> Optional[Dict[str, Any]]:
        """A member that runs; where some may be stopped and others not, either with like chance."""
        def runs(told_of: Dict[str, Any]) -> bool:
            return told_of["may_be_stopped"] is not None and told_of["member"] in self.group.members and told_of["member"] not in self.paused

        running: List[Dict[str, Any]] = [member for member in told["members"] if runs(member)]
        wanted = self.draw.random() < 0.7
        some = [member for member in running if member["may_be_stopped"] == wanted] or running
        return self.draw.choice(some) if some else None

    def one(self) -> None:
        kind = self.state()
        told = self.status()
        chosen = self.choose(told)
        if chosen is not None:
            said = "yes" if chosen["may_be_stopped"] else "no: " + ",".join(sorted({reason["name"] for reason in chosen["why_not"]}))
            self.group.stop(chosen["member"])
            left = len(self.group.members) - len(self.paused)
            if said == FEW and left >= whole.VIEW_CHANGE[self.words.size]:
                said += ", and others are being started"
            elif said == FEW and left >= judging.REPLICATION[self.words.size]:
                said += " for another view"
            moment = time.monotonic()
            self.lateness.begin()
            went_on = self.goes_on(moment, self.words.bound if said == "yes" else SILENCE)
            self.count(kind, said, went_on, chosen["member"], told, time.monotonic() - moment)
        self.bring_back()

    def goes_on(self, moment: float, seconds: float) -> bool:
        while time.monotonic() < moment + seconds:
            if self.asker.answered_since(moment) >= GONE_ON:
                return True
            time.sleep(0.05)
        return False

    def count(self, kind: str, said: str, went_on: bool, member: int, told: Dict[str, Any], seconds: float) -> None:
        is_wrong = (said == "yes") != went_on and said in ("yes", FEW)
        if is_wrong and self.lateness.most > self.words.late:
            self.late.append(f"{kind}: `{said}`, and it {'went on' if went_on else 'stood still'}; this waited for a processor for {self.lateness.most:.2f} s")
            return
        self.counts[said, "went on" if went_on else "stood still"] += 1
        if said == "yes":
            self.longest = max(self.longest, seconds)
        if is_wrong:
            self.wrong.append(f"{kind}: member {member} was told `{said}`, and the group {'went on' if went_on else 'stood still'}; {json.dumps(told)}")
            print(self.wrong[-1], flush=True)

    def bring_back(self) -> None:
        """All run, and all slots are written anew."""
        for member in self.paused:
            self.group.signal(member, signal.SIGCONT)
        self.paused = []
        for member in range(self.words.size):
            if member not in self.group.members:
                self.group.start(member)
        self.asker.pause = 0.0
        goal, end = self.asker.done() + 70, time.monotonic() + self.words.settle
        while self.asker.done() < goal and time.monotonic() < end:
            time.sleep(0.02)
        self.asker.pause = 0.05
        if not self.settle(self.words.settle):
            raise TimeoutError(f"the group isn't well {self.words.settle:.0f} s after all were started: {self.status()}")

    def settle(self, seconds: float) -> bool:
        """Whether each member may be stopped, or none but for want of members, within so many seconds."""
        end = time.monotonic() + seconds
        while time.monotonic() < end:
            members = self.survey.look()
            told = judging.as_json(NUMBER, members, judging.judge(members, True))
            if told["code"] == 0 and all(member["may_be_stopped"] or {reason["name"] for reason in member["why_not"]} == {"few"} for member in told["members"]):
                return True
            time.sleep(0.2)
        return False

    def tell(self) -> int:
        total = sum(self.counts.values())
        print(f"{total} tries with {self.words.size} members, seed {self.words.seed}: {len(self.wrong)} told wrong; the longest time to go on where a member might be stopped {self.longest:.1f} s")
        for (said, what), count in sorted(self.counts.items()):
            print(f"  {count:4d}  {said}: {what}")
        for text in self.late:
            print(f"  not counted: {text}")
        return 1 if self.wrong else 0


def begin(words: argparse.Namespace) -> Kept:
    given = None if words.port is None else range(words.port, words.port + words.size)
    group = Kept(Net(words.size, given), options=("--renew", "0", "--pause", "0.2"))
    group.start_all()
    group.await_leader(120)
    return group


def main() -> int:
    words, group, tries = parse_words(), None, None
    signal.signal(signal.SIGTERM, signal.default_int_handler)
    try:
        group = begin(words)
        tries = Tries(words, group)
        for number in range(words.tries):
            tries.one()
            if number % 10 == 9:
                print(f"{number + 1} tries, {len(tries.wrong)} wrong, {len(tries.late)} not counted; {dict(tries.counts)}", flush=True)
        return tries.tell()
    except KeyboardInterrupt:
        return 130
    except TimeoutError as why:
        print(f"stopped: {why}", file=sys.stderr)
        if tries is not None:
            tries.tell()
        return 1
    finally:
        if tries is not None:
            tries.asker.stopping = True
        if group is not None:
            group.close()


if __name__ == "__main__":
    sys.exit(main())
