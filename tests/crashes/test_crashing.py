"""What is read of a trace, which states a crash may leave of a disk, what a member told, and what is judged a failure."""

import itertools
import random
import unittest
from typing import List

from nozhgiva_tools.told import formats

from . import early, running, scenarios, tables, whole
from .disk import Disk, PAGES, spoiled, State
from .judging import Case, judge_claim, Verdict
from .members import Seen
from .recording import Call, Reader, SECTOR
from .statements import Part, start_view_change, Statement, statement_of
from .told import Claim, Executed, Log, Split, Told
from .walking import points

TRACE = r"""
100.000001 openat(AT_FDCWD, "\x2f\x65\x74\x63", O_RDONLY) = 3 <0.000001>
100.000002 close(3) = 0 <0.000001>
100.000003 openat(AT_FDCWD, "\x2f\x64\x2f\x66", O_RDWR|O_CREAT|O_NOCTTY|O_CLOEXEC, 0666) = 3 <0.000010>
100.000004 pwrite64(3, "DATA", 512, 1024) = 512 <0.000001>
100.000005 ftruncate(3, 2048)  = 0 <0.000001>
100.000006 fsync(3)          = 0 <0.500000>
100.600000 openat(AT_FDCWD, "\x2f\x64", O_RDONLY|O_CLOEXEC) = 4 <0.000001>
100.600001 fsync(4)          = 0 <0.000001>
100.600002 close(4)          = 0 <0.000001>
100.600003 write(1, "\x61\x0a", 2) = 2 <0.000001>
100.600004 sendto(4, "\x01\x02", 2, MSG_NOSIGNAL, {sa_family=AF_INET, sin_port=htons(4001), sin_addr=inet_addr("\x31")}, 16) = 2 <0.000001>
100.600005 fdatasync(3)      = ? ERESTARTSYS
100.600006 pwrite64(3, "DATA", 512, 0 <unfinished ...>
100.600007 +++ killed by SIGKILL +++
""".replace("DATA", r"\x07" * SECTOR)
SEVENS, ZEROS = bytes([7] * SECTOR), bytes(SECTOR)


def write(sector: int, byte: int) -> Call:
    return Call("write", 0, 0, sector, bytes([byte] * SECTOR))


def sync() -> Call:
    return Call("sync", 0, 0)


def some_states(disk: Disk, count: int = 200) -> List[State]:
    return list(itertools.islice(disk.states(random.Random(1)), count))


class Traces(unittest.TestCase):
    def test_calls(self) -> None:
        calls = list(Reader("/d/f").read(TRACE.strip().splitlines()))
        self.assertEqual([(call.kind, call.at, call.data[:2]) for call in calls], [
            ("make", 0, b""), ("write", 2, b"\7\7"), ("length", 2048, b""), ("sync", 0, b""), ("folder", 0, b""), ("line", 0, b"a\n"),
            ("send", 4001, b"\1\2"), ("write", 0, b"\7\7")])
        self.assertAlmostEqual(calls[3].ended - calls[3].begun, 0.5)


class Disks(unittest.TestCase):
    def test_what_is_synced_stays(self) -> None:
        disk = Disk(ZEROS * 2)
        for call in (write(0, 7), sync(), write(1, 9)):
            disk.take(call)
        found = some_states(disk)
        self.assertTrue(all(state.image is not None and state.image[:SECTOR] == SEVENS for state in found))
        second = {bytes(state.image[SECTOR:]) for state in found if state.image is not None}
        self.assertLess({ZEROS, bytes([9] * SECTOR), bytes([246] * SECTOR)}, second)

    def test_parts_of_what_is_not_synced(self) -> None:
        disk = Disk(ZEROS * 3)
        for sector in range(3):
            disk.take(write(sector, 7))
        found = {tuple(bytes(state.image[at:at + SECTOR]) == SEVENS for at in range(0, 3 * SECTOR, SECTOR)) for state in some_states(disk) if state.image is not None}
        self.assertEqual(found, set(itertools.product((False, True), repeat=3)))

    def test_pages(self) -> None:
        """A page is as it was, new, or damaged with all that was synced in it; no other page is touched."""
        disk = Disk(SEVENS * 2 * PAGES)
        disk.take(write(2, 9))
        found = [(bytes(state.image), state.is_spoiled) for state in itertools.islice(disk.states(random.Random(1), PAGES), 100) if state.image is not None]
        new = SEVENS * 2 + bytes([9] * SECTOR) + SEVENS * 13
        bad = bytes([248] * 2 * SECTOR + [246] * SECTOR + [248] * 5 * SECTOR) + SEVENS * PAGES
        self.assertEqual(set(found), {(SEVENS * 16, False), (new, False), (bad, True)})

    def test_pages_of_sectors_that_are_written_twice_or_past_the_end(self) -> None:
        disk = Disk(SEVENS * 9)
        for call in (write(1, 8), write(1, 9), write(8, 9)):
            disk.take(call)
        for state in itertools.islice(disk.states(random.Random(2), PAGES), 100):
            assert state.image is not None
            self.assertEqual(len(state.image), 9 * SECTOR)
            self.assertIn(state.image[SECTOR], (7, 9, 246))

    def test_a_file_that_is_made(self) -> None:
        disk = Disk()
        for call in (Call("make", 0, 0), write(0, 7), write(1, 7), Call("length", 0, 0, 4 * SECTOR)):
            disk.take(call)
        images = [state.image for state in some_states(disk)]
        self.assertIsNone(images[0])
        lengths = {len(image) for image in images if image is not None}
        self.assertEqual((max(lengths), len(lengths) > 10), (4 * SECTOR, True))
        for call in (sync(), Call("folder", 0, 0)):
            disk.take(call)
        self.assertEqual({None if state.image is None else bytes(state.image) for state in some_states(disk)}, {SEVENS * 2 + ZEROS * 2})

    def test_a_disk_that_lies(self) -> None:
        disk = Disk(ZEROS, lag=1)
        for call in (write(0, 7), sync()):
            disk.take(call)
        self.assertIn(ZEROS, {bytes(state.image) for state in some_states(disk) if state.image is not None})
        disk.take(sync())
        self.assertEqual({SEVENS}, {bytes(state.image) for state in some_states(disk) if state.image is not None})

    def test_torn(self) -> None:
        torn = {spoiled("torn", ZEROS, [SEVENS], random.Random(seed)) for seed in range(50)}
        self.assertNotIn(SEVENS, torn)
        self.assertTrue(all(set(it) == {0, 7} for it in torn))


class Accounts(unittest.TestCase):
    def test_what_a_member_told(self) -> None:
        told = Told()
        body = b"\1"
        entry = formats.spelled("entry", body, cluster=5, client=7, view=3, op=9, parent=bytes(16))
        for data in (formats.spelled("prepare_ok", cluster=5, replica=1, view=4, op=8, parent=b"n" * 16, aux=3),
                     formats.spelled("prepare", entry, cluster=5, replica=1, view=4, op=9, commit=8),
                     start_view_change(5, 1, 1, 6),
                     formats.spelled("reply", body, cluster=5, client=7, request=2, view=4, op=8, replica=1, kind=1)):
            told.take(Call("send", 0, 0, 4000, data))
        self.assertEqual((told.view, told.log_view, told.answered), (6, 4, {7: 2}))
        self.assertEqual(told.claims, {8: Claim(b"n" * 16, 4, True), 9: Claim(entry[:16], 4, True)})

    def test_a_statement(self) -> None:
        header = formats.header("entry", b"\1", cluster=5, client=7, view=3, op=9)
        statement = formats.number(8, 8) + formats.number(3, 2) + bytes([4, 1, 0]) + header
        data = formats.spelled("do_view_change", statement, cluster=5, replica=1, view=6, op=9, commit=7, aux=3)
        self.assertEqual(statement_of(data), Statement(6, 3, 7, 9, 8, {8: Part("unknown", b""), 9: Part("here", header[:16]), 10: Part("nothing", b"")}))

    def test_one_log(self) -> None:
        log = Log()
        line = "commit 0 op 2 view 0 client 7 request 1 put a b"
        log.add_line(line.split())
        self.assertEqual((log.executed[2], log.executed.keys()), (Executed(0, 7, 1, ("put", "a", "b")), {2}))
        self.assertRaises(Split, log.add_line, line.replace("put a b", "put a c").split())

    def test_points(self) -> None:
        part = scenarios.part_of([write(0, 7), sync(), write(1, 7), sync(), write(2, 7)], 2)
        self.assertEqual([(point.at, sorted(point.disk.unsure())) for point in points(part, 0, 0)], [(1, [1]), (3, [2])])
        self.assertEqual(len(part.accounts), 2)


class Early(unittest.TestCase):
    def test_a_message_before_a_sync(self) -> None:
        send = Call("send", 0, 0, 4000, b"m")
        for calls, places in (([write(0, 7), sync(), send], []), ([write(0, 7), send, sync(), send], [1]), ([send, write(0, 7), write(1, 7), send, send], [3, 4]), ([sync(), send, sync()], [])):
            with self.subTest(str([call.kind for call in calls])):
                recording = scenarios.Recording(scenarios.SCENARIOS[0], [scenarios.part_of(calls, 0)], Log())
                self.assertEqual([sent.at for sent in early.early([recording])], places)
        line = Call("line", 0, 0, 0, b"send 0 to 1 prepare\n")
        for calls, at in (([write(0, 7), sync(), send], 1), ([write(0, 7), sync(), line, line, send, line, send], 3)):
            recording = scenarios.Recording(scenarios.SCENARIOS[0], [scenarios.part_of(calls, 0)], Log())
            planted = early.hasty(recording)
            self.assertEqual(sorted(map(id, planted.parts[0].calls)), sorted(map(id, calls)))
            self.assertEqual([str(sent) for sent in early.early([planted])], [f"fresh-strict 0 {at}: early: a message leaves while 1 sectors aren't synced"])


class Groups(unittest.TestCase):
    """Groups that don't answer, on disks that write pages."""

    def moment(self, name: str, *spoiled_ones: bool) -> whole.Moment:
        scenario = next(one for one in scenarios.SCENARIOS if one.name == name)
        return whole.Moment("1", scenarios.Recording(scenario, [], Log()), [State(b"", "", one) for one in spoiled_ones], {})

    def test_which_may_wait(self) -> None:
        waits, silent = "wait 0 view 3 op 12", "start 0"
        for name, pages, text, failed, row in (
                ("three-strict", (False, True, True), waits, [], "a choice waits: pages damaged at 2 of 3 members of version 1, all members run"),
                ("three-strict-v2", (True, False, False), waits, [], "a choice waits: pages damaged at 1 of 3 members of version 2, all members run"),
                ("three-careful", (False, False, False), waits, [], "a choice waits: careful files, all members run"),
                ("three-strict", (False, False, False), waits, ["silent"], None),
                ("three-strict", (False, True, True), silent, ["silent"], None)):
            with self.subTest(name=name, pages=pages, text=text):
                verdict = whole.judge_silence(self.moment(name, *pages), text)
                self.assertEqual(([it.split(":")[0] for it in verdict.failures], verdict.rows), (failed, [row] if row else []))

    def test_when_two_write(self) -> None:
        def at(kind: str, begun: float, ended: float) -> Call:
            return Call(kind, begun, ended, 0, ZEROS)

        one = scenarios.part_of([at("write", 1, 1), at("write", 2, 2), at("sync", 3, 4), at("write", 8, 8)], 0)
        other = scenarios.part_of([at("write", 3.5, 3.5), at("sync", 5, 6), at("write", 7, 7)], 0)
        self.assertEqual((whole.busiest_times([one, other]), whole.busiest_times([one])), ([3.5, 8], [1, 8]))

    def test_how_many_were_judged(self) -> None:
        tried, grouped = running.Tally(), running.Tally()
        for number in range(1200):
            tried.add(running.Result("three-strict", number % 3 == 0, 1, Verdict([], []), str(number)))
        grouped.add(running.Result("three-strict", False, 3, Verdict([], ["a choice waits: careful files"]), "1"))
        well = {"three-strict": tried}, {"three-strict": grouped}
        self.assertEqual(tables.judged_line(*well), "judged: 1,200 crash states at 400 moments, 1 whole groups: none wrong, 1 in rows of OPERATING")
        tried.add(running.Result("three-strict", False, 1, Verdict(["lost: an answer", "lost: another", "gone: 7"], []), "2"))
        self.assertEqual(tables.judged_line(*well), "judged: 1,201 crash states at 400 moments, 1 whole groups: WRONG: 1 gone, 1 lost, 1 in rows of OPERATING")
        self.assertEqual(tables.judged_line({}, {}), "judged: 0 crash states at 0 moments, 0 whole groups: none wrong")

    def test_what_is_told(self) -> None:
        tally = running.Tally()
        tally.states, tally.rows["a choice waits"] = 9, 2
        self.assertEqual(tables.standing_lines({"three-strict-v2": tally})[0], "version 2: 2 of 9 groups stand still for good")


class Judgements(unittest.TestCase):
    """A member told in view 4 that it has the entry n at 9; what it may state of it after a crash."""

    def judged(self, kind: str, name: bytes, log_view: int, committed: bool, damaged: bool) -> List[str]:
        told, log = Told(), Log()
        told.claims[9] = Claim(b"n" * 16, 4, True)
        if committed:
            log.executed[9], log.names[9, 3] = Executed(3, 7, 1, ("get", "a")), b"n" * 16
        statement = Statement(9, log_view, 8, 9, 9, {9: Part(kind, name)} if kind != "nothing" else {})
        case = Case("1", 0, 3, 1, told, log, State(b"", ""), "start", None, damaged)
        return [it.split(":")[0] for it in judge_claim(case, Seen(None, [], statement), 9)]

    def test_table(self) -> None:
        n, other, none = b"n" * 16, b"o" * 16, b""
        for kind, name, log_view, committed, damaged, wanted in (
                ("here", n, 4, False, False, []), ("lost", n, 4, False, True, []), ("unknown", none, 4, False, True, []),
                ("lost", n, 4, False, False, ["gone"]), ("unknown", none, 4, False, False, ["gone"]),
                ("wanted", n, 4, False, True, ["denied"]), ("nothing", none, 4, False, True, ["denied"]), ("here", other, 4, False, False, ["denied"]),
                ("nothing", none, 5, False, False, []), ("here", other, 5, False, False, []), ("nothing", none, 5, True, False, ["denied"])):
            with self.subTest(kind=kind, name=name, log_view=log_view, committed=committed, damaged=damaged):
                self.assertEqual(self.judged(kind, name, log_view, committed, damaged), wanted)


if __name__ == "__main__":
    unittest.main()
