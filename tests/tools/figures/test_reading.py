"""What valgrind, callgrind_annotate and strace print is read as it stands there; medians were reckoned by hand."""

import unittest

from bench.measuring import reading, Refused

CACHEGRIND = """desc: LL cache:         8388608 B, 64 B, 16-way associative
cmd: program replay
events: Ir I1mr ILmr Dr D1mr DLmr Dw D1mw DLmw
fl=???
fn=main
1 10 1 1 5 2 1 3 1 1
summary: 1000 50 5 300 20 4 200 10 3
"""
CALLGRIND = """version: 1
events: Ir Dr Dw I1mr D1mr D1mw ILmr DLmr DLmw
fn=main
cfn=sha2::block256::compress::<4>
calls=12 0
1 30720
cfn=sha2::block256::round
calls=900 0
1 100
cfn=sha2::block256::compress
calls=3 +7
1 5
totals: 31000 300 200 50 20 10 5 4 3
"""
ANNOTATED = """--------------------------------------------------------------------------------
Profile data file 'profile' (creator: callgrind-3.19.0)
--------------------------------------------------------------------------------
Events shown:  Ir
--------------------------------------------------------------------------------
Ir
--------------------------------------------------------------------------------
135,090,000 (100.0%)  PROGRAM TOTALS

--------------------------------------------------------------------------------
Ir                    file:function
--------------------------------------------------------------------------------
 24,124,800 (17.86%)  ???:sha2::block256::round [/program]
  8,670,300 ( 6.42%)  ???:vr_base::fields::u64_at [/program]
  6,505,080 ( 4.82%)  ???:sha2::block256::compress [/program]
"""
INCLUSIVE = """Ir
1,500,000  PROGRAM TOTALS
1,400,000  ???:vr_group::host::step_on [/program]
  700,000  ???:vr_group::host::step_on'2 [/program]
   40,000  ???:vr_host_disk::disk::HostDiskSectorDisk::write [/program]
    2,000  ???:vr_host_disk::disk::HostDiskSectorDisk::writes [/program]
"""
STRACE = """strace: Process 7 attached
% time     seconds  usecs/call     calls    errors syscall
------ ----------- ----------- --------- --------- ----------------
 71.30    0.012345          56       220           fdatasync
 20.00    0.003000          10       300        12 recvfrom
  8.70    0.000900           4       220           pwrite64
------ ----------- ----------- --------- --------- ----------------
100.00    0.016245          21       740        12 total
"""


class Profiles(unittest.TestCase):
    def test_the_sums_of_cachegrind(self) -> None:
        self.assertEqual(reading.misses(CACHEGRIND.splitlines()), (1000, 50, 30, 12))

    def test_the_sums_of_callgrind(self) -> None:
        self.assertEqual(reading.misses(CALLGRIND.splitlines()), (31000, 50, 30, 12))

    def test_a_profile_without_sums_is_refused(self) -> None:
        for text in ("", "events: Ir\n", "summary: 12\n"):
            with self.assertRaisesRegex(Refused, "no sums"):
                reading.misses(text.splitlines())

    def test_the_calls_of_a_function_by_the_front_of_its_name(self) -> None:
        self.assertEqual(reading.calls(CALLGRIND.splitlines()), 15)
        self.assertEqual(reading.calls(CALLGRIND.splitlines(), "sha2::block256::round"), 900)

    def test_a_function_that_is_not_there_is_named(self) -> None:
        with self.assertRaisesRegex(Refused, "begins with sha3"):
            reading.calls(CALLGRIND.splitlines(), "sha3")

    def test_what_valgrind_says_at_its_end(self) -> None:
        self.assertEqual(reading.collected("==7== Events    : Ir\n==7== Collected : 1234567\n"), 1234567)
        self.assertEqual(reading.allocations("==7==   total heap usage: 1,204 allocs, 1,204 frees, 99 bytes allocated\n"), 1204)
        for read in (reading.collected, reading.allocations):
            with self.assertRaises(Refused):
                read("==7== Fatal error\n")


class Annotations(unittest.TestCase):
    def test_the_whole_and_what_digests_take(self) -> None:
        lines = ANNOTATED.splitlines()
        self.assertEqual((reading.whole(lines), reading.in_digests(lines)), (135090000, 24124800 + 6505080))

    def test_the_dearest_come_without_the_whole(self) -> None:
        self.assertEqual(reading.dearest(ANNOTATED.splitlines(), 2), ["24,124,800 (17.86%)  ???:sha2::block256::round [/program]", "8,670,300 ( 6.42%)  ???:vr_base::fields::u64_at [/program]"])

    def test_a_function_by_its_whole_name(self) -> None:
        lines = INCLUSIVE.splitlines()
        self.assertEqual(reading.whole(lines), 1500000)
        self.assertEqual(reading.within(lines, "vr_host_disk::disk::HostDiskSectorDisk::write"), 40000)
        self.assertEqual(reading.within(lines, "vr_group::host::step_on"), 1400000)
        self.assertEqual(reading.within(lines, "vr_lie::table::look_in"), 0)


class Calls(unittest.TestCase):
    def test_each_call_without_the_total(self) -> None:
        self.assertEqual(reading.system_calls(STRACE), {"fdatasync": 220, "recvfrom": 300, "pwrite64": 220})

    def test_no_call_is_no_row(self) -> None:
        self.assertEqual(reading.system_calls(""), {})


class Medians(unittest.TestCase):
    def test_of_times(self) -> None:
        for found, median, tail, mean in (
            ([5.0], 5, 5, 5),
            ([4.0, 1.0], 1, 4, 2.5),
            ([9.0, 1.0, 2.0], 2, 9, 4),
            ([float(one) for one in range(100, 0, -1)], 50, 99, 50.5),
            ([float(one) for one in range(1, 201)], 100, 198, 100.5),
        ):
            self.assertEqual(reading.times_of(found), (median, tail, mean, len(found)), found)

    def test_no_time_has_no_median(self) -> None:
        with self.assertRaisesRegex(Refused, "no time"):
            reading.times_of([])

    def test_times_stand_one_a_line(self) -> None:
        self.assertEqual(reading.times_in("12.5\n3.0 17\n\n"), [12.5, 3.0])

    def test_the_start_does_not_count(self) -> None:
        self.assertEqual(reading.once(lambda times: 5000 + 37 * times, 10, 110), 37)


if __name__ == "__main__":
    unittest.main()
