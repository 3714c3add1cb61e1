"""Drawn schedules, of both versions: the program takes exactly what docs/SCHEDULE.md takes, names what it refuses, and answers line by line."""

import re
from typing import List, Tuple

from hypothesis import given, strategies as draw

from nozhgiva_tools.command import schedule

from .common import call, needs_program, PROGRAM

TAKEN, REFUSED = 0, 3
# The first words of the lines of an output, by docs/SCHEDULE.md.
SAID = re.compile(rb"(?:(?:send \d+ \d \d|commit \d|reply \d client|choose \d|wait \d|start \d|migrated \d|halt \d) ?.*|done|kept out)")
MOST_VALUE, SECTORS = {1: 1024, 2: 3000}, {1: 1424, 2: 3984}  # by the version, as that page has them
TEXT = draw.text(draw.characters(min_codepoint=33, max_codepoint=126), min_size=1, max_size=8)
EDGES = draw.sampled_from((0, 1, 2, 5, 6, 7, 1_000_000, 1_000_001, 1423, 1424, 3983, 3984, 2**32 - 1, 2**32, 2**64 - 1, 2**64))
NUMBERS = draw.one_of(draw.integers(0, 12), EDGES).map(str)
SPOILT = draw.sampled_from((" ", "  ", "\t", "\r", "-1", "+1", "01", "", "x", "\x7f", "é", "#"))


def edged(least: int, most: int, edge: int) -> draw.SearchStrategy[str]:
    """A number of which each value matters, or the greatest that is allowed."""
    return draw.one_of(draw.integers(least, most), draw.just(edge)).map(str)


def words_of(group: schedule.Group) -> draw.SearchStrategy[str]:
    """A line that fits a group, or nearly."""
    member, sector = draw.integers(0, group.members - 1).map(str), edged(0, 1423, SECTORS[group.version] - 1)
    value = draw.one_of(TEXT, draw.just("v" * MOST_VALUE[group.version]))
    asked = draw.one_of(draw.builds("put {} {}".format, TEXT, value), draw.builds("get {}".format, TEXT), draw.builds("del {}".format, TEXT))
    client, number = edged(1, 3, 2**64 - 1), edged(1, 4, 2**32 - 1)
    return draw.one_of(
        draw.builds("request {} {} 0 register".format, member, client),
        draw.builds("request {} {} {} {}".format, member, client, number, asked),
        draw.builds("deliver {}".format, NUMBERS.filter(lambda word: int(word) < 2**64)),
        draw.builds("{} {}".format, draw.sampled_from(("tick", "stop", "start", "migrate")), member),
        draw.builds("fuse {} {} {}".format, member, edged(1, 9, 1_000_000), edged(0, 80, 2**64 - 1)),
        draw.builds("{} {} {}".format, draw.sampled_from(("damage", "stale", "unread")), member, sector))


@draw.composite
def schedules(choose: draw.DrawFn) -> List[str]:
    """Lines of which each is taken."""
    version = choose(draw.sampled_from((1, 2)))
    group = schedule.Group(choose(draw.integers(3 - version, 6)), version)
    first = f"cluster {group.members}{choose(draw.sampled_from(('', ' careful')))}{' v2' if version == 2 else ''}"
    return [first, *choose(draw.lists(words_of(group), max_size=25))]


@draw.composite
def spoiled(choose: draw.DrawFn) -> bytes:
    """Lines of which one was changed at one place, or has another number."""
    lines = choose(schedules())
    at = choose(draw.integers(0, len(lines) - 1))
    words = lines[at].split(" ")
    place = choose(draw.integers(0, len(words) - 1))
    words[place] = choose(draw.one_of(NUMBERS, SPOILT, TEXT, draw.just(words[place] + " ")))
    lines[at] = " ".join(words)
    return "\n".join(lines).encode() + choose(draw.sampled_from((b"", b"\n", b"\n\n")))


def replayed(text: bytes) -> Tuple[int, List[bytes], bytes]:
    ran = call([PROGRAM, "replay"], text)
    return ran.returncode, ran.stdout.splitlines(), ran.stderr


@needs_program
@given(schedules())
def test_what_fits_is_taken_and_the_front_of_it_gives_the_front_of_its_outputs(lines: List[str]) -> None:
    status, said, errors = replayed("\n".join(lines).encode())
    assert (status, errors, schedule.first_refused([line.encode() for line in lines])) == (TAKEN, b"", None)
    assert [line for line in said if not SAID.fullmatch(line)] == []
    front = "\n".join(lines[:1 + len(lines) // 2]).encode()
    status, before, _ = replayed(front)
    assert (status, before) == (TAKEN, said[:len(before)])


@needs_program
@given(spoiled())
def test_what_doesnt_fit_is_refused_at_its_line_and_what_stands_before_is_answered(text: bytes) -> None:
    lines = text.split(b"\n")
    refused = schedule.first_refused(lines)
    status, said, errors = replayed(text)
    assert status == (REFUSED if refused else TAKEN), (refused, errors)
    if refused:
        assert errors.count(b"\n") == 1
        assert said == (replayed(b"\n".join(lines[:refused[0] - 1]))[1] if refused[0] > 1 else [])
