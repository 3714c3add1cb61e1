"""What bench/figures is made of. One way each: places starts processes and ends them, reading takes numbers out of what tools print, models builds a
program of some crates, members starts a group, tables writes what a page has. The figures stand in replays, crates and groups."""

import argparse
import sys
from typing import Callable, List, NamedTuple, Tuple

from nozhgiva_tools.places import TOP

PAGE = TOP / "docs" / "FIGURES.md"


class Refused(Exception):
    """Something that can't be measured here, or words that are wrong; its text says what."""


class Outcome(NamedTuple):
    """What was measured: the lines that a page may have, what is said beside them, and whether what the figure asks for holds."""

    lines: List[str]
    notes: List[str]
    holds: bool = True


def takes_no_words(_: argparse.ArgumentParser) -> None:
    """Most figures have no words of their own."""


class Figure(NamedTuple):
    """A figure by its name: what it tells, how long that takes where nothing else runs, the tools, and how it is measured."""

    name: str
    what: str
    seconds: int
    needs: Tuple[str, ...]
    measure: Callable[[argparse.Namespace], Outcome]
    add_words: Callable[[argparse.ArgumentParser], None] = takes_no_words
    blocks: Tuple[str, ...] = ()  # the places of the page that it can write: its name, and how it was measured
    has_short: bool = True  # whether it takes small counts too


def say(text: str) -> None:
    """Tells on standard error what is measured now."""
    print(f"figures: {text}", file=sys.stderr, flush=True)
