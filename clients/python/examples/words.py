"""The words that all examples of this folder take, and the session that they ask by."""

from __future__ import annotations

import argparse
import itertools
import os
import sys
import time
from typing import Callable, Iterator

from nozhgiva import Error, Group, Session

CLUSTER = 5
"""The group's number, as in README.md."""


def turns(words: argparse.Namespace) -> Iterator[int]:
    """Numbers from 0 on, for as long as was asked for."""
    end = time.monotonic() + words.seconds
    for number in itertools.count():
        if time.monotonic() >= end:
            return
        yield number


def run(text: str, play: Callable[[Session, argparse.Namespace], None]) -> None:
    """Reads the command line, and plays an example in a session of its own. A fault ends in a sentence and exit code 1, wrong words in 2."""
    parser = argparse.ArgumentParser(description=text, formatter_class=argparse.RawDescriptionHelpFormatter)
    parser.add_argument("addresses", nargs="+", metavar="ADDRESS", help="the addresses of all members, in their order: HOST:PORT or tcp:HOST:PORT")
    parser.add_argument("--make", action="store_true", help="prepare it: once, before anybody uses it")
    parser.add_argument("--seconds", type=float, default=3.0, metavar="S", help="for how long (3)")
    parser.add_argument("--timeout", type=float, default=60.0, metavar="S", help="for how many seconds each call may wait (60)")
    parser.add_argument("--version", type=int, choices=(1, 2), default=1, help="the version of the group's files (1)")
    words = parser.parse_args()
    try:
        group = Group(CLUSTER, words.addresses, version=words.version, timeout=words.timeout)
        with group.register() as session:
            play(session, words)
            sys.stdout.flush()
    except BrokenPipeError:
        os._exit(1)
    except ValueError as error:
        parser.error(str(error))
    except (Error, OSError) as error:
        sys.exit(f"{parser.prog}: {error}")
