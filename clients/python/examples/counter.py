#!/usr/bin/env python3
"""Adds one to a counter again and again, and tells what it came to. Prepare it once with --make, then run it in several processes at one
time: no two of them tell the same number, and none is missing."""

import argparse

from words import run, turns

from nozhgiva import Session
from nozhgiva.recipes import Counter


def play(session: Session, words: argparse.Namespace) -> None:
    counter = Counter(session, "visits")
    if words.make:
        counter.make()
        return
    for _ in turns(words):
        print(counter.add(), flush=True)


run(__doc__, play)
