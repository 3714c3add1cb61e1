#!/usr/bin/env python3
"""Reads a configuration and changes it, again and again: two words that are always to say the same. Tells what it read: which configuration
it was, and both words. Prepare it once with --make, then run it in several processes at one time."""

import argparse

from words import run, turns

from nozhgiva import Session
from nozhgiva.recipes import Configuration


def play(session: Session, words: argparse.Namespace) -> None:
    configuration = Configuration(session, "limits")
    if words.make:
        configuration.make({"low": 0, "high": 0})
        return
    for _ in turns(words):
        made = configuration.change(lambda said: {"low": said["low"] + 1, "high": said["high"] + 1})
        print(f"changed {made.number} {made.words['low']} {made.words['high']}", flush=True)
        for _ in range(3):
            found = configuration.read()
            if found is not None:
                print(f"read {found.number} {found.words['low']} {found.words['high']}", flush=True)


run(__doc__, play)
