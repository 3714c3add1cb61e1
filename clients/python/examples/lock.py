#!/usr/bin/env python3
"""Holds a lock again and again, a tenth of a second each time, and tells when: the holder's number, and from when to when by this machine's
clock, in seconds. Prepare it once with --make, then run it in several processes at one time."""

import argparse
import time

from words import run, turns

from nozhgiva import Session
from nozhgiva.recipes import Lock


def play(session: Session, words: argparse.Namespace) -> None:
    lock = Lock(session, "printer")
    if words.make:
        lock.make_free()
        return
    for _ in turns(words):
        with lock.held() as number:
            begun = time.monotonic()
            time.sleep(0.1)
            print(f"{number} {begun:.6f} {time.monotonic():.6f}", flush=True)


run(__doc__, play)
