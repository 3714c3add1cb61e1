#!/usr/bin/env python3
"""Stands for an election again and again, leads for a tenth of a second and resigns; tells the term, who leads by then, and from when to when
it led by this machine's clock. Prepare it once with --make, then run it in several processes at one time."""

import argparse
import os
import time

from words import run, turns

from nozhgiva import Session
from nozhgiva.recipes import Election


def play(session: Session, words: argparse.Namespace) -> None:
    election = Election(session, "leader", f"process-{os.getpid()}")
    if words.make:
        election.make()
        return
    for _ in turns(words):
        term = election.campaign()
        begun = time.monotonic()
        time.sleep(0.1)
        leader = election.leader()
        print(f"{term} {leader.candidate if leader else '-'} {begun:.6f} {time.monotonic():.6f}", flush=True)
        election.resign()


run(__doc__, play)
