"""Groups of the built program for tests: NOZHGIVA_PROGRAM, or crates/vr_app/out/vr_app. Without one the tests that need it are skipped."""

import itertools
import os
import random
import signal
import socket
import subprocess
import tempfile
import threading
import time
import unittest
from pathlib import Path

from nozhgiva import Get, Group
from nozhgiva.links import open_link, places_of
from nozhgiva.messages import Request

PROGRAM = os.environ.get("NOZHGIVA_PROGRAM") or str(Path(__file__).resolve().parents[3] / "crates/vr_app/out/vr_app")
CLUSTER = 5
PATIENCE = 60.0
MEMORY = "/dev/shm"
"""Where the members' files stand if it is there: these tests are of the client, and needn't wait for a disk."""


def is_there(program):
    """Whether a program can be run."""
    return os.path.isfile(program) and os.access(program, os.X_OK)


needs_program = unittest.skipUnless(is_there(PROGRAM), f"no program at {PROGRAM}")


PORTS = range(20_000, 32_000)
"""Below those that systems give to clients, so that a member's port stays free while it is away."""


def _is_free(port):
    """Whether nobody has a port of this machine, over UDP or TCP."""
    for kind in (socket.SOCK_DGRAM, socket.SOCK_STREAM):
        with socket.socket(socket.AF_INET, kind) as one:
            try:
                one.bind(("127.0.0.1", port))
            except OSError:
                return False
    return True


def free_addresses(size, scheme=""):
    """So many addresses of this machine that nobody has."""
    ports = []
    while len(ports) < size:
        port = random.choice(PORTS)
        if port not in ports and _is_free(port):
            ports.append(port)
    return [f"{scheme}127.0.0.1:{port}" for port in ports]


class Running:
    """Members on loopback, each with a file of its own."""

    def __init__(self, scheme="", *, size=3, version=1):
        self.folder = tempfile.TemporaryDirectory(dir=MEMORY if os.path.isdir(MEMORY) else None)
        self.addresses = free_addresses(size, scheme)
        made = ["--fresh"] + ["--v2"] * (version == 2)
        self.members = [self._start(number, *made) for number in range(size)]
        self.group = Group(CLUSTER, self.addresses, version=version, timeout=PATIENCE)
        for address in self.addresses:
            self._await(address)

    def _start(self, number, *words):
        words = [PROGRAM, "node", str(CLUSTER), str(number), f"{self.folder.name}/{number}", "1000000", *self.addresses, *words]
        return subprocess.Popen(words, stdout=subprocess.DEVNULL)

    def _await(self, address):
        """Waits until a member answers, so that it may be killed: one that was killed before its file was made is none."""
        asked = Request(CLUSTER, 1, 1, Get("?"), self.group.version).encode()
        link, end = open_link(places_of([address])), time.monotonic() + PATIENCE
        while time.monotonic() < end:
            link.send(0, asked)
            came = link.receive(0.1)
            if came is not None and came.data:
                break
        link.close()

    def start(self, *numbers):
        for number in numbers:
            self.members[number] = self._start(number)

    def migrate(self, number):
        """Moves the file of a member that was killed to version 2."""
        words = [PROGRAM, "migrate", str(CLUSTER), str(number), str(len(self.members)), f"{self.folder.name}/{number}"]
        subprocess.run(words, check=True, stdout=subprocess.DEVNULL)

    def kill(self, *numbers):
        for number in numbers:
            self.members[number].kill()
            self.members[number].wait()

    def __enter__(self):
        return self

    def __exit__(self, *_):
        self.kill(*range(len(self.members)))
        self.folder.cleanup()


class Disturbing:
    """Kills a member and starts it again, then has one stand still for a while, and so on for as long as a `with` block lasts; each for
    `away` seconds, with `rest` seconds between them. The members are drawn, the one that leads at first comes first."""

    def __init__(self, running, seed, rest=0.4, away=0.6):
        self.running = running
        draw = random.Random(seed)
        self.members = itertools.chain([0], (draw.randrange(len(running.members)) for _ in itertools.count()))
        self.rest, self.away = rest, away
        self.done = []
        self.over = threading.Event()
        self.thread = threading.Thread(target=self._disturb)

    def _disturb(self):
        for number, member in enumerate(self.members):
            if self.over.wait(self.rest):
                return
            if number % 2 == 0:
                self._kill(member)
            else:
                self._pause(member)

    def _kill(self, member):
        self.running.kill(member)
        self.over.wait(self.away)
        self.running.start(member)
        self.done.append("killed")

    def _pause(self, member):
        self.running.members[member].send_signal(signal.SIGSTOP)
        self.over.wait(self.away)
        self.running.members[member].send_signal(signal.SIGCONT)
        self.done.append("paused")

    def __enter__(self):
        self.thread.start()
        return self

    def __exit__(self, *_):
        self.over.set()
        self.thread.join()
