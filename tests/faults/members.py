"""Groups on this machine, each of whose members may run in an environment of its own, and files that were prepared for them."""

from __future__ import annotations

import os
import shutil
import signal
import subprocess
import time
from pathlib import Path
from typing import Dict, NamedTuple, Optional, Sequence, Tuple

from nozhgiva_tools.run.nets import Net
from nozhgiva_tools.told import datafile
from tests.hunt import members as hunted
from tests.hunt.history import Operation

from .account import Account

ENDS = 30.0  # seconds after which a process that should have ended hangs
HOST = "127.0.0.1"
WRITES_ANEW = 25.0  # seconds in which a member that runs has looked at all of its file, and mended it
HANGS = -1000


class Prepared(NamedTuple):
    """The files of a group that was asked, and ended, and what it was asked."""

    folder: str
    version: int
    size: int
    history: Tuple[Operation, ...]


class Members(hunted.Members):
    """A group of one or more members on one machine, with ports of its own."""

    def __init__(self, port: int, size: int, scheme: str = "", version: int = 1) -> None:
        super().__init__(Net(size, range(port, port + size)), scheme, version)

    def process(self, r: int) -> "subprocess.Popen[bytes]":
        """The process of a member that was started."""
        return self.members[r]

    def make(self) -> None:
        """Makes all files, by members that end at once."""
        for r in range(self.size):
            self.run(r, "1", "--fresh")

    def lay(self, prepared: Prepared) -> None:
        """Puts prepared files there."""
        for r in range(self.size):
            shutil.copyfile(f"{prepared.folder}/{r}", self.file(r))

    def run(self, r: int, turns: str, *more: str, env: Optional[Dict[str, str]] = None) -> int:
        """Runs a member for so many turns; its exit code."""
        return run(self.words(r, *more, turns=turns), env)

    def has_ended(self, r: int) -> bool:
        return self.process(r).poll() is not None

    def hold(self, r: int) -> None:
        """Has a member do nothing more, until it goes on or is finished."""
        process = self.process(r)
        if process.poll() is None:
            process.send_signal(signal.SIGSTOP)
            os.waitid(os.P_PID, process.pid, os.WSTOPPED | os.WEXITED | os.WNOWAIT)

    def finish(self, r: int, patience: float = 0.0) -> Optional[int]:
        """The exit code of a member that ended by itself, in so many seconds from now; None where it went on, and is ended now. One that was stopped does
        nothing more where there is no patience."""
        process, end = self.process(r), time.monotonic() + patience
        if patience:
            process.send_signal(signal.SIGCONT)
        while (code := process.poll()) is None and time.monotonic() < end:
            time.sleep(0.02)
        if code is None:
            process.terminate()
            process.send_signal(signal.SIGCONT)
        process.wait(ENDS)
        del self.members[r]
        return code

    def who_ended(self) -> str:
        """Which members ended by themselves."""
        return "; ".join(f"member {r} ended with {member.returncode}" for r, member in sorted(self.members.items()) if member.poll() is not None)

    def account(self, name: str = "c", history: Sequence[Operation] = (), seed: int = 0, keys: int = 6) -> Account:
        return Account(name, self.addresses, self.version, history, keys, seed)

    def is_whole(self, r: int, patience: float = WRITES_ANEW) -> str:
        """Why a member's file isn't whole, though it has run for a while; empty where it is. A slot that waits for a further operation is whole enough."""
        end = time.monotonic() + patience
        while True:
            report = datafile.look(self.file(r))
            if report.value is not None and not report.places.mended:
                return ""
            if time.monotonic() > end:
                return report.health()
            time.sleep(0.2)


def run(words: Sequence[str], env: Optional[Dict[str, str]] = None) -> int:
    """Runs a command; its exit code, or HANGS."""
    try:
        return subprocess.run(words, env=env, stdin=subprocess.DEVNULL, stdout=subprocess.DEVNULL, stderr=subprocess.DEVNULL, timeout=ENDS, check=False).returncode
    except subprocess.TimeoutExpired:
        return HANGS


def prepare(folder: Path, port: int, size: int, version: int, puts: int = 60) -> Prepared:
    """Makes a group, has it asked so that it has a checkpoint and a log above it, and keeps its files."""
    with Members(port, size, "", version) as members:
        members.make()
        for r in range(size):
            members.start(r)
        account = members.account("before")
        if account.work(2 * puts, 20.0) < 2 * puts:
            raise RuntimeError("a group of sound members doesn't answer")
        account.close()
        for r in range(size):
            members.finish(r)
        folder.mkdir()
        for r in range(size):
            shutil.copyfile(members.file(r), folder / str(r))
    return Prepared(str(folder), version, size, tuple(account.history))
