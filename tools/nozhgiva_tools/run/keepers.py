"""A group whose members run under keepers (operate/keep), on loopback or in namespaces of its own, and what can be done to it."""

import os
import re
import shutil
import signal
import subprocess
import time
from typing import Any, Dict, List, Optional, Sequence

from nozhgiva_tools.operate import asking, vitals
from nozhgiva_tools.places import OPERATE

from .group import Group
from .nets import Net

MADE = "1"  # turns of a member that only makes its file
STOPS = 60.0  # seconds that a keeper has to end its member and itself


class Kept(Group):
    """Members under keepers, on files that were made before. `options` are words of the keepers."""

    keeps_lines = False
    last_word = STOPS

    def __init__(self, net: Net, scheme: str = "", options: Sequence[str] = (), version: int = 1) -> None:
        super().__init__(net, scheme, version=version)
        self.options = list(options)
        for member in range(self.size):
            subprocess.run(super().words(member, "--fresh", turns=MADE), check=True, stdout=subprocess.DEVNULL, stderr=subprocess.DEVNULL)

    def words(self, member: int, *more: str, turns: object = None) -> List[str]:
        """The words of a member's keeper, which gives the member its own."""
        keep = [str(OPERATE / "keep"), "--program", self.program, "--log", f"{self.file(member)}.log", *self.options, *more]
        return [*self.net.inside(member), *keep, str(self.number), str(member), self.file(member), *self.addresses]

    def start(self, member: int, *more: str, **how: Any) -> None:
        """Starts a member's keeper."""
        with open(self.path(f"{member}.said"), "ab") as said:
            super().start(member, *more, stderr=said, **how)

    def start_all(self, *more: str) -> None:
        for member in range(self.size):
            self.start(member, *more)

    def process(self, member: int) -> Optional[int]:
        """The member's own process, by what its keeper wrote."""
        try:
            with open(self.file(member) + ".keep", encoding="ascii") as file:
                found = re.search(r"^keeper \d+, member (\d+)$", file.readline())
        except OSError:
            return None
        return int(found.group(1)) if found else None

    def signal(self, member: int, number: int) -> bool:
        """Sends the member, not its keeper, a signal."""
        process = self.process(member)
        try:
            if process is not None:
                os.kill(process, number)
        except ProcessLookupError:
            return False
        return process is not None

    def health(self, member: int) -> Optional[Dict[str, str]]:
        try:
            return vitals.read(asking.ask(self.file(member) + ".socket", "health"))
        except (OSError, ValueError):
            return None

    def leader(self) -> Optional[int]:
        told = {member: self.health(member) for member in range(self.size)}
        return next((member for member, line in told.items() if line and line["state"] == "leads"), None)

    def await_leader(self, seconds: float = 30.0) -> int:
        end = time.monotonic() + seconds
        while time.monotonic() < end:
            leader = self.leader()
            if leader is not None:
                return leader
            time.sleep(0.2)
        raise TimeoutError("no member leads")

    def said(self, member: int) -> List[str]:
        """What a keeper said on standard error."""
        with open(self.path(f"{member}.said"), encoding="utf-8", errors="replace") as file:
            return file.read().splitlines()

    def close(self, keeps_files: bool = False) -> None:
        for member in list(self.members):
            self.signal(member, signal.SIGCONT)
            self.stop(member)
        self.net.mend()
        self.net.end()
        if not keeps_files:
            shutil.rmtree(self.folder, ignore_errors=True)
