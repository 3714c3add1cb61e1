"""Looks at a member's data file in a thread of its own, so that a disk that hangs holds nobody up."""

import os
import threading
from typing import NamedTuple, Optional

from nozhgiva_tools.told import datafile

from . import noting


def has_open(process: int, path: str) -> Optional[bool]:
    """Whether a process has the file open that is at a path; None where nobody can tell."""
    try:
        file, folder = os.stat(path), f"/proc/{process}/fd"
        return any(os.path.samestat(file, found) for found in map(stat_of, os.scandir(folder)) if found is not None)
    except OSError:
        return None


def stat_of(entry: "os.DirEntry[str]") -> Optional[os.stat_result]:
    try:
        return entry.stat()
    except OSError:
        return None  # It was closed meanwhile.


def note_of(report: datafile.Report) -> Optional[noting.Note]:
    """What may be noted of a file: what was read of it is on the disk once it has been synced."""
    note = noting.of_report(report)
    try:
        file = os.open(report.path, os.O_RDONLY)
        try:
            os.fsync(file)
        finally:
            os.close(file)
    except OSError:
        return None
    return note


class Look(NamedTuple):
    """What one look found: the report on the file, None where it couldn't be read; whether the member has that file open, None where nobody can tell; what
    may be noted of the file, None where that wasn't synced."""

    report: Optional[datafile.Report]
    is_open: Optional[bool]
    note: Optional[noting.Note]


class Looker:
    """Looks when it is asked to, and tells that it has by a byte at the pipe whose reading end is `told`."""

    def __init__(self, path: str) -> None:
        self.path, self.process = path, 0
        self.found = Look(None, None, None)  # by the last look
        self.told, self.tell = os.pipe()
        os.set_blocking(self.tell, False)
        self.wanted = threading.Event()
        threading.Thread(target=self.work, daemon=True).start()

    def ask(self, process: int) -> None:
        """Has it look at the file, of which the member with this process has its state."""
        self.process = process
        self.wanted.set()

    def take(self) -> Look:
        """What the last look found, once `told` can be read."""
        os.read(self.told, 100)
        return self.found

    def look(self) -> Look:
        try:
            report = datafile.look(self.path)
            return Look(report, has_open(self.process, self.path), note_of(report))
        except (OSError, IndexError, ValueError):
            return Look(None, None, None)

    def work(self) -> None:
        while True:
            self.wanted.wait()
            self.wanted.clear()
            self.found = self.look()
            try:
                os.write(self.tell, b"x")
            except OSError:
                pass  # It wasn't taken for long: it will be.
