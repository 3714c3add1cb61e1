"""A failing disk: sectors of a running member's file rot below the page cache, or can't be read until they are written.

It is a file that fuse.py serves, with a loop device on it and ext4 with blocks of 4,096 bytes on that, so that the kernel does what it does on a disk: it reads and caches
pages, and reads a whole one before a part of it is written."""

from __future__ import annotations

import fcntl
import os
import random
import shutil
import struct
import subprocess
import sys
import tempfile
import threading
import time
from functools import partial
from pathlib import Path
from typing import Callable, Dict, Iterator, List, Optional

from nozhgiva_tools.told import datafile

from .calls import GOES_ON, meaning, Store
from .members import Members
from .table import LeftOut, Outcome, Scenario

SECTOR, PAGE = datafile.SECTOR, 8  # bytes; sectors
SIZE = 32 << 20  # bytes of a disk
SERVER = Path(__file__).resolve().parent / "fuse.py"
TOOLS = ("losetup", "mkfs.ext4", "mount", "umount")
EXTENTS, MAP, EXTENT, MOST_EXTENTS = 0xC020660B, struct.Struct("=QQIIII"), struct.Struct("=QQQ32x"), 256  # FS_IOC_FIEMAP
VISIT = 80.0  # seconds in which a member that runs comes to all of its file: 57 to 65 were seen
PATIENCE = 60.0


def why_not() -> str:
    """Why there can be no such disk here; an empty text where there can."""
    if os.geteuid() != 0:
        return "not run as root, so that no disk can be made to fail"
    missing = [tool for tool in TOOLS if not shutil.which(tool)]
    missing += [place for place in ("/dev/fuse", "/dev/loop-control") if not os.path.exists(place)]
    return f"no {', '.join(missing)}, so that no disk can be made to fail" if missing else ""


def run(*words: str) -> str:
    ran = subprocess.run(words, stdin=subprocess.DEVNULL, stdout=subprocess.PIPE, stderr=subprocess.STDOUT, text=True, timeout=PATIENCE, check=False)
    if ran.returncode:
        raise LeftOut(f"no disk can be made to fail: {' '.join(words[:1])}: {ran.stdout.strip()}")
    return ran.stdout.strip()


def forget(path: str) -> None:
    """Has the system write what it has of a file in memory, and forget it."""
    descriptor = os.open(path, os.O_RDONLY)
    try:
        os.fsync(descriptor)
        os.posix_fadvise(descriptor, 0, 0, os.POSIX_FADV_DONTNEED)
    finally:
        os.close(descriptor)


class Disk:
    """A disk of its own, with a file system at `mounted`."""

    making = threading.Lock()

    def __init__(self) -> None:
        if why := why_not():
            raise LeftOut(why)
        self.folder = tempfile.mkdtemp(prefix="disk-")
        self.store, self.bad, self.served, self.mounted = (os.path.join(self.folder, name) for name in ("store", "bad", "served", "mounted"))
        self.loop = ""
        for path, size in ((self.store, SIZE), (self.bad, SIZE // SECTOR), (self.served, 0)):
            with open(path, "wb") as file:
                file.truncate(size)
        os.mkdir(self.mounted)
        self.server = subprocess.Popen([sys.executable, "-B", str(SERVER), self.store, self.bad, self.served], stdin=subprocess.DEVNULL, stdout=subprocess.PIPE, stderr=subprocess.PIPE, text=True)

    def __enter__(self) -> "Disk":
        try:
            assert self.server.stdout is not None and self.server.stderr is not None
            if self.server.stdout.readline().strip() != "ready":
                raise LeftOut(f"no disk can be made to fail: {self.server.stderr.read().strip()}")
            with self.making:
                self.loop = run("losetup", "--find", "--show", self.served)
            run("mkfs.ext4", "-q", "-b", "4096", "-E", "nodiscard,lazy_itable_init=0,lazy_journal_init=0", self.loop)
            run("mount", "-o", "noatime", self.loop, self.mounted)
        except BaseException:
            self.end()
            raise
        return self

    def __exit__(self, *_: object) -> None:
        self.end()

    def end(self) -> None:
        for words in (["umount", self.mounted], ["losetup", "-d", self.loop] if self.loop else ["true"], ["umount", self.served]):
            subprocess.run(words, stdin=subprocess.DEVNULL, stdout=subprocess.DEVNULL, stderr=subprocess.DEVNULL, timeout=PATIENCE, check=False)
        self.server.terminate()
        self.server.communicate(timeout=PATIENCE)
        shutil.rmtree(self.folder, ignore_errors=True)

    def sectors(self, path: str) -> List[int]:
        """Where the disk has each sector of a file; what isn't on it is None's place, -1."""
        with open(path, "rb") as file:
            found = [-1] * (os.fstat(file.fileno()).st_size // SECTOR)
            words = bytearray(MAP.pack(0, 1 << 40, 1, 0, MOST_EXTENTS, 0) + bytes(EXTENT.size * MOST_EXTENTS))
            fcntl.ioctl(file.fileno(), EXTENTS, words)
        for number in range(MAP.unpack_from(words)[3]):
            logical, physical, length = (value // SECTOR for value in EXTENT.unpack_from(words, MAP.size + EXTENT.size * number))
            for at in range(min(length, len(found) - logical)):
                found[logical + at] = physical + at
        return found

    def content(self, path: str) -> bytes:
        """What the disk has of a file, whatever a cache has."""
        with open(self.store, "rb") as file:
            store = file.read()
        return b"".join(store[at * SECTOR:(at + 1) * SECTOR] if at >= 0 else bytes(SECTOR) for at in self.sectors(path))

    def look(self, path: str) -> datafile.Report:
        with tempfile.NamedTemporaryFile() as copy:
            copy.write(self.content(path))
            copy.flush()
            return datafile.Report(copy.name)

    def rot(self, path: str, sectors: List[int]) -> None:
        """Turns each bit of these sectors of a file, below every cache."""
        places = self.sectors(path)
        with open(self.store, "r+b") as file:
            for place in (places[sector] for sector in sectors):
                file.seek(place * SECTOR)
                old = file.read(SECTOR)
                file.seek(place * SECTOR)
                file.write(bytes(255 - byte for byte in old))

    def spoil(self, path: str, sector: int) -> int:
        """Makes a sector of a file unreadable until it is written; where it is on the disk."""
        place = self.sectors(path)[sector]
        with open(self.bad, "r+b") as file:
            file.seek(place)
            file.write(b"\1")
        return place

    def is_bad(self, place: int) -> bool:
        with open(self.bad, "rb") as file:
            file.seek(place)
            return file.read(1) == b"\1"


Where = Callable[[datafile.Report], int]


def slots_of(report: datafile.Report) -> List[int]:
    """The slots of the operations above the checkpoint whose entries the file has."""
    return [op % datafile.SLOTS for op in sorted(report.slots.found["here"])]


def version_of(report: datafile.Report) -> int:
    assert report.value is not None
    return report.value.version


def header_at(report: datafile.Report) -> int:
    return datafile.HEADERS + slots_of(report)[-1]


def prepare_at(report: datafile.Report) -> int:
    version = version_of(report)
    return datafile.PREPARES[version] + datafile.PREPARE_SECTORS[version] * slots_of(report)[-2]


def idle_at(report: datafile.Report) -> int:
    """The header of a slot on which nothing stands, in one page with that of an entry."""
    taken = slots_of(report)
    pages = {slot // PAGE for slot in taken}
    return datafile.HEADERS + next(slot for slot in range(datafile.SLOTS) if slot not in taken and slot // PAGE in pages)


def copy_at(report: datafile.Report) -> int:
    return 3


def block_at(report: datafile.Report) -> int:
    address = report.checkpoint.used[0]
    return datafile.GRID + 8 * address if address < datafile.NEAR else datafile.FAR_GRID + 8 * (address - datafile.NEAR)


PLACES: Dict[str, Where] = {"the header of an entry": header_at, "an entry": prepare_at, "the header of an idle slot beside it": idle_at, "a copy of the superblock": copy_at}
ROTTING: Dict[str, Where] = {**{what: at for what, at in PLACES.items() if at is not idle_at}, "a block of the checkpoint": block_at}


class Beside:
    """A group of three, one of whose members has its file on a disk of its own."""

    def __init__(self, members: Members, disk: Disk, bad: int) -> None:
        self.members, self.disk, self.bad = members, disk, bad
        self.path = os.path.join(disk.mounted, "member")

    def start(self, store: Store, env: Optional[Dict[str, str]] = None) -> None:
        """Lays the files, and starts all."""
        prepared = store.of(3, self.members.version)
        self.members.lay(prepared)
        shutil.move(self.members.file(self.bad), self.path)
        os.symlink(self.path, self.members.file(self.bad))
        run("sync", self.path)
        for r in range(3):
            self.members.start(r, env=env if r == self.bad else None)


class Rows:
    """What the rows of this file need."""

    def __init__(self, store: Store, port: int) -> None:
        self.store, self.port = store, port

    def rots(self, lane: int, number: int, env: Optional[Dict[str, str]] = None) -> Outcome:
        """Several places of a running member's file rot below its page cache: it has to mend all, though nobody asks the group."""
        with Disk() as disk, Members(self.port + 8 * lane, 3) as members:
            beside = Beside(members, disk, random.Random(number).randrange(3))
            beside.start(self.store, env)
            account = members.account("c", self.store.of(3).history, number)
            answered = account.work(4, PATIENCE)
            account.close()
            if answered < 4:
                return Outcome("no answer before it", wrong="the group doesn't answer")
            run("sync", beside.path)
            report = disk.look(beside.path)
            begun, places = time.monotonic(), {what: at(report) for what, at in ROTTING.items()}
            disk.rot(beside.path, list(places.values()))
            rotted = disk.content(beside.path)
            left = list(places)
            while left and time.monotonic() < begun + VISIT and not members.has_ended(beside.bad):
                time.sleep(1)
                now = disk.content(beside.path)
                left = [what for what, at in places.items() if now[at * SECTOR:(at + 1) * SECTOR] == rotted[at * SECTOR:(at + 1) * SECTOR]]
            spent, after = time.monotonic() - begun, disk.look(beside.path)
            wrong = members.who_ended() or (f"after {VISIT:g} s as they rotted: {', '.join(left)}" if left else "")
            happened = f"{len(places) - len(left)} of {len(places)} places are mended after {spent:.0f} s"
            return Outcome(happened, None, wrong or ("" if after.value is not None and not after.places.mended else after.health()), len(account.lost()))

    def cant_be_read(self, what: str, version: int, lane: int, number: int) -> Outcome:
        """One sector of a running member's file can't be read until it is written: it has to mend that, go on, and start again."""
        with Disk() as disk, Members(self.port + 8 * lane, 3, "", version) as members:
            beside = Beside(members, disk, random.Random(number).randrange(3))
            bad = beside.bad
            beside.start(self.store)
            account = members.account("c", self.store.of(3, version).history, number)
            account.work(4, PATIENCE)
            forget(beside.path)
            place = disk.spoil(beside.path, PLACES[what](disk.look(beside.path)))
            end = time.monotonic() + VISIT
            while disk.is_bad(place) and not members.has_ended(bad) and time.monotonic() < end:
                time.sleep(0.2)
            code, is_bad = members.finish(bad), disk.is_bad(place)
            done = account.work(8, PATIENCE)
            members.start(bad)
            again = members.finish(bad, 1.0)
            members.start(bad)
            account.put(PATIENCE)
            members.finish((bad + 1) % 3)
            whole = account.read_all(PATIENCE)
            account.close()
            happened = "mended" if not is_bad else f"{meaning(code)}; at the next start {meaning(again)}"
            return Outcome(happened, code, self.judge(is_bad, code, again) or ("the others don't answer" if done < 8 else "") or ("" if whole else "it and another one don't answer")
                           or members.is_whole(bad), len(account.lost()))

    @staticmethod
    def judge(is_bad: bool, code: Optional[int], again: Optional[int]) -> str:
        """Why the sector isn't mended by a member that goes on and starts again; an empty text where it is."""
        ends = [meaning(ended) for ended in (code, again) if (ended or GOES_ON) != GOES_ON]
        return ", then ".join(["it isn't mended"] * is_bad + ends)


def scenarios(rows: Rows, seed: int) -> Iterator[Scenario]:
    def once() -> List[int]:
        return [seed]

    yield Scenario("disk: four places rot below the page cache of an idle member", f"all are mended within {VISIT:g} s", once, rows.rots, short=False)
    for version in (1, 2):
        for what in PLACES:
            yield Scenario(f"disk: {what} of a member of version {version} can't be read", "it is mended; nothing is lost", once, partial(rows.cant_be_read, what, version), short=False)
