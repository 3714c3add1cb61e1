"""Serves one file by the kernel's FUSE protocol, for a loop device on it: a disk of which sectors can be made unreadable.

  fuse.py STORE BAD PLACE     over the plain file PLACE, until that is unmounted; it says `ready` once it serves. It takes root

STORE has the disk's bytes, and whoever changes them changes the disk below every cache. BAD has a byte for each of its sectors: where that is 1 a read of
the sector fails with EIO, until it is written."""

import ctypes
import errno
import mmap
import os
import stat
import struct
import sys
import time
from typing import Callable, Dict, Optional

SECTOR = 512
MOST = 128 << 10  # bytes of a write
IN, OUT = struct.Struct("=IIQQIIII"), struct.Struct("=IiQ")
INIT, INIT_OUT = struct.Struct("=IIII"), struct.Struct("=IIIIHHIIHHI28x")
ATTRIBUTES = struct.Struct("=QII6Q10I")
TRANSFER = struct.Struct("=QQI")  # the front of a read's and a write's words
WORDS = 40  # of a write, before its bytes
DIRECT = 1  # what is read isn't kept by the kernel at this file; the loop device's file system keeps it
ROOT = 1


class Disk:
    """The answers to the kernel's requests, by their numbers."""

    def __init__(self, store: str, bad: str) -> None:
        self.store = os.open(store, os.O_RDWR)
        self.size = os.fstat(self.store).st_size
        with open(bad, "r+b") as file:
            self.bad = mmap.mmap(file.fileno(), self.size // SECTOR)
        self.answers: Dict[int, Callable[[bytes], bytes]] = {
            3: self.attributes, 4: self.attributes, 14: self.open, 15: self.read, 16: self.write, 18: self.nothing, 20: self.nothing, 25: self.nothing, 26: self.begin,
        }

    def begin(self, words: bytes) -> bytes:
        major, minor, ahead, _ = INIT.unpack_from(words)
        return INIT_OUT.pack(major, min(minor, 31), ahead, 0, 16, 12, MOST, 1, 0, 0, 0)

    def attributes(self, _: bytes) -> bytes:
        mode, blocks = stat.S_IFREG | 0o600, self.size // SECTOR
        return ATTRIBUTES.pack(3600, 0, 0, ROOT, self.size, blocks, 0, 0, 0, 0, 0, 0, mode, 1, os.getuid(), os.getgid(), 0, 4096, 0)

    def open(self, _: bytes) -> bytes:
        return struct.pack("=QIi", 0, DIRECT, 0)

    def nothing(self, _: bytes) -> bytes:
        return b""

    def read(self, words: bytes) -> bytes:
        _, at, size = TRANSFER.unpack_from(words)
        if 1 in self.bad[at // SECTOR:(at + size + SECTOR - 1) // SECTOR]:
            raise OSError(errno.EIO, "a sector that can't be read")
        return os.pread(self.store, size, at)

    def write(self, words: bytes) -> bytes:
        _, at, size = TRANSFER.unpack_from(words)
        os.pwrite(self.store, words[WORDS:WORDS + size], at)
        first, end = (at + SECTOR - 1) // SECTOR, (at + size) // SECTOR
        self.bad[first:end] = bytes(end - first)
        return struct.pack("=II", size, 0)

    def answer(self, request: bytes) -> Optional[bytes]:
        size, number, unique, *_ = IN.unpack_from(request)
        if number in (2, 36, 42):
            return None  # forget, interrupt: they have no answer
        known = self.answers.get(number)
        try:
            if known is None:
                raise OSError(errno.ENOSYS, "no such request")
            data = known(request[IN.size:size])
        except OSError as error:
            return OUT.pack(OUT.size, -(error.errno or errno.EIO), unique)
        return OUT.pack(OUT.size + len(data), 0, unique) + data


def mount(device: int, place: str) -> None:
    libc = ctypes.CDLL(None, use_errno=True)
    options = f"fd={device},rootmode={stat.S_IFREG | 0o600:o},user_id={os.getuid()},group_id={os.getgid()},allow_other"
    if libc.mount(b"disk", os.fsencode(place), b"fuse", 0, options.encode()):
        number = ctypes.get_errno()
        raise OSError(number, os.strerror(number))


def serve(disk: Disk, device: int) -> None:
    while True:
        try:
            request = os.read(device, MOST + (64 << 10))
        except OSError as error:
            if error.errno == errno.ENODEV:
                return  # It is unmounted.
            if error.errno in (errno.EINTR, errno.ENOENT, errno.EAGAIN):
                time.sleep(0)
                continue
            raise
        answer = disk.answer(request)
        if answer is not None:
            try:
                os.write(device, answer)
            except OSError as error:
                if error.errno != errno.ENOENT:  # Who asked isn't there any more.
                    raise


def main() -> int:
    if len(sys.argv) != 4:
        print(__doc__ if sys.argv[1:] in (["-h"], ["--help"]) else "usage: fuse.py STORE BAD PLACE", file=sys.stdout if sys.argv[1:] in (["-h"], ["--help"]) else sys.stderr)
        return 0 if sys.argv[1:] in (["-h"], ["--help"]) else 2
    disk = Disk(sys.argv[1], sys.argv[2])
    device = os.open("/dev/fuse", os.O_RDWR)
    try:
        mount(device, sys.argv[3])
    except OSError as error:
        print(f"fuse.py: it can't be mounted: {error.strerror}", file=sys.stderr)
        return 1
    print("ready", flush=True)
    serve(disk, device)
    return 0


if __name__ == "__main__":
    sys.exit(main())
