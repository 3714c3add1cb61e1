"""Makes a member on a disk that is too small for its file: it has to end with 7 each time, whatever is there of the file, and to begin once there is
room, on a file without holes. Then makes members that are killed while they make their file, each after another while: with the next `--fresh`
the file has to be whole, without holes.
  ./nozhgiva test full-disk
It has to be run as root, since it mounts a small file system in memory, and leaves nothing behind."""

import os
import random
import subprocess
import sys
import tempfile
import time
from typing import List, Tuple

from nozhgiva_tools.run.built import or_end as program
from nozhgiva_tools.run.scripts import end as end_script, fail, no_words, sealed
from nozhgiva_tools.told.ends import Code

LENGTH, SECTORS, KILLS = 2039808, 3984, 40


def words(path: str, turns: int) -> List[str]:
    return [program(), "node", "5", "0", path, str(turns), "127.0.0.1:28101", "127.0.0.1:28102", "127.0.0.1:28103", "--fresh"]


def make(path: str) -> int:
    """Makes a member with few turns, and returns its exit code."""
    return subprocess.run(words(path, 20), stdin=subprocess.DEVNULL, stdout=subprocess.DEVNULL, stderr=subprocess.DEVNULL, timeout=60).returncode


def room(path: str) -> Tuple[int, int]:
    """The length of a file, and how many sectors of it have room on the disk."""
    found = os.stat(path)
    return found.st_size, found.st_blocks


def is_whole(path: str) -> bool:
    length, sectors = room(path)
    return length == LENGTH and sectors >= SECTORS


def fill_up(folder: str) -> None:
    path = f"{folder}/member"
    for turn in range(1, 4):
        code = make(path)
        print(f"a full disk, time {turn}: {code}, {room(path)[0]} bytes, of which {room(path)[1]} sectors have room")
        if code != Code.DISK_FAULT:
            fail("on a full disk a member has to end with 7")
    subprocess.run(["mount", "-o", "remount,size=4m", folder], check=True)
    code = make(path)
    print(f"with room: {code}, {room(path)[0]} bytes, of which {room(path)[1]} sectors have room")
    if code != Code.DONE or not is_whole(path):
        fail("with room a member has to begin, on a whole file")


def kill_while_filling(folder: str) -> None:
    path, short = f"{folder}/member", 0
    for kill in range(KILLS):
        if os.path.exists(path):
            os.remove(path)
        member = subprocess.Popen(words(path, 100), stdin=subprocess.DEVNULL, stdout=subprocess.DEVNULL, stderr=subprocess.DEVNULL)
        end = time.monotonic() + 5
        while not os.path.exists(path) and time.monotonic() < end:
            pass
        time.sleep(random.random() * 0.01)
        member.kill()
        member.wait()
        short += room(path)[0] < LENGTH
        if room(path)[0] == LENGTH and not is_whole(path):
            fail(f"kill {kill} leaves a file of the whole length with holes")
        code = make(path)
        if code not in (Code.DONE, Code.OCCUPIED) or not is_whole(path):
            fail(f"after kill {kill} a member ends with {code} on a file of {room(path)}")
    print(f"{KILLS} kills while the file was made, {short} of them left it short: it is whole after the next --fresh")


def main() -> None:
    with tempfile.TemporaryDirectory() as folder:
        subprocess.run(["mount", "-t", "tmpfs", "-o", "size=420k", "none", folder], check=True)
        try:
            fill_up(folder)
        finally:
            subprocess.run(["umount", folder], check=True)
        kill_while_filling(folder)


if __name__ == "__main__":
    no_words()
    sealed(sys.argv)
    end_script(main)
