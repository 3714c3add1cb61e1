"""Gives members, new ones and others, and a migration what isn't a plain file as their file: a folder, a pipe, a socket, a device that takes each byte, and
a block device, each by its own name and by a link. Each run has to end with 7 before a byte is written.
  ./nozhgiva test not-a-file
Whether a device was written to is seen by strace, and of a block device by its bytes; without strace, or without root and a free loop device, these rows
are left out with a word."""

import argparse
import hashlib
import os
import pathlib
import shutil
import socket
import subprocess
import tempfile
from typing import Callable, Dict, List, Tuple

from nozhgiva_tools.run.built import or_end as program
from nozhgiva_tools.run.scripts import end, fail
from nozhgiva_tools.told.ends import Code

LENGTH = 4 << 20
ADDRESSES = ["127.0.0.1:28111", "127.0.0.1:28112", "127.0.0.1:28113"]
WRITES = "write,pwrite64,writev,pwritev,ftruncate,fallocate"


def runs(path: str) -> Dict[str, List[str]]:
    """The words of each command that takes a member's file."""
    member = ["node", "5", "0", path, "1", *ADDRESSES]
    return {"node": member, "node --fresh": [*member, "--fresh"], "migrate": ["migrate", "5", "0", "3", path]}


class Rows:
    """What was tried, a line each, and how many went wrong."""

    def __init__(self, folder: str) -> None:
        self.folder, self.wrong = folder, 0
        self.traces = shutil.which("strace") is not None

    def changes(self, words: List[str]) -> Tuple[int, List[str]]:
        """The exit code, and the calls that would change a file, of which the end's own line on standard error is none."""
        traced = ["strace", "-f", "-qq", "-o", f"{self.folder}/trace", "-e", f"trace={WRITES}"] if self.traces else []
        ran = subprocess.run([*traced, program(), *words], stdin=subprocess.DEVNULL, capture_output=True, timeout=60, check=False)
        if not self.traces:
            return ran.returncode, []
        with open(f"{self.folder}/trace", encoding="utf-8", errors="replace") as trace:
            return ran.returncode, [line for line in trace if "(" in line and "(2, " not in line]

    def add(self, what: str, path: str, same: Callable[[], bool] = lambda: True) -> None:
        """Tries each command on what stands there, and on a link to it."""
        link = f"{self.folder}/link"
        os.symlink(path, link)
        for name, place in (("", path), (" by a link", link)):
            for command, words in runs(place).items():
                code, calls = self.changes(words)
                well = code == Code.DISK_FAULT and not calls and same()
                self.wrong += not well
                said = "" if well else f" in place of {Code.DISK_FAULT:d}, {len(calls)} calls that write, {'as it was' if same() else 'changed'}"
                print(f"{'' if well else 'WRONG: '}{command} on {what}{name}: {code}{said}")
        os.unlink(link)


def try_block_device(rows: Rows) -> None:
    """A block device over a file of random bytes, which has to keep them."""
    backing, before = f"{rows.folder}/backing", os.urandom(LENGTH)
    pathlib.Path(backing).write_bytes(before)
    made = subprocess.run(["losetup", "--find", "--show", backing], capture_output=True, text=True, check=False) if shutil.which("losetup") else None
    if made is None or made.returncode:
        print("left out: no loop device can be made here, so no block device was tried")
        return
    device, wanted = made.stdout.strip(), hashlib.sha256(before).digest()
    try:
        rows.add("a block device", device, lambda: hashlib.sha256(pathlib.Path(device).read_bytes()).digest() == wanted)
    finally:
        subprocess.run(["losetup", "--detach", device], check=False)


def main() -> None:
    argparse.ArgumentParser(description=__doc__, formatter_class=argparse.RawDescriptionHelpFormatter).parse_args()
    with tempfile.TemporaryDirectory() as folder:
        rows = Rows(folder)
        os.mkdir(f"{folder}/folder")
        rows.add("a folder", f"{folder}/folder", lambda: not os.listdir(f"{folder}/folder"))
        os.mkfifo(f"{folder}/pipe")
        rows.add("a pipe", f"{folder}/pipe")
        with socket.socket(socket.AF_UNIX) as bound:
            bound.bind(f"{folder}/socket")
            rows.add("a socket", f"{folder}/socket")
        rows.add("a device", "/dev/null")
        if not rows.traces:
            print("left out: no strace, so that nothing was written to a device isn't seen")
        try_block_device(rows)
        if rows.wrong:
            fail(f"{rows.wrong} rows are wrong")
    print("what is no plain file is refused, and nothing is written to it")


if __name__ == "__main__":
    end(main)
