"""Looks how much of its file a member reads from the disk itself, by the system's own count (/proc/PID/io): it has to be all of it when it starts,
though another process has just written it; and some of it within 80 seconds of idling, since visits go round and the system is told once a minute
to forget its copies. Else this ends with status 1.
  ./nozhgiva test reads                     on the disk that TMPDIR is on, which can't be one in memory"""

import subprocess
import sys
import time

from nozhgiva_tools.run.group import Group
from nozhgiva_tools.run.scripts import end, fail, no_words

LENGTH, IDLE = 2039808, 80


def from_disk(member: "subprocess.Popen[bytes]") -> int:
    with open(f"/proc/{member.pid}/io", encoding="ascii") as io:
        return next(int(line.split()[1]) for line in io if line.startswith("read_bytes:"))


def main() -> None:
    no_words()
    with Group() as group:
        kind = subprocess.run(["df", "--output=fstype", group.folder], check=True, capture_output=True, text=True).stdout.split()[-1]
        if kind == "tmpfs":
            print(f"nothing was tried: {group.folder} is in memory: name a folder on a disk by TMPDIR", file=sys.stderr)
            sys.exit(2)
        group.start_all()
        group.ask(7, [f"put key{i % 100} value{i}" for i in range(200)])
        group.kill(2)
        group.start(2)
        group.await_line(2, "start 2 ")
        time.sleep(1)
        started = from_disk(group.members[2])
        print(f"a start reads {started} of {LENGTH} bytes from the disk ({kind})", flush=True)
        before = from_disk(group.members[1])
        time.sleep(IDLE)
        idle = from_disk(group.members[1]) - before
        print(f"{IDLE} s of idling read {idle} bytes from it")
    if started < LENGTH:
        fail("a start has to read the whole file from the disk")
    if idle == 0:
        fail("an idle member has to read what its visits look at from the disk")


if __name__ == "__main__":
    end(main)
