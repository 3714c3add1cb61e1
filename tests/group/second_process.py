"""Starts a second process on the file of a running member of a group of three, of the primary and of a backup, with and without --fresh: it has
to end with 7 each time and to leave the file as it is, by its SHA-256, and the group has to answer on. Then a member is killed and started
again in the same moment, five times: it has to start, since a process that is gone has no lock.
  ./nozhgiva test second-process                    over UDP
  SCHEME=tcp: ./nozhgiva test second-process        over TCP"""

import hashlib
import pathlib
import subprocess
import time

from nozhgiva_tools.run.group import Group, Puts
from nozhgiva_tools.run.scripts import end, fail, no_words
from nozhgiva_tools.told.ends import Code


def sum_of(path: str) -> str:
    return hashlib.sha256(pathlib.Path(path).read_bytes()).hexdigest()


def second(group: Group, r: int, *more: str) -> None:
    """Runs a second process on a member's file, while nothing is asked."""
    before = sum_of(group.file(r))
    ran = subprocess.run(group.words(r, *more), stdin=subprocess.DEVNULL, capture_output=True, text=True, timeout=60)
    same = sum_of(group.file(r)) == before
    print(f"a second process of member {r} {' '.join(more) or 'without --fresh'}: {ran.returncode} {ran.stderr.strip()}, the file is {'the same' if same else 'another'}")
    if ran.returncode != Code.DISK_FAULT or not same:
        fail("a second process has to end with 7 and to leave the file as it is")


def main() -> None:
    no_words()
    with Group() as group:
        group.start_all()
        puts = Puts(group)
        puts.await_answers(10)
        puts.open.clear()
        time.sleep(2)
        for r in (0, 1):
            second(group, r)
            second(group, r, "--fresh")
        puts.open.set()
        puts.await_answers(10)
        for _ in range(5):
            group.kill(2)
            group.start(2)
            time.sleep(0.5)
            if group.members[2].poll() is not None:
                fail(f"member 2 doesn't start again: it ends with {group.members[2].returncode}")
        puts.await_answers(10)
        print("the group answers on; a member that was killed starts again at once, 5 times of 5")
        puts.close()


if __name__ == "__main__":
    end(main)
