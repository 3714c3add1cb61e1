"""Sends each member of a group of three over TCP messages without end on one stream: they are of another group, so they are dropped unanswered, and
the stream never runs dry. A client puts all the time; it has to be answered beside it, no two answers further apart than 2 seconds, else this
ends with status 1.
  ./nozhgiva test endless"""

import hashlib
import socket
import subprocess
import sys
import time

from nozhgiva_tools.places import words_of_module
from nozhgiva_tools.run.group import Group, Puts
from nozhgiva_tools.run.scripts import end, fail, no_words

FIGURE, PHASE, OTHER_GROUP = 2.0, 10, 6


def name(data: bytes) -> bytes:
    return hashlib.sha256(data).digest()[:16]


def commit() -> bytes:
    """A commit of replica 0 in view 0 of another group (docs/FORMATS.md, Header and Messages)."""
    header = bytearray(128)
    header[16:32] = name(b"")
    header[64:72] = OTHER_GROUP.to_bytes(8, "big")
    header[104:108] = (128).to_bytes(4, "big")
    header[108], header[110] = 8, 1
    header[:16] = name(bytes(header[16:]))
    return bytes(header)


def send(port: int, seconds: float) -> None:
    """Sends on one stream at a time as much as it takes."""
    piece, end = commit() * 512, time.monotonic() + seconds
    while time.monotonic() < end:
        try:
            with socket.create_connection(("127.0.0.1", port), 1) as stream:
                stream.settimeout(1)
                while time.monotonic() < end:
                    stream.sendall(piece)
        except OSError:
            time.sleep(0.1)


def main() -> None:
    with Group(scheme="tcp:") as group:
        group.start_all()
        puts = Puts(group)
        puts.await_answers(20)
        count, gap = puts.phase(PHASE)
        print(f"alone: {count} puts answered in {PHASE} s, at most {gap:.2f} s between two", flush=True)
        senders = [subprocess.Popen([*words_of_module(sys.modules["__main__"]), "send", str(group.ports[r]), str(PHASE + 1)]) for r in range(3)]
        time.sleep(1)
        count, gap = puts.phase(PHASE - 1)
        print(f"beside an endless stream to each member: {count} puts answered in {PHASE - 1} s, at most {gap:.2f} s between two")
        for sender in senders:
            sender.wait()
        puts.close()
    if gap > FIGURE:
        fail(f"more than {FIGURE:g} s without an answer")


if __name__ == "__main__":
    if sys.argv[1:2] == ["send"]:
        send(int(sys.argv[2]), int(sys.argv[3]))
    else:
        no_words()
        end(main)
