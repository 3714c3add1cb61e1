"""Asks a keeper, by its socket or by the port that `keep --health` opens."""

import socket
import time

from . import doors

LONGEST = 4096  # bytes of an answer


def knock(one: socket.socket, path: str, until: float) -> None:
    """Connects, again and again while too many others wait there."""
    while True:
        try:
            return one.connect(path)
        except BlockingIOError:
            if time.monotonic() > until:
                raise
            time.sleep(0.05)


def ask(path: str, question: str, wait: float = 5.0) -> str:
    """What the keeper at this socket answers; OSError where none does."""
    with socket.socket(socket.AF_UNIX, socket.SOCK_STREAM) as one:
        one.settimeout(wait)
        knock(one, path, time.monotonic() + wait)
        one.sendall(question.encode() + b"\n")
        return read_line(one, wait)


def ask_port(address: str, wait: float = 5.0) -> str:
    """The line of health of the keeper whose port (`keep --health`) this is; OSError where none answers."""
    with socket.create_connection(doors.place_of(address), timeout=wait) as one:
        return read_line(one, wait)


def read_line(one: socket.socket, wait: float) -> str:
    """The first line that comes, at most LONGEST bytes in at most so many seconds."""
    until, answer = time.monotonic() + wait, b""
    while not answer.endswith(b"\n") and len(answer) < LONGEST:
        one.settimeout(max(0.01, until - time.monotonic()))
        piece = one.recv(1000)
        if not piece:
            break
        answer += piece
    return answer.decode("ascii", "replace").strip()
