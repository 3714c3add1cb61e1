"""Sends datagrams to addresses at a rate, for a while, as a process of its own; prints how many.

  flood.py SECONDS RATE FILE HOST:PORT .. [--forged]     what it sends stands in FILE, one after the other: 4 bytes of length, big-endian, and the bytes; again and again

With --forged what is sent to one address seems to come from the next one, over loopback, which takes root: so it seems to come from a member."""

import socket
import struct
import sys
import time
from typing import Callable, Iterable, List, Tuple

SLICE = 0.002  # seconds
HEADER = struct.Struct(">HHHH")
"""Of UDP: the ports of sender and receiver, the length, and a sum that isn't made."""


def read(path: str) -> List[bytes]:
    with open(path, "rb") as file:
        data, found = file.read(), []
    while data:
        size = 4 + int.from_bytes(data[:4], "big")
        found.append(data[4:size])
        data = data[size:]
    return found


def write(path: str, datagrams: Iterable[bytes]) -> None:
    with open(path, "wb") as file:
        for one in datagrams:
            file.write(len(one).to_bytes(4, "big") + one)


def place_of(address: str) -> Tuple[str, int]:
    host, _, port = address.rpartition(":")
    return host, int(port)


def sender_to(place: Tuple[str, int]) -> Callable[[bytes], object]:
    """Sends there from a port of its own."""
    one = socket.socket(socket.AF_INET, socket.SOCK_DGRAM)
    one.connect(place)
    return one.send


def forger_to(place: Tuple[str, int], sender: Tuple[str, int]) -> Callable[[bytes], object]:
    """Sends there from another process's port on this machine, as it seems."""
    one = socket.socket(socket.AF_INET, socket.SOCK_RAW, socket.IPPROTO_UDP)
    one.bind((sender[0], 0))
    return lambda data: one.sendto(HEADER.pack(sender[1], place[1], HEADER.size + len(data), 0) + data, (place[0], 0))


def main() -> None:
    seconds, rate, path, *words = sys.argv[1:]
    places = [place_of(word) for word in words if word != "--forged"]
    if "--forged" in words:
        senders = [forger_to(place, places[at - 1]) for at, place in enumerate(places)]
    else:
        senders = [sender_to(place) for place in places]
    print(flood(float(seconds), float(rate), read(path), senders))


def flood(seconds: float, rate: float, datagrams: List[bytes], senders: List[Callable[[bytes], object]]) -> int:
    sent, begun = 0, time.monotonic()
    while (now := time.monotonic() - begun) < seconds:
        due = int(rate * now)
        while sent < due:
            try:
                senders[sent % len(senders)](datagrams[sent // len(senders) % len(datagrams)])
            except OSError:
                pass
            sent += 1
        time.sleep(SLICE)
    return sent


if __name__ == "__main__":
    main()
