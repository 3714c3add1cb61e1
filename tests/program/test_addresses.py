"""Whom members hear: clients at an address of their own, and members' messages from the addresses of the list alone, over UDP and over TCP.

  ./nozhgiva test addresses-heard"""

import contextlib
import socket
import subprocess
import time
from typing import Dict, Iterator, List, Tuple

import pytest

import nozhgiva
from nozhgiva_tools.run import ports
from nozhgiva_tools.run.group import Group, NUMBER, SIZE
from nozhgiva_tools.told import formats

LOOPBACK, FAR = "127.0.0.1", "127.0.0.9"
"""The members' machine, and another one."""
VIEW = 7
QUIET, PATIENCE = 1.0, 10.0  # seconds in which nothing happens that mustn't, and until something has to
KINDS: Dict[str, socket.SocketKind] = {"": socket.SOCK_DGRAM, "tcp:": socket.SOCK_STREAM}


@pytest.fixture(params=list(KINDS), ids=["udp", "tcp"])
def members(request: pytest.FixtureRequest, program: str) -> Iterator[Group]:
    """Three members, each with an address for clients alone."""
    with Group(scheme=request.param, program=program) as group:
        found = ports.free(2 * SIZE)
        group.addresses = [f"{request.param}{LOOPBACK}:{own}/{LOOPBACK}:{clients}" for own, clients in zip(found[:SIZE], found[SIZE:])]
        group.start_all()
        assert asked(group, group.addresses, 1)
        yield group


def scheme_of(group: Group) -> str:
    return "tcp:" if group.addresses[0].startswith("tcp:") else ""


def halves(group: Group, at: int) -> List[str]:
    """The members' own addresses, at 0, or those for clients, at 1."""
    scheme = scheme_of(group)
    return [scheme + address[len(scheme):].split("/")[at] for address in group.addresses]


def place(group: Group, member: int, at: int) -> Tuple[str, int]:
    host, _, port = halves(group, at)[member][len(scheme_of(group)):].rpartition(":")
    return host, int(port)


def asked(group: Group, addresses: List[str], number: int) -> bool:
    """Whether a client of Python's library is answered at these addresses."""
    with nozhgiva.Group(NUMBER, addresses, timeout=20.0).register() as session:
        session.put("k", f"v{number}")
        return session.get("k") == f"v{number}"


def changes(group: Group, member: int) -> List[str]:
    """What a member told of that it has entered a later view."""
    return [line for line in group.told(member) if f" start_view_change view {VIEW}" in line]


def say(group: Group, member: int, at: int, source: Tuple[str, int]) -> None:
    """Says to a member that another one is in a later view, from this place to one of its addresses."""
    with contextlib.closing(socket.socket(socket.AF_INET, KINDS[scheme_of(group)])) as one:
        one.setsockopt(socket.SOL_SOCKET, socket.SO_REUSEADDR, 1)
        one.bind(source)
        one.connect(place(group, member, at))
        one.sendall(formats.spelled("start_view_change", b"", cluster=NUMBER, version=1, replica=(member + 1) % SIZE, view=VIEW))
        time.sleep(0.2)  # A stream that is ended at once may be gone before it is read.


def test_clients_ask_at_either_address(members: Group) -> None:
    for number, addresses in enumerate((members.addresses, halves(members, 1), halves(members, 0)), 2):
        assert asked(members, addresses, number)
    for addresses in (members.addresses, halves(members, 1)):
        members.addresses = addresses
        ran = subprocess.run(members.asking(len(addresses[0])), input=b"get k\n", stdout=subprocess.PIPE, timeout=60, check=True)
        assert ran.stdout.splitlines()[-1] == b"value v4"


def test_members_are_heard_from_their_addresses_alone(members: Group) -> None:
    """Who isn't on the list, or comes to the address for clients, has no member change its view; who takes a member's place has."""
    for member in range(SIZE):
        say(members, member, 0, (FAR, 0))
        say(members, member, 1, (FAR, 0))
        say(members, member, 1, (LOOPBACK, 0))
        if not scheme_of(members):
            say(members, member, 0, (LOOPBACK, 0))
    time.sleep(QUIET)
    assert not any(changes(members, member) for member in range(SIZE))
    members.kill(1)
    say(members, 0, 0, (LOOPBACK, 0) if scheme_of(members) else place(members, 1, 0))
    end = time.monotonic() + PATIENCE
    while not changes(members, 0):
        assert time.monotonic() < end, "a member's message isn't taken from the member's address"
        time.sleep(0.1)
