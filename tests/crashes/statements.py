"""The messages that this folder says and hears, by docs/FORMATS.md: a start_view_change is spelled, and the statement of a do_view_change is read."""

from typing import Dict, NamedTuple

from nozhgiva_tools.told import formats

from .reading import datafile

HEADER = 128
KINDS = ("nothing", "here", "lost", "wanted", "unknown")
DO_VIEW_CHANGE = 10


class Part(NamedTuple):
    """What a member states of one operation; the name is that of its entry's header, of no bytes where none is known."""

    kind: str
    name: bytes


class Statement(NamedTuple):
    """What a member states of its log: of each number from `first` on, and of none past those."""

    view: int
    log_view: int
    commit: int
    head: int
    first: int
    parts: Dict[int, Part]


def statement_of(data: bytes) -> Statement:
    """The statement of a do_view_change that is known to be one."""
    header = datafile.header_of(data)
    assert header is not None and header.command == DO_VIEW_CHANGE
    body = data[HEADER:]
    first, count = datafile.number(body, 0, 8), datafile.number(body, 8, 2)
    parts, at = {}, 10 + count
    for op, tag in enumerate(body[10:10 + count], first):
        has_header = 1 <= tag <= 3
        parts[op] = Part(KINDS[tag], body[at:at + 16] if has_header else b"")
        at += HEADER if has_header else 0
    return Statement(header.view, header.aux, header.commit, header.op, first, parts)


def start_view_change(cluster: int, version: int, sender: int, view: int) -> bytes:
    """The message by which a member tells that it has entered a view."""
    return formats.spelled("start_view_change", cluster=cluster, version=version, replica=sender, view=view)
