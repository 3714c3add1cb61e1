"""Drawn backups and data files: what is written is read back, by the text of a backup and by docs/FORMATS.md, and what was altered is refused or told."""

import os
import tempfile
from typing import Dict, List, NamedTuple, Optional, Tuple

import pytest
from hypothesis import given, strategies as draw

from nozhgiva_tools.operate import backups
from nozhgiva_tools.told import datafile
from nozhgiva_tools.told.table import Change

from .files import empty_slot, named

VISIBLE = draw.characters(min_codepoint=33, max_codepoint=126)
KEYS = draw.one_of(draw.sampled_from("abc"), draw.text(VISIBLE, min_size=1, max_size=64))
U64 = draw.integers(0, 2**64 - 1)
LATEST = 40  # the last operation of a drawn log, at most
PLACES = {1: (144, 4), 2: (1424, 8)}  # by the version: the first sector of the prepares, and how many sectors each has
BARE = bytes(8)
KINDS = {"register": 1, "put": 2, "get": 3, "del": 4}


def values(version: int) -> draw.SearchStrategy[str]:
    most = {1: 1024, 2: 3000}[version]

    def longest(letter: str) -> str:
        return letter * most

    return draw.one_of(draw.text(VISIBLE, min_size=1, max_size=20), draw.builds(longest, VISIBLE))


# Backups.

def put(key: str, value: str) -> Change:
    return "put", key, value


def delete(key: str) -> Change:
    return "del", key


def changes(version: int) -> draw.SearchStrategy[Change]:
    return draw.one_of(draw.builds(put, KEYS, values(version)), draw.builds(delete, KEYS))


@draw.composite
def whole_backups(choose: draw.DrawFn) -> backups.Backup:
    version = choose(draw.sampled_from((1, 2)))
    members = choose(draw.integers(1, 6))
    keys = choose(draw.dictionaries(KEYS, values(version), max_size=12))
    above = choose(draw.lists(draw.tuples(draw.integers(1, 2**62), changes(version)), max_size=6))
    return backups.Backup(choose(U64), choose(draw.integers(0, members - 1)), members, version, "2026-01-02T03:04:05Z", choose(draw.integers(0, 2**62)), keys, above)


@given(whole_backups())
def test_a_backup_is_read_back(backup: backups.Backup) -> None:
    text = backups.spell(backup)
    assert backups.read(text) == backup
    assert backups.spell(backups.read(text)) == text


@given(whole_backups(), draw.data())
def test_a_damaged_backup_is_refused(backup: backups.Backup, choose: draw.DataObject) -> None:
    text = backups.spell(backup)
    at = choose.draw(draw.integers(0, len(text) - 1))
    altered = bytearray(text)
    altered[at] ^= choose.draw(draw.integers(1, 255))
    lines = text.splitlines(keepends=True)
    line = at % len(lines)
    for damaged in (bytes(altered), text[:at], text + b"x", b"".join(lines[:line] + lines[line + 1:]), b"".join(lines[:line + 1] + lines[line:])):
        with pytest.raises(backups.Damaged):
            backups.read(damaged)


# Data files: a log above the first checkpoint, spelled here as docs/FORMATS.md has it.

class Log(NamedTuple):
    """A member's log in view 0: operations of one client, the first of which registers it, and how much the superblock names and tells as committed."""

    cluster: int
    version: int
    is_careful: bool
    operations: List[Tuple[str, ...]]
    head: int
    commit: int


@draw.composite
def logs(choose: draw.DrawFn) -> Log:
    version = choose(draw.sampled_from((1, 2)))
    asked = choose(draw.lists(draw.one_of(changes(version), draw.tuples(draw.just("get"), KEYS)), max_size=LATEST - 1))
    operations: List[Tuple[str, ...]] = [("register",), *asked]
    head = choose(draw.integers(0, len(operations)))
    return Log(choose(U64), version, choose(draw.booleans()), operations, head, choose(draw.integers(0, head)))


def body_of(operation: Tuple[str, ...]) -> bytes:
    kind, *texts = operation
    sizes = [len(text) for text in texts]
    front = bytes([KINDS[kind], *sizes[:1]]) + b"".join(size.to_bytes(2, "big") for size in sizes[1:])
    return front + "".join(texts).encode("ascii")


def entries_of(log: Log) -> List[bytes]:
    """The header and body of each entry; each names the one before it as its parent."""
    made, parent = [], bytes(16)
    for number, operation in enumerate(log.operations):
        body = body_of(operation)
        fields = (datafile.name(body) + parent + bytes(16) + log.cluster.to_bytes(8, "big") + (7).to_bytes(8, "big") + number.to_bytes(4, "big") + bytes(4)
                  + (number + 1).to_bytes(8, "big") + BARE + (128 + len(body)).to_bytes(4, "big") + bytes([3, 0, log.version, 0]) + BARE + BARE)
        header = named(fields)
        made.append(header + body)
        parent = header[:16]
    return made


def file_of(log: Log) -> bytes:
    """A file with this log, as member 0 of 3 that has saved once."""
    entries = entries_of(log)
    headers = b"".join(entry[:128] for entry in entries[:log.head])
    numbers = (1).to_bytes(8, "big") + log.cluster.to_bytes(8, "big") + bytes(4 + 4 + 8 + 8 + 16) + log.commit.to_bytes(8, "big") + log.head.to_bytes(8, "big")
    fields = numbers + log.head.to_bytes(2, "big") + bytes([0, 3, log.version, log.is_careful]) + bytes(34) + headers
    copy = named(fields + bytes(datafile.COPY - 16 - len(fields)))
    data = bytearray(4 * copy + bytes(datafile.SECTORS * datafile.SECTOR - 4 * len(copy)))
    first, count = PLACES[log.version]
    for slot in range(64):
        data[(80 + slot) * 512:(81 + slot) * 512] = empty_slot()
    for op, entry in enumerate(entries, 1):
        data[(80 + op) * 512:(80 + op) * 512 + 128] = entry[:128]
        data[(first + count * op) * 512:(first + count * op) * 512 + len(entry)] = entry
    return bytes(data)


def keys_after(operations: List[Tuple[str, ...]]) -> Dict[str, str]:
    keys: Dict[str, str] = {}
    for operation in operations:
        if operation[0] == "put":
            keys[operation[1]] = operation[2]
        elif operation[0] == "del":
            keys.pop(operation[1], None)
    return keys


def effects(operations: List[Tuple[str, ...]]) -> List[Tuple[int, Tuple[str, ...]]]:
    """The operations that change a key, each with its number: a delete of a key that isn't there changes none."""
    found = []
    for at, operation in enumerate(operations):
        if operation[0] == "put" or operation[0] == "del" and operation[1] in keys_after(operations[:at]):
            found.append((at + 1, operation))
    return found


def report_of(data: bytes) -> datafile.Report:
    with tempfile.TemporaryDirectory(prefix="nozhgiva-") as folder:
        path = os.path.join(folder, "0")
        with open(path, "wb") as file:
            file.write(data)
        return datafile.Report(path)


@given(logs())
def test_a_data_file_is_read_back(log: Log) -> None:
    data = file_of(log)
    report = report_of(data)
    value = report.value
    assert value is not None
    assert (value.cluster, value.replica, value.members, value.version, value.mode) == (log.cluster, 0, 3, log.version, "careful" if log.is_careful else "strict")
    assert (value.commit, value.head, value.checkpoint, report.damaged()) == (log.commit, log.head, 0, 0)
    assert report.slots.found["here"] == list(range(1, len(log.operations) + 1))
    backup, above = backups.read_once(data)
    assert (backup.keys, backup.op, above.last) == (keys_after(log.operations[:log.commit]), log.commit, len(log.operations))
    assert backup.above == [(op, change) for op, change in effects(log.operations) if op > log.commit]
    after = backups.keys_after(backup, with_above=True)
    assert {key: said for key, said in after.items() if said is not None} == keys_after(log.operations)


@given(logs(), draw.data())
def test_a_damaged_entry_is_told_by_its_number(log: Log, choose: draw.DataObject) -> None:
    data = bytearray(file_of(log))
    op = choose.draw(draw.integers(1, len(log.operations)))
    first, count = PLACES[log.version]
    size = len(entries_of(log)[op - 1])
    at = (first + count * op) * 512 + choose.draw(draw.one_of(draw.integers(0, 127), draw.integers(128, size - 1)))
    data[at] ^= choose.draw(draw.integers(1, 255))
    report = report_of(bytes(data))
    assert report.places.mended == {("operation", op)}
    refused: Optional[str] = None
    try:
        backups.read_once(bytes(data))
    except backups.Unreadable as error:
        refused = str(error)
    assert (refused is not None) == (op <= log.commit)
    assert refused is None or f"operation {op} is committed" in refused
