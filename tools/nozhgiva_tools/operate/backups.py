"""A backup: the keys of a group at one operation, out of the data file of a member, as a text with a checksum."""

import hashlib
import os
import re
import time
from typing import Dict, Iterator, List, NamedTuple, Optional, Tuple

from nozhgiva_tools.told import datafile
from nozhgiva_tools.told.datafile import Header
from nozhgiva_tools.told.table import Change, Table

FIRST_LINE = "nozhgiva backup 1"
MOST_BYTES = 4_000_000  # of a backup: 128 keys and 64 operations with values of 3,000 bytes are below a sixth of that
LOOKS = 3  # so often a file that doesn't change is read before what is wrong with it is said
PAUSE = 0.1  # seconds from look to look
SECONDS = 20.0  # for which a file that changes all the while is read again


class Unreadable(Exception):
    """No backup can be made of the file; the text says why."""


class Damaged(Exception):
    """A text is no whole backup; the text says why."""


class Backup(NamedTuple):
    """The keys after the operation `op`, the last one that the file tells as committed, and what stands above it."""

    group: int
    member: int
    members: int
    version: int
    made: str
    op: int
    keys: Dict[str, str]
    above: List[Tuple[int, Change]]  # changes that may or may not be committed, each with its operation

    def describe(self) -> str:
        above = f", and {len(self.above)} changes that may not be committed" if self.above else ""
        return f"{len(self.keys)} keys of group {self.group} at operation {self.op}{above}; member {self.member} of {self.members}, version {self.version}, {self.made}"


class Above(NamedTuple):
    """What stands in a file above the commit number: its changes, the last operation that can be read, and the head."""

    changes: List[Tuple[int, Change]]
    last: int
    head: int


# Reading a data file.

class Entries:
    """The entries of a file's log above its checkpoint."""

    def __init__(self, data: bytes, value: datafile.Value) -> None:
        self.data, self.value = data, value
        self.slots = datafile.Slots(data, value)
        self.here = set(self.slots.found["here"])

    def read(self, op: int) -> Optional[Tuple[Header, bytes]]:
        """The header and the operation of an entry; None where it can't be read."""
        if op not in self.here:
            return None
        count = datafile.PREPARE_SECTORS[self.value.version]
        at = (datafile.PREPARES[self.value.version] + count * (op % datafile.SLOTS)) * datafile.SECTOR
        header = Header(self.data[at:])
        return header, self.data[at + 128:at + header.size]


def read_once(data: bytes) -> Tuple[Backup, Above]:
    """The backup that these bytes of a file give; Unreadable where something of it is missing, as it may be while the member writes."""
    value = datafile.Superblock(data).value
    if value is None:
        raise Unreadable("it is no member's file: no two good copies of the superblock agree")
    checkpoint = datafile.Checkpoint(data, value)
    if checkpoint.keys is None or checkpoint.sessions is None:
        raise Unreadable(f"the checkpoint at operation {value.checkpoint} can't be read: blocks {datafile.ranges(checkpoint.faulty)} are damaged")
    table, entries = Table.of(checkpoint), Entries(data, value)
    for op in range(value.checkpoint + 1, value.commit + 1):
        entry = entries.read(op)
        if entry is None:
            raise Unreadable(f"operation {op} is committed and can't be read: {value.commit} are committed, and the checkpoint is at {value.checkpoint}")
        table.apply(*entry)
    keys = dict(table.keys)
    above = read_above(entries, table)
    made = time.strftime("%Y-%m-%dT%H:%M:%SZ", time.gmtime())
    return Backup(value.cluster, value.replica, value.members, value.version, made, value.commit, keys, above.changes), above


def read_above(entries: Entries, table: Table) -> Above:
    """What stands above the commit number, as far as each entry names the one before it as its parent."""
    op = entries.value.commit
    changes: List[Tuple[int, Change]] = []
    before = entries.value.headers.get(op)
    while True:
        entry = entries.read(op + 1)
        if entry is None or (before is not None and entry[0].bytes[32:48] != before.bytes[:16]):
            return Above(changes, op, entries.slots.head())
        op, before = op + 1, entry[0]
        change = table.apply(*entry)
        if change is not None:
            changes.append((op, change))


def read_file(path: str) -> Tuple[Backup, Above]:
    """The backup that a file gives. Its member may write there meanwhile, so what can't be read is looked at again, as long as the file changes."""
    begun, last, same = time.monotonic(), b"", 0
    while True:
        with open(path, "rb") as file:
            data, _ = datafile.read_sectors(file)
        same, last = (same + 1 if data == last else 1), data
        try:
            return read_once(data)
        except Unreadable:
            if same >= LOOKS or time.monotonic() - begun > SECONDS:
                raise
        time.sleep(PAUSE)


# The text.

def lines_of(backup: Backup) -> Iterator[str]:
    yield FIRST_LINE
    yield f"group {backup.group} member {backup.member} of {backup.members} version {backup.version}"
    yield f"made {backup.made}"
    yield f"op {backup.op}"
    yield f"keys {len(backup.keys)} uncommitted {len(backup.above)}"
    for key, value in sorted(backup.keys.items()):
        yield f"key {key} {value}"
    for op, change in backup.above:
        yield f"uncommitted {op} {' '.join(change)}"


def spell(backup: Backup) -> bytes:
    """The text of a backup; its last line has the SHA-256 of all lines before it."""
    text = "".join(f"{line}\n" for line in lines_of(backup)).encode("ascii")
    return text + f"sha256 {hashlib.sha256(text).hexdigest()}\n".encode("ascii")


def body_of(text: bytes) -> List[str]:
    """The lines of a text whose checksum is right."""
    if not text.startswith(FIRST_LINE[:-1].encode()):
        raise Damaged(f"it is no backup: its first line isn't `{FIRST_LINE}`")
    found = re.search(rb"(?:\A|\n)sha256 ([0-9a-f]{64})\n\Z", text)
    if found is None:
        raise Damaged("it was cut off: its last line, `sha256 ..`, isn't there")
    body = text[:found.start() + 1]
    if hashlib.sha256(body).hexdigest().encode() != found.group(1):
        raise Damaged("it is damaged: its checksum is that of another text")
    return body.decode("ascii", "replace").split("\n")[:-1]


def taken(pattern: str, line: str) -> Tuple[str, ...]:
    found = re.fullmatch(pattern, line)
    if found is None:
        raise Damaged(f"its line `{line[:80]}` has another form")
    return found.groups()


KEY, VALUE = r"([!-~]{1,64})", r"([!-~]{1,3000})"


def read_change(line: str) -> Tuple[int, Change]:
    found = re.fullmatch(rf"uncommitted (\d+) put {KEY} {VALUE}", line)
    if found is not None:
        return int(found[1]), ("put", found[2], found[3])
    op, key = taken(rf"uncommitted (\d+) del {KEY}", line)
    return int(op), ("del", key)


def read(text: bytes) -> Backup:
    """The backup that a text has; Damaged where it isn't whole."""
    lines = body_of(text)
    if lines[0] != FIRST_LINE:
        raise Damaged(f"it is a backup of another form: `{lines[0][:40]}`")
    if len(lines) < 5:
        raise Damaged("its first five lines aren't there")
    group, member, members, version = map(int, taken(r"group (\d+) member (\d+) of (\d+) version ([12])", lines[1]))
    made, op = taken(r"made (\S{20})", lines[2])[0], int(taken(r"op (\d+)", lines[3])[0])
    count, above = map(int, taken(r"keys (\d+) uncommitted (\d+)", lines[4]))
    if len(lines) != 5 + count + above or count > datafile.KEYS:
        raise Damaged("it has other lines than its fifth one says")
    keys = {key: value for key, value in (taken(f"key {KEY} {VALUE}", line) for line in lines[5:5 + count])}
    return Backup(group, member, members, version, made, op, keys, [read_change(line) for line in lines[5 + count:]])


def read_text(path: str) -> Backup:
    """The backup in a file."""
    with open(path, "rb") as file:
        text = file.read(MOST_BYTES + 1)
    if len(text) > MOST_BYTES:
        raise Damaged(f"it is no backup: it has more than {MOST_BYTES} bytes")
    return read(text)


def write(path: str, text: bytes) -> None:
    """Writes a text to a path, for its owner alone, so that the old file or the new one is there, whole, at each moment."""
    beside = f"{path}.{os.getpid()}.new"
    try:
        with open(os.open(beside, os.O_WRONLY | os.O_CREAT | os.O_EXCL, 0o600), "wb") as file:
            file.write(text)
            file.flush()
            os.fsync(file.fileno())
        os.replace(beside, path)
    finally:
        if os.path.lexists(beside):
            os.unlink(beside)
    folder = os.open(os.path.dirname(os.path.abspath(path)), os.O_RDONLY)
    try:
        os.fsync(folder)
    finally:
        os.close(folder)


def keys_after(backup: Backup, with_above: bool) -> Dict[str, Optional[str]]:
    """The values that a backup is restored to: those at its operation, or those after what stands above it, None for a key that this deletes."""
    keys: Dict[str, Optional[str]] = dict(backup.keys)
    for _, change in backup.above if with_above else []:
        keys[change[1]] = change[2] if change[0] == "put" else None
    return keys
