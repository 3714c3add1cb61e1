"""Reads the data file of a member, by docs/FORMATS.md alone, and tells what it holds and what of it is damaged. It asks nobody and changes nothing."""

import hashlib
import os
import struct
import time
from typing import BinaryIO, Dict, Iterator, List, NamedTuple, Optional, Sequence, Set, Tuple

from . import whole

SECTOR, COPY, BLOCK = 512, 10240, 4096
HEADERS, SECTORS = 80, 3984
# The first sector of the grid's first addresses, how many these are, and the first sector of the others; how many addresses there are.
GRID, NEAR, FAR_GRID, BLOCKS = 400, 128, 1936, 384
SLOTS = 64
# By the version of the file, where the prepares begin and how many sectors each has; by that of an entry, the most bytes of its body and of a value.
PREPARES, PREPARE_SECTORS = {1: 144, 2: 1424}, {1: 4, 2: 8}
BODY, VALUE = {1: 1920, 2: 3968}, {1: 1024, 2: 3000}
FEWEST_MEMBERS = {1: 2, 2: 1}
SESSIONS = {1: 32, 2: 64}  # that are kept, by the version
KEYS = 128  # that are kept
# The payloads of sessions and of keys that a root may name.
MOST_PAYLOADS = 49, 99
ENTRY, DATA_BLOCK, ROOT_BLOCK, BLOCK_COMMAND = 3, 2, 3, 17
PAYLOAD = BLOCK - 128
FIELDS = struct.Struct(">16x16s32xQ8xIIQQIBBBBQ8x")  # those of a header that are read
VISIBLE = bytes(range(33, 127))  # each byte of a key and of a value
TRIES = 3
PAUSE = 0.3  # seconds from one look at a file to the next


def name(data: bytes) -> bytes:
    return hashlib.sha256(data).digest()[:16]


def is_zero(data: bytes) -> bool:
    return data.count(0) == len(data)


def number(data: bytes, at: int, size: int) -> int:
    return int.from_bytes(data[at:at + size], "big")


class Header:
    """A header's bytes and fields."""

    body: bytes  # its name
    cluster: int
    request: int
    view: int
    op: int
    commit: int
    size: int
    command: int
    replica: int
    version: int
    kind: int
    aux: int

    def __init__(self, data: bytes) -> None:
        self.bytes = data[:128]
        (self.body, self.cluster, self.request, self.view, self.op, self.commit, self.size, self.command, self.replica, self.version, self.kind,
         self.aux) = FIELDS.unpack(self.bytes)

    def is_entry(self) -> bool:
        bare = self.commit == 0 and self.replica == 0 and self.kind == 0 and self.aux == 0
        sized = 128 < self.size <= 128 + BODY[self.version]
        return bare and self.command == ENTRY and sized and self.view < 2**32 - 1 and 1 <= self.op <= 2**62


def header_of(data: bytes) -> Optional[Header]:
    """The header at the front of these bytes, None where none is."""
    good = len(data) >= 128 and name(data[16:128]) == data[:16] and 1 <= data[108] <= 19 and data[110] in (1, 2)
    return Header(data) if good and 128 <= number(data, 104, 4) <= 20480 and is_zero(data[120:128]) else None


def is_text(data: bytes, most: int) -> bool:
    return 1 <= len(data) <= most and not data.translate(None, VISIBLE)


def is_operation(data: bytes, version: int) -> bool:
    """Whether these bytes are an operation of this version: register, put, get, delete."""
    if data[:1] == b"\1":
        return len(data) == 1
    if data[:1] == b"\2" and len(data) >= 4:
        key, value = data[4:4 + data[1]], data[4 + data[1]:]
        return len(key) == data[1] and len(value) == number(data, 2, 2) and is_text(key, 64) and is_text(value, VALUE[version])
    return data[:1] in (b"\3", b"\4") and len(data) >= 2 and len(data) == 2 + data[1] and is_text(data[2:], 64)


def entry_of(data: bytes) -> Optional[Header]:
    """The header of the entry that a prepare reads as, None where it is no whole one."""
    header = header_of(data)
    if header is None or not header.is_entry() or not is_zero(data[header.size:]):
        return None
    body = data[128:header.size]
    whole = name(body) == header.body and is_operation(body, header.version) and (body == b"\1") == (header.request == 0)
    return header if whole else None


class Value:
    """What a good copy of the superblock holds."""

    def __init__(self, data: bytes, headers: Sequence[Header]) -> None:
        self.sequence, self.cluster = number(data, 16, 8), number(data, 24, 8)
        self.view, self.log_view = number(data, 32, 4), number(data, 36, 4)
        self.checkpoint, self.root, self.root_name = number(data, 40, 8), number(data, 48, 8), data[56:72]
        self.commit, self.head, self.replica, self.members = number(data, 72, 8), number(data, 80, 8), data[90], data[91]
        self.version, self.mode = data[92], "careful" if data[93] else "strict"
        self.headers = {header.op: header for header in headers}

    def whose(self) -> str:
        return f"member {self.replica} of {self.members} of group {self.cluster}"

    def __str__(self) -> str:
        return f"sequence {self.sequence} view {self.view} log_view {self.log_view} checkpoint {self.checkpoint} commit {self.commit} head {self.head}"


def has_good_numbers(data: bytes) -> bool:
    view, log_view, checkpoint = number(data, 32, 4), number(data, 36, 4), number(data, 40, 8)
    commit, head, count = number(data, 72, 8), number(data, 80, 8), number(data, 88, 2)
    kind = data[92] in (1, 2) and data[93] <= 1 and is_zero(data[94:128])
    member = kind and data[90] < data[91] and FEWEST_MEMBERS[data[92]] <= data[91] <= 6
    window = log_view <= view and log_view < 2**32 - 1 and checkpoint % 32 == 0 and checkpoint <= commit <= head <= min(checkpoint + 64, 2**62)
    root = number(data, 48, 8) < 128 and (checkpoint > 0 or is_zero(data[48:72]))
    return member and window and root and max(head - checkpoint, min(head, 1)) <= count <= min(head, 64)


def value_of(data: bytes) -> Optional[Value]:
    """The value of a copy, None where it isn't good."""
    if len(data) < COPY or name(data[16:]) != data[:16] or not has_good_numbers(data):
        return None
    count, head = number(data, 88, 2), number(data, 80, 8)
    headers: List[Header] = []
    for i in range(count):
        header = header_of(data[128 + 128 * i:256 + 128 * i])
        if header is None or not header.is_entry() or header.op != head - count + 1 + i:
            return None
        if header.version > data[92] or header.cluster != number(data, 24, 8) or header.view > number(data, 36, 4):
            return None
        headers.append(header)
    return Value(data, headers) if is_zero(data[128 + 128 * count:COPY]) else None


class Superblock:
    """The four copies, and the value that the file opens as: the one of the greatest sequence on which two good copies agree."""

    def __init__(self, data: bytes) -> None:
        copies = [data[i * COPY:(i + 1) * COPY] for i in range(4)]
        values = {copy: value_of(copy) for copy in set(copies)}
        self.values = [values[copy] for copy in copies]
        agreed = {i: value for i, value in enumerate(self.values) if value is not None and copies.count(copies[i]) >= 2}
        best = max(agreed, key=lambda i: (agreed[i].sequence, -i), default=None)
        self.value = None if best is None else agreed[best]
        self.opens = [best is not None and copy == copies[best] for copy in copies]

    def lines(self) -> Iterator[str]:
        for i, value in enumerate(self.values):
            yield f"superblock copy {i}: {value or 'damaged'}{', opens' if self.opens[i] else ''}"


class Slots:
    """What an opening finds of each op of the window above the checkpoint, and of those up to it that the superblock names."""

    def __init__(self, data: bytes, value: Value) -> None:
        self.value = value
        self.found: Dict[str, List[int]] = {kind: [] for kind in ("here", "lost", "wanted", "unknown", "nothing", "headless")}
        for op in range(value.checkpoint + 1, value.checkpoint + SLOTS + 1):
            self.find(op, *self.reads(data, op))
        known = max(self.found["here"] + self.found["lost"], default=0)
        self.found["unknown"] += [op for op in self.found["nothing"] if value.head < op < known]
        # One slot has two operations: what it holds of the later one was told above.
        taken = {op - SLOTS for kind in ("here", "lost", "unknown") for op in self.found[kind]}
        old = [header for op, header in value.headers.items() if op <= value.checkpoint and op not in taken]
        self.old_lost = [header.op for header in old if not self.holds(data, header)]

    def reads(self, data: bytes, op: int) -> Tuple[Optional[Header], Optional[Header], bool]:
        """The valid header of the op's header sector, the header of its whole prepare, and whether the prepare is torn."""
        k = op % SLOTS
        sector = data[(HEADERS + k) * SECTOR:(HEADERS + k + 1) * SECTOR]
        count = PREPARE_SECTORS[self.value.version]
        first = PREPARES[self.value.version] + count * k
        prepare = data[first * SECTOR:(first + count) * SECTOR]
        header = header_of(sector) if is_zero(sector[128:]) else None
        entry = entry_of(prepare)
        return header, entry, entry is None and not is_zero(prepare)

    def holds(self, data: bytes, header: Header) -> bool:
        entry = self.reads(data, header.op)[1]
        return entry is not None and entry.bytes == header.bytes

    def fitting(self, op: int, header: Optional[Header]) -> Optional[Header]:
        """A header, where it may be that of an op: the one that the superblock names, or above its head one of its log view."""
        if header is None or not header.is_entry() or header.version > self.value.version:
            return None
        if header.cluster != self.value.cluster or header.op != op:
            return None
        if op > self.value.head:
            return header if header.view == self.value.log_view else None
        named = self.value.headers.get(op)
        return header if named is not None and header.bytes == named.bytes else None

    def find(self, op: int, header: Optional[Header], entry: Optional[Header], is_torn: bool) -> None:
        is_named, told, stored = op <= self.value.head, self.fitting(op, header), self.fitting(op, entry)
        denies = header is not None and not (is_torn and self.value.mode == "careful")
        if stored is not None and (told is None or told.bytes == stored.bytes):
            self.found["here"].append(op)
            self.found["headless"] += [op] if header is None else []
        elif told is not None:
            self.found["lost"].append(op)
        elif denies:
            self.found["wanted" if is_named else "nothing"].append(op)
        else:
            self.found["lost" if is_named else "unknown"].append(op)

    def head(self) -> int:
        return max(self.found["here"] + self.found["lost"] + [self.value.head])

    def line(self) -> str:
        told = "; ".join(f"{kind} {ranges(self.found[kind])}" for kind in ("here", "lost", "wanted", "unknown"))
        headless = f"; here with a damaged header sector {ranges(self.found['headless'])}" if self.found["headless"] else ""
        old = f"; lost up to the checkpoint {ranges(self.old_lost)}" if self.old_lost else ""
        return f"operations above the checkpoint: {told}{headless}{old}"


def block_at(data: bytes, address: int) -> bytes:
    """The bytes of the block at an address, none where the grid hasn't that."""
    at = GRID * SECTOR + BLOCK * address if address < NEAR else FAR_GRID * SECTOR + BLOCK * (address - NEAR)
    return data[at:at + BLOCK] if address < BLOCKS else b""


def payload_of(data: bytes, address: int, wanted: bytes, kind: int, op: Optional[int] = None) -> Optional[bytes]:
    """The payload of the block under a name, None where it is faulty."""
    block = block_at(data, address)
    header = header_of(block)
    if header is None or header.bytes[:16] != wanted or header.command != BLOCK_COMMAND or header.kind != kind or header.version != 1:
        return None
    if header.aux != address or op not in (None, header.op) or not is_zero(block[header.size:]):
        return None
    payload = block[128:header.size]
    return payload if name(payload) == header.body else None


def readable(text: Optional[bytes], what: str) -> bytes:
    """A text of a checkpoint; ValueError where it can't be read."""
    if text is None:
        raise ValueError(f"the {what} of the checkpoint can't be read")
    return text


class Checkpoint:
    """The two texts of the checkpoint's state, None where a block of one is faulty, with its blocks."""

    def __init__(self, data: bytes, value: Value) -> None:
        self.op = value.checkpoint
        self.used: List[int] = []
        self.faulty: List[int] = []
        self.sessions: Optional[bytes] = b"\0\0"
        self.keys: Optional[bytes] = b"\0\0"
        if self.op:
            self.load(data, value)

    def load(self, data: bytes, value: Value) -> None:
        self.used.append(value.root)
        self.sessions = self.keys = None
        root = payload_of(data, value.root, value.root_name, ROOT_BLOCK, self.op)
        if root is None or len(root) < 18:
            self.faulty.append(value.root)
            return
        lengths = number(root, 8, 4), number(root, 12, 4)
        counts = [-(-length // PAYLOAD) for length in lengths]
        if counts[0] > MOST_PAYLOADS[0] or counts[1] > MOST_PAYLOADS[1] or sum(counts) != number(root, 16, 2) or len(root) != 18 + 24 * sum(counts):
            self.faulty.append(value.root)
            return
        names = [(number(root, at, 8), root[at + 8:at + 24]) for at in range(18, len(root), 24)]
        self.sessions = self.text(data, names[:counts[0]], lengths[0])
        self.keys = self.text(data, names[counts[0]:], lengths[1])

    def text(self, data: bytes, names: Sequence[Tuple[int, bytes]], length: int) -> Optional[bytes]:
        pieces: List[bytes] = []
        for address, wanted in names:
            piece = payload_of(data, address, wanted, DATA_BLOCK)
            self.used.append(address)
            if piece is None:
                self.faulty.append(address)
            else:
                pieces.append(piece)
        return b"".join(pieces) if len(pieces) == len(names) and sum(map(len, pieces)) == length else None

    def pairs(self) -> Iterator[Tuple[str, str]]:
        """The keys with their values; ValueError where they can't be read."""
        text, at = readable(self.keys, "keys"), 2
        for _ in range(number(text, 0, 2)):
            key, value = text[at], number(text, at + 1, 2)
            yield text[at + 3:at + 3 + key].decode(), text[at + 3 + key:at + 3 + key + value].decode()
            at += 3 + key + value

    def clients(self) -> Dict[int, Tuple[int, int]]:
        """The clients that have a session, each with the number of its last request and the operation that executed it; ValueError where they can't be read."""
        text, found, at = readable(self.sessions, "sessions"), {}, 2
        for _ in range(number(text, 0, 2)):
            found[number(text, at, 8)] = number(text, at + 8, 4), number(text, at + 12, 8)
            at += 21 + (2 + number(text, at + 21, 2) if text[at + 20] == 5 else 0)
        return found

    def line(self) -> str:
        def count(text: Optional[bytes], what: str) -> str:
            return f"{what} can't be read" if text is None else f"{number(text, 0, 2)} {what}"
        return f"checkpoint {self.op}: {len(self.used)} blocks, faulty {ranges(self.faulty)}; {count(self.sessions, 'sessions')}, {count(self.keys, 'keys')}"


def ranges(numbers: Sequence[int]) -> str:
    runs: List[List[int]] = []
    for n in sorted(numbers):
        if runs and runs[-1][1] == n - 1:
            runs[-1][1] = n
        else:
            runs.append([n, n])
    return " ".join(f"{low}" if low == high else f"{low}-{high}" for low, high in runs) or "none"


def read_sectors(file: BinaryIO) -> Tuple[bytes, int]:
    """The file's bytes, and how many sectors can't be read; these are no sectors of anything."""
    try:
        return os.pread(file.fileno(), SECTORS * SECTOR, 0), 0
    except OSError:
        pieces, unread = [], 0
    for i in range(SECTORS):
        try:
            pieces.append(os.pread(file.fileno(), SECTOR, i * SECTOR))
        except OSError:
            pieces.append(b"\xff" * SECTOR)
            unread += 1
    return b"".join(pieces), unread


class Places(NamedTuple):
    """The damaged places of a file, by what becomes of them while its member runs; each is what it is of, and its number there."""

    mended: Set[Tuple[str, int]]  # the member writes them anew, with what the others give it or it has itself
    unsure: Set[Tuple[str, int]]  # slots of which the file can't tell whether they held an operation: each waits until a further operation is written there
    idle: Set[Tuple[str, int]]  # nothing stands on them: operations that the checkpoint holds

    def __and__(self, other: "Places") -> "Places":
        return Places(*(mine & others for mine, others in zip(self, other)))

    def total(self) -> int:
        return sum(map(len, self))


def whole_line(facts: whole.Facts) -> str:
    """What a whole quorum needs of a file."""
    header = "" if facts.checkpoint == 0 else ", whose header is known" if facts.anchored else ", whose header isn't known"
    return (f"for a whole quorum: checkpoint {facts.checkpoint}{header}; blocks that can't be read: {facts.missing}; above it lost {ranges(facts.lost)}, unknown {ranges(facts.unknown)}; "
            f"the last operation whose header is known is {facts.last} of at most {facts.checkpoint + SLOTS}")


class Report:
    """What was found in a file. Slots and checkpoint are there where it is a member's, and so has a value."""

    slots: Slots
    checkpoint: Checkpoint

    def __init__(self, path: str) -> None:
        with open(path, "rb") as file:
            (data, self.unread), stat = read_sectors(file), os.fstat(file.fileno())
        self.path, self.length, self.blocks, self.age = path, stat.st_size, stat.st_blocks, max(0, int(time.time() - stat.st_mtime))
        self.superblock = Superblock(data)
        self.value = self.superblock.value
        self.places, self.missing = Places(set(), set(), set()), 0  # blocks of the checkpoint that can't be read
        if self.value:
            self.slots, self.checkpoint = Slots(data, self.value), Checkpoint(data, self.value)
            self.places, self.missing = self.find_places(), len(set(self.checkpoint.faulty))

    def find_places(self) -> Places:
        found = self.slots.found
        copies = {("copy", i) for i, value in enumerate(self.superblock.values) if value is None}
        blocks = {("block", address) for address in self.checkpoint.faulty}
        entries = {("operation", op) for op in found["lost"] + found["headless"]}
        return Places(copies | blocks | entries, {("operation", op) for op in found["unknown"]}, {("operation", op) for op in self.slots.old_lost})

    def facts(self) -> Optional[whole.Facts]:
        """What a whole quorum needs of it; None where it is no member's. What is damaged is what was found so at each look."""
        return None if self.value is None else self.facts_of(self.value)

    def facts_of(self, value: Value) -> whole.Facts:
        found, damaged = self.slots.found, self.places.mended | self.places.unsure
        lost, unknown = (tuple(op for op in sorted(found[kind]) if ("operation", op) in damaged) for kind in ("lost", "unknown"))
        last = max(found["here"] + found["lost"] + found["wanted"], default=value.checkpoint)
        return whole.Facts(value.checkpoint, value.checkpoint == 0 or value.checkpoint in value.headers, self.missing, lost, unknown, last)

    def damaged(self) -> int:
        """How many places are damaged; of a file that is no member's, more than there are."""
        return SECTORS if self.value is None else self.places.total()

    def as_json(self) -> Dict[str, object]:
        """What a script needs of it; nothing but the path where it is no member's."""
        if self.value is None:
            return {"file": self.path}
        value, checkpoint = self.value, self.checkpoint
        return {
            "file": self.path, "group": value.cluster, "member": value.replica, "members": value.members, "version": value.version, "mode": value.mode,
            "view": value.view, "commit": value.commit, "head": self.slots.head(), "checkpoint": value.checkpoint,
            "keys": None if checkpoint.keys is None else number(checkpoint.keys, 0, 2), "sessions": None if checkpoint.sessions is None else number(checkpoint.sessions, 0, 2),
            "places": {kind: sorted(found) for kind, found in self.places._asdict().items()}, "whole": self.facts_of(value)._asdict(),
        }

    def health(self) -> str:
        if self.value is None:
            return f"{self.path}: no member"
        kinds = f" (mended {len(self.places.mended)}, unsure {len(self.places.unsure)}, idle {len(self.places.idle)})" if self.damaged() else ""
        return (f"{self.value.whose()}: view {self.value.view} commit {self.value.commit} head {self.slots.head()} checkpoint {self.value.checkpoint} "
                f"damaged {self.damaged()}{kinds} written {self.age} s ago")

    def damage_lines(self, members: int) -> Iterator[str]:
        """How many places are damaged, and what becomes of them while the member runs."""
        yield f"damaged places: {self.damaged()}"
        others = "the member" if members == 1 else "the member, which asks the others for what it hasn't itself"
        for places, text in ((self.places.mended, f"mended by {others}, while it runs"),
                             (self.places.unsure, "unsure until a further operation is written to each, which 64 further operations of the group are enough for; until then "
                                                  "the member can't deny what may have stood there, and a choice may have to wait for another member"),
                             (self.places.idle, "idle: nothing stands on what was there, since the checkpoint holds it; written anew by further operations")):
            if places:
                yield f"  {len(places)} {text}: {', '.join(' '.join(map(str, place)) for place in sorted(places))}"

    def lines(self) -> List[str]:
        holes = "" if self.blocks >= SECTORS else f", of which {self.blocks} of {SECTORS} sectors have room on the disk"
        unread = f", {self.unread} sectors can't be read" if self.unread else ""
        size = f"{self.length} bytes{holes}{unread}, written {self.age} s ago"
        if self.value is None:
            return [f"{self.path}: no member: no two good copies of the superblock agree; {size}", *self.superblock.lines()]
        return [f"{self.value.whose()}, a {self.value.mode} file of version {self.value.version}; {size}", *self.superblock.lines(), self.slots.line(), self.checkpoint.line(),
                whole_line(self.facts_of(self.value)), *self.damage_lines(self.value.members), "These are the numbers that were saved last; the member may know more."]


def look(path: str) -> Report:
    """The report on a file. Where there is damage it looks again: a member may be writing there. Only what is damaged at each look is damage. Of blocks
    as many are missing as at the best look: under load it may be of other checkpoints that they are."""
    report = Report(path)
    for _ in range(TRIES - 1):
        if report.damaged() == 0 and report.missing == 0:
            break
        time.sleep(PAUSE)
        before, report = report, Report(path)
        report.places, report.missing = report.places & before.places, min(report.missing, before.missing)
    return report
