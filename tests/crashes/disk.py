"""A disk that may lose power: what it has of a file for sure, what was written since the last sync, and the states that a crash may leave."""

import copy
import random
from typing import Dict, Iterator, List, NamedTuple, Optional, Tuple, Union

from .recording import Call, SECTOR

TURNED = bytes(255 - byte for byte in range(256))
# Of how many sectors is what a disk writes as one: of one, as docs/NODE.md has it; of eight, as the page cache hands out, and many disks write.
SECTORS_ALONE, PAGES = 1, 8
# A crash point with more sectors than this has its sectors alone tried by sample.
MANY = 40
Bytes = Union[bytes, bytearray]
KINDS = ("old", "new", "damaged", "torn")


class State(NamedTuple):
    """What a crash may leave: the file's bytes, None where there is no file; in words, which of the states of its point it is; and whether sectors were
    damaged that were synced before."""

    image: Optional[Bytes]
    what: str
    is_spoiled: bool = False


class Disk:
    """A disk with one file. Where `lag` isn't 0 it lies: what a sync confirms may still be lost until so many further syncs were made."""

    def __init__(self, image: Optional[bytes] = None, lag: int = 0) -> None:
        self.sure = bytearray(image or b"")
        self.is_named, self.is_made = image is not None, image is not None
        self.lag = lag
        # What was written since each of the last syncs, by sector, and the lengths that the file was given.
        self.batches: List[Dict[int, List[bytes]]] = [{}]
        self.lengths: List[int] = []

    def copy(self, lag: int) -> "Disk":
        """A disk that has the same now, and lies by so many syncs from here on."""
        other = Disk(bytes(self.sure), lag)
        other.is_named, other.is_made = self.is_named, self.is_made
        other.batches, other.lengths = copy.deepcopy(self.batches), list(self.lengths)
        return other

    def take(self, call: Call) -> None:
        if call.kind == "make":
            self.is_made = True
        elif call.kind == "write":
            if self.holds(call.at) != call.data:
                self.batches[-1].setdefault(call.at, []).append(call.data)
        elif call.kind == "length":
            self.lengths.append(call.at)
        elif call.kind == "sync":
            self.sync()
        elif call.kind == "folder":
            self.is_named = self.is_made
        elif call.kind == "damage":
            self.damage(call.at, call.data)
        elif call.kind == "cut":
            del self.sure[call.at:]
            self.batches, self.lengths = [{}], []

    def holds(self, sector: int) -> bytes:
        """What a sector holds now. A write of a whole page gives most of its sectors the bytes that they have: these stay as they are, as docs/NODE.md has it."""
        for batch in reversed(self.batches):
            if sector in batch:
                return batch[sector][-1]
        return bytes(self.sure[sector * SECTOR:(sector + 1) * SECTOR])

    def sync(self) -> None:
        self.batches.append({})
        while len(self.batches) > self.lag + 1:
            for sector, versions in self.batches.pop(0).items():
                self.put(sector, versions[-1])
        if self.lengths:
            self.sure.extend(bytes(max(0, self.lengths[-1] - len(self.sure))))
        self.lengths = []

    def put(self, sector: int, data: bytes) -> None:
        place = sector * SECTOR
        self.sure.extend(bytes(max(0, place + SECTOR - len(self.sure))))
        self.sure[place:place + SECTOR] = data

    def damage(self, sector: int, data: bytes) -> None:
        for batch in self.batches:
            batch.pop(sector, None)
        self.put(sector, data)

    def unsure(self) -> Dict[int, List[bytes]]:
        """Of each sector that isn't synced, what was written to it, in order."""
        found: Dict[int, List[bytes]] = {}
        for batch in self.batches:
            for sector, versions in batch.items():
                found.setdefault(sector, []).extend(versions)
        return found

    def states(self, draw: random.Random, unit: int = SECTORS_ALONE) -> Iterator[State]:
        """States that a crash may leave here, without end: first those in which sectors stand alone, then random ones. The disk writes so many sectors as
        one: with a page that is damaged go those of its sectors that were synced long ago."""
        unsure = self.unsure()
        if not self.is_named:
            yield State(None, "no file")
        for what, kinds in patterns(sorted({sector // unit for sector in unsure}), draw):
            image = bytearray(self.sure)
            longest = max([len(image), *self.lengths, *((sector + 1) * SECTOR for sector in unsure)])
            length = longest if longest == len(image) or draw.random() < 0.3 else draw.randrange(len(image), longest + 1)
            image.extend(bytes(longest - len(image)))
            if unit == SECTORS_ALONE:
                leave_sectors(image, kinds, unsure, draw)
            else:
                leave_pages(image, kinds, unsure, unit)
                what = what.replace("sector", "page")
            cut = f", {length} bytes long" if length < longest else ""
            del image[length:]
            yield State(image, what + cut, unit != SECTORS_ALONE and not {"damaged", "torn"}.isdisjoint(kinds.values()))


def leave_sectors(image: bytearray, kinds: Dict[int, str], unsure: Dict[int, List[bytes]], draw: random.Random) -> None:
    for sector, kind in kinds.items():
        place = sector * SECTOR
        image[place:place + SECTOR] = spoiled(kind, bytes(image[place:place + SECTOR]), unsure[sector], draw)


def leave_pages(image: bytearray, kinds: Dict[int, str], unsure: Dict[int, List[bytes]], unit: int) -> None:
    """Each page as it was, as it was last written, or damaged as a whole: what is half written doesn't read."""
    for page, kind in kinds.items():
        if kind == "old":
            continue
        first, end = page * unit, min((page + 1) * unit, len(image) // SECTOR)
        for sector in range(first, end):
            if sector in unsure:
                image[sector * SECTOR:(sector + 1) * SECTOR] = unsure[sector][-1]
        if kind != "new":
            image[first * SECTOR:end * SECTOR] = image[first * SECTOR:end * SECTOR].translate(TURNED)


def spoiled(kind: str, old: bytes, versions: List[bytes], draw: random.Random) -> bytes:
    """What a sector holds that wasn't synced."""
    new = versions[-1] if len(versions) == 1 or draw.random() < 0.5 else draw.choice(versions)
    if kind == "new":
        return new
    if kind == "damaged":
        return new.translate(TURNED)
    if kind == "torn":
        at = draw.randrange(1, SECTOR)
        return new[:at] + old[at:] if draw.random() < 0.5 else old[:at] + new[at:]
    return old


def patterns(sectors: List[int], draw: random.Random) -> Iterator[Tuple[str, Dict[int, str]]]:
    """Ways in which unsynced sectors may be left, each with its words; a sector that isn't named is as it was."""
    yield "none of the unsynced sectors", {}
    if not sectors:
        return
    yield "all of the unsynced sectors", dict.fromkeys(sectors, "new")
    alone = alone_patterns(sectors if len(sectors) <= MANY else sorted(draw.sample(sectors, MANY)), sectors)
    draw.shuffle(alone)
    yield from alone
    while True:
        share = draw.choice((0.1, 0.5, 0.9))
        weights = draw.choice(((0, 1, 0, 0), (0, 8, 1, 1), (0, 2, 1, 1)))
        kinds = {sector: draw.choices(KINDS, weights)[0] for sector in sectors if draw.random() < share}
        yield f"a random part of the {len(sectors)} unsynced sectors", kinds


def alone_patterns(some: List[int], sectors: List[int]) -> List[Tuple[str, Dict[int, str]]]:
    """Each sector alone, each missing alone, each spoiled alone, and each front of them."""
    found: List[Tuple[str, Dict[int, str]]] = []
    for sector in some:
        front = {it: "new" for it in sectors if it < sector}
        others = {it: "new" for it in sectors if it != sector}
        found += [(f"sector {sector} alone", {sector: "new"}), (f"all but sector {sector}", others)]
        found += [(f"the sectors before {sector}", front), (f"the sectors before {sector}, and that one torn", {**front, sector: "torn"})]
        found += [(f"all, and sector {sector} {kind}", {**others, sector: kind}) for kind in ("damaged", "torn")]
    return found
