"""Damage on top of a crash, and faults that are planted to see that they are found. Damage stays within what docs/NODE.md allows of a disk: the
superblock opens as what it opened as, and nothing reads as it was before; a sector reads as what it should hold with every bit turned."""

import random
from typing import List, Optional

from .disk import Bytes, TURNED
from .reading import datafile
from .recording import SECTOR

PAGE = 4096
PAGES = 8


def turned(image: Bytes, sectors: List[int]) -> bytes:
    changed = bytearray(image)
    for sector in sectors:
        changed[sector * SECTOR:(sector + 1) * SECTOR] = image[sector * SECTOR:(sector + 1) * SECTOR].translate(TURNED)
    return bytes(changed)


def draw_sectors(value: datafile.Value, used: List[int], draw: random.Random) -> List[int]:
    """Sectors of a copy of the superblock, header sectors, prepares, both of some slots, or blocks of the checkpoint."""
    what = draw.choice(("a copy", "headers", "prepares", "both", "blocks") if used else ("a copy", "headers", "prepares", "both"))
    if what == "a copy":
        return [20 * draw.randrange(4) + draw.randrange(20)]
    if what == "blocks":
        addresses = draw.sample(used, min(len(used), draw.choice((1, 1, 2, 4))))
        firsts = [datafile.GRID + 8 * it if it < datafile.NEAR else datafile.FAR_GRID + 8 * (it - datafile.NEAR) for it in addresses]
        return [first + draw.randrange(8) for first in firsts]
    slots = draw.sample(range(datafile.SLOTS), draw.choice((1, 1, 2, 5)))
    sectors = [datafile.HEADERS + slot for slot in slots] if what != "prepares" else []
    count = datafile.PREPARE_SECTORS[value.version]
    if what != "headers":
        sectors += [datafile.PREPARES[value.version] + count * slot for slot in slots]
    return sectors


def on_top(image: Bytes, report: datafile.Report, draw: random.Random) -> Optional[bytes]:
    """The file with damage; None where it holds no member, or its superblock would open as something else."""
    if report.value is None:
        return None
    changed = turned(image, draw_sectors(report.value, report.checkpoint.used, draw))
    value = datafile.Superblock(changed).value
    kept = value is not None and str(value) == str(report.value)
    return changed if kept else None


def swap_pages(image: Bytes, report: datafile.Report, draw: random.Random) -> Optional[bytes]:
    """The file with two pages swapped in which the prepares of operations above its checkpoint stand; None where there aren't two."""
    value = report.value
    if value is None:
        return None
    count = datafile.PREPARE_SECTORS[value.version]
    firsts = [(datafile.PREPARES[value.version] + count * (op % datafile.SLOTS)) // PAGES for op in report.slots.found["here"]]
    pages = sorted(set(firsts))
    if len(pages) < 2:
        return None
    one, other = (page * PAGE for page in sorted(draw.sample(pages, 2)))
    return image[:one] + image[other:other + PAGE] + image[one + PAGE:other] + image[one:one + PAGE] + image[other + PAGE:]


class PutBack:
    """Puts back the superblock that the file had earlier."""

    def __init__(self, older: bytes) -> None:
        self.older = older

    def __call__(self, image: Bytes, report: datafile.Report, draw: random.Random) -> Optional[bytes]:
        return self.older + image[len(self.older):]
