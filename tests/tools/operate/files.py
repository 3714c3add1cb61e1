"""A member's file as the program makes it, spelled by docs/FORMATS.md: of version 1, strict, with nothing in its log."""

from nozhgiva_tools.told.datafile import COPY, HEADERS, name, SECTOR, SECTORS, SLOTS


def named(rest: bytes) -> bytes:
    return name(rest) + rest


def superblock(cluster: int, replica: int, members: int, sequence: int = 1) -> bytes:
    """One copy."""
    fields = sequence.to_bytes(8, "big") + cluster.to_bytes(8, "big") + bytes(58) + bytes([replica, members, 1, 0])
    return named(fields + bytes(COPY - 16 - len(fields)))


def empty_slot() -> bytes:
    """A header sector that says that nothing is there."""
    header = named(bytes(88) + (128).to_bytes(4, "big") + bytes([1, 0, 1]) + bytes(17))
    return header + bytes(SECTOR - len(header))


def fresh(cluster: int, replica: int, members: int, sequence: int = 1) -> bytes:
    front = 4 * superblock(cluster, replica, members, sequence)
    data = front + bytes(HEADERS * SECTOR - len(front)) + SLOTS * empty_slot()
    return data + bytes(SECTORS * SECTOR - len(data))
