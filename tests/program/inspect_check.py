"""Tries operate/inspect on data files that the program made: that of a new member, and one after a register and 100 puts; and on copies of that one,
each damaged in another way. What it has to tell follows from docs/FORMATS.md and from where the damage is. Of the same file as one of version 2, which
the program doesn't make, it has to tell the same.
  ./nozhgiva test inspect"""

import hashlib
import pathlib
import subprocess
import tempfile
import time
from typing import List, Tuple

from nozhgiva_tools.places import TOP
from nozhgiva_tools.run.group import Group
from nozhgiva_tools.run.scripts import end as end_script, fail, no_words

PUTS, KEYS, CHECKPOINT = 100, 50, 96
LAST = PUTS + 1
COPY = 10240
HEADER_SECTOR, PREPARE = (80 + LAST % 64) * 512, (144 + 4 * (LAST % 64)) * 512


def block(address: int) -> int:
    return (400 + 8 * address) * 512


def damage_rows(file: bytes, mode: str) -> List[Tuple[str, List[int], str, int]]:
    """What is damaged, at which bytes; what has to be told of it, and how many damaged places."""
    head = int.from_bytes(file[80:88], "big")
    both = f"lost {LAST}; wanted none; unknown none" if LAST <= head else f"lost none; wanted none; unknown {LAST}"
    # Beside an older header that stands, a strict file says that nothing newer was there, a careful one doesn't know.
    older = f"unknown none; lost up to the checkpoint {LAST - 63}" if mode == "strict" else f"unknown {LAST + 1}"
    return [
        ("a copy of the superblock", [5], "superblock copy 0: damaged", 1),
        ("two copies", [COPY + 200, 3 * COPY], "superblock copy 3: damaged", 2),
        ("the prepare of the last operation", [PREPARE + 300], f"lost {LAST}; wanted none; unknown none", 1),
        ("its header sector", [HEADER_SECTOR + 500], f"unknown none; here with a damaged header sector {LAST}", 1),
        ("both", [HEADER_SECTOR, PREPARE], both, 1),
        ("the prepare of an older operation", [PREPARE + 2048], older, 1),
        ("the root", [block(64) + 140], "1 blocks, faulty 64; sessions can't be read, keys can't be read", 1),
        ("the first block of the keys, in both its places", [block(10) + 4000, block(74) + 4000], "1 sessions, keys can't be read", 1),
        ("a block that the checkpoint doesn't name", [block(127)], "damaged places: 0", 0),
    ]


def inspect(path: str, *how: str) -> Tuple[int, str]:
    ran = subprocess.run([f"{TOP}/operate/inspect", path, *how], capture_output=True, text=True)
    return ran.returncode, ran.stdout


def expect(what: str, found: Tuple[int, str], status: int, *words: str) -> None:
    if found[0] != status or any(word not in found[1] for word in words):
        fail(f"{what}: status {found[0]} where {status} is right, and {words} in:\n{found[1]}")


def try_file(folder: str, what: str, data: bytes, words: str, damaged: int) -> None:
    path = f"{folder}/file"
    pathlib.Path(path).write_bytes(data)
    expect(what, inspect(path), 0, words, f"damaged places: {damaged}")
    expect(what, inspect(path, "health"), 0 if damaged == 0 else 1, f" damaged {damaged} ")
    print(f"{what}: told")


def try_lost(folder: str, what: str, data: bytes) -> None:
    path = f"{folder}/file"
    pathlib.Path(path).write_bytes(data)
    expect(what, inspect(path), 1, "no member")
    expect(what, inspect(path, "health"), 1, "no member")
    print(f"{what}: told")


def flipped(file: bytes, places: List[int]) -> bytes:
    data = bytearray(file)
    for at in places:
        data[at] ^= 255
    return bytes(data)


def try_whole(folder: str, file: bytes) -> None:
    try_file(folder, "a file after 100 puts", file, f"here {CHECKPOINT + 1}-{LAST}; lost none; wanted none; unknown none", 0)
    expect("its checkpoint", inspect(f"{folder}/file"), 0, f"checkpoint {CHECKPOINT}: ", "faulty none; 1 sessions, 50 keys")
    last = {i % KEYS: i for i in range(CHECKPOINT - 1)}
    keys = "".join(sorted(f"key{k} value{i}\n" for k, i in last.items()))
    found = inspect(f"{folder}/file", "keys")
    if found != (0, keys):
        fail(f"the keys of the checkpoint: {found}")
    print("the keys of its checkpoint: told")


def of_version_2(file: bytes) -> bytes:
    """The file with each prepare at its place of version 2, the old ones damaged, and the version in all copies of the superblock."""
    data = bytearray(file)
    for slot in range(64):
        old, new = (144 + 4 * slot) * 512, (1424 + 8 * slot) * 512
        data[new:new + 4096] = data[old:old + 2048] + bytes(2048)
        data[old:old + 2048] = b"\xff" * 2048
    for at in range(0, 4 * COPY, COPY):
        data[at + 92] = 2
        data[at:at + 16] = hashlib.sha256(data[at + 16:at + COPY]).digest()[:16]
    return bytes(data)


def try_version_2(folder: str, file: bytes) -> None:
    path, twin = f"{folder}/file", f"{folder}/twin"
    pathlib.Path(path).write_bytes(file)
    pathlib.Path(twin).write_bytes(of_version_2(file))
    told = inspect(path)[1].splitlines()
    expect("a file of version 2", inspect(twin), 0, "file of version 2; ", *told[1:])
    print("the file as one of version 2: told")


def try_group(mode: str, *more: str) -> None:
    with Group(scheme="") as group, tempfile.TemporaryDirectory() as folder:
        group.start_all(*more)
        end = time.monotonic() + 30
        while inspect(group.file(2), "health")[0] != 0 and time.monotonic() < end:
            time.sleep(0.1)
        young = pathlib.Path(group.file(2)).read_bytes()
        try_file(folder, f"the {mode} file of a new member", young, "checkpoint 0: 0 blocks, faulty none; 0 sessions, 0 keys", 0)
        group.ask(7, [f"put key{i % KEYS} value{i}" for i in range(PUTS)])
        group.await_line(0, f"commit 0 op {LAST} ")
        group.kill(0)
        file = pathlib.Path(group.file(0)).read_bytes()
        try_whole(folder, file)
        try_version_2(folder, file)
        for what, places, words, damaged in damage_rows(file, mode):
            try_file(folder, f"damage to {what}", flipped(file, places), words, damaged)
        try_lost(folder, "damage to three copies", flipped(file, [0, COPY, 2 * COPY]))
        try_lost(folder, "a file of zeros", bytes(len(file)))


def main() -> None:
    no_words()
    try_group("strict")
    try_group("careful", "--careful")


if __name__ == "__main__":
    end_script(main)
