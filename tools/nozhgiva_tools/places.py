"""Where things stand: the top of the clone, or of an installation, and how a module of this package or of the tests is run."""

import os
import shutil
import sys
from pathlib import Path
from types import ModuleType
from typing import List, Optional, Union

TOOLS = Path(os.path.realpath(__file__)).parent.parent
TOP = TOOLS.parent
NOZHGIVA = TOP / "nozhgiva"
EXAMPLES = TOP / "examples"
DOCS = TOP / "docs"
OPERATE = TOP / "operate"
CLIENT = TOP / "clients" / "python" / "src"
PACKAGING = TOP / "packaging"
BENCH = TOP / "bench"
TESTS = TOP / "tests"
CHECKS, PACKAGES = TESTS / "checks.txt", TESTS / "packages.txt"
ROWS = TESTS / "rows"
MEMORY, ROOM = "/dev/shm", 2 << 30  # a file system in memory; the bytes that it has to have free


def in_memory() -> Optional[str]:
    """A folder in memory for files of members that are tried, where what is tried is no disk; None where there is none with room, or none that programs may be run from."""
    if not (os.path.isdir(MEMORY) and os.access(MEMORY, os.W_OK)) or os.statvfs(MEMORY).f_flag & os.ST_NOEXEC:
        return None
    return MEMORY if shutil.disk_usage(MEMORY).free > ROOM else None


def name_of(module: ModuleType) -> str:
    """The name by which a module is run, also where it is the one that runs; of a package it is the package's."""
    assert module.__spec__ is not None
    name = module.__spec__.name
    return name[:-len(".__main__")] if name.endswith(".__main__") else name


def words_of_module(module: Union[str, ModuleType], *words: str) -> List[str]:
    """The words that run a module: by the folder `tools`, which knows where all packages are. Who calls one of another folder imports it, and hands it in."""
    name = module if isinstance(module, str) else name_of(module)
    return [sys.executable, "-B", str(TOOLS), "-m", name, *words]
