"""What a module was compiled of: a digest of all sources, which `build` leaves beside it, and by which it is told whether they are the same still."""

import hashlib
import os
from pathlib import Path
from typing import Iterator

KINDS = (".rt", ".antt")


def paths(top: Path) -> Iterator[Path]:
    """The sources of a clone, in their order."""
    for folder, names, files in os.walk(top / "crates"):
        names[:] = sorted(name for name in names if name != "out")
        yield from (Path(folder, name) for name in sorted(files) if name.endswith(KINDS))
    yield top / "crates.txt"


def digest(top: Path) -> str:
    whole = hashlib.sha256()
    for path in paths(top):
        whole.update(f"{path.relative_to(top)}\0".encode())
        whole.update(hashlib.sha256(path.read_bytes()).digest())
    return whole.hexdigest()


def note_of(module: Path) -> Path:
    """Where the digest of a module's sources stands."""
    return module.with_name(f"{module.name}.sources")


def are_those_of(module: Path, top: Path) -> bool:
    """Whether a module was made of the sources as they are now."""
    try:
        return note_of(module).read_text(encoding="ascii").strip() == digest(top)
    except OSError:
        return False
