"""Programs of some crates and a main of bench/: each is proved, compiled and kept for one measurement, of the tree as it stands or of a commit."""

import argparse
from pathlib import Path
from typing import Dict, List, NamedTuple, Optional, Sequence, Tuple

from nozhgiva_tools.places import TOP

from . import Refused, say
from .places import Place

END_OF_SOURCE = ".txt"  # sources in bench/ end so, since no check of the repository reads them


class Model(NamedTuple):
    """A program: the folder of bench/ with its sources, the crates that it stands on, and sources that another folder has."""

    name: str
    crates: Tuple[str, ...]
    others: Tuple[str, ...] = ()  # as codec/src/messages.rt.txt

    @property
    def crate(self) -> str:
        return f"{self.name}_bench"


def add_commit(form: argparse.ArgumentParser) -> None:
    form.add_argument("--commit", metavar="COMMIT", help="takes the crates of a commit (default: as they stand in the tree)")


def built(place: Place, model: Model, commit: Optional[str], *words: str) -> Path:
    """The program, proved and compiled in the place, where it was run once with these words."""
    say(f"{model.crate} is proved and compiled, with {len(model.crates)} crates that it stands on")
    root = place / model.name
    copy_crates(place, model.crates, commit, root)
    crate = root / "crates" / model.crate
    for path, source in sources_of(model):
        made = crate / path
        made.parent.mkdir(parents=True, exist_ok=True)
        made.write_bytes(source.read_bytes())
    (root / "crates.txt").write_text("".join(f"{line}\n" for line in [*lines_of(root / "crates.txt", model.crates), f"{model.crate}: {' '.join(model.crates)}"]), encoding="utf-8")
    place.run(["rt", "run", "--jobs", "1", *(("--", *words) if words else ())], folder=crate)
    return crate / "out" / model.crate


def copy_crates(place: Place, crates: Sequence[str], commit: Optional[str], root: Path) -> None:
    """Copies crates and crates.txt of a commit; or as they stand, with what isn't committed, and what was built of them."""
    root.mkdir()
    paths = ["crates.txt", *(f"crates/{name}" for name in crates)]
    packed = place / "packed.tar"
    if commit:
        place.run(["git", "archive", f"--output={packed}", commit, "--", *paths], folder=TOP)
    else:
        place.run(["tar", "-cf", packed, *paths], folder=TOP)
    place.run(["tar", "-xf", packed], folder=root)


def sources_of(model: Model) -> List[Tuple[Path, Path]]:
    """Each source by its path in the crate, and where it stands."""
    folder = TOP / "bench" / model.name
    own = [(path.relative_to(folder), path) for path in sorted(folder.rglob(f"*{END_OF_SOURCE}"))]
    others = [(Path(*Path(name).parts[1:]), TOP / "bench" / name) for name in model.others]
    return [(path.with_suffix(""), source) for path, source in [*own, *others]]


def lines_of(path: Path, crates: Sequence[str]) -> List[str]:
    """The lines of these crates in a crates.txt."""
    found: Dict[str, str] = {line.partition(":")[0]: line for line in path.read_text(encoding="utf-8").splitlines() if not line.startswith("#")}
    absent = [name for name in crates if name not in found]
    if absent:
        raise Refused(f"crates.txt has no line of {' and '.join(absent)}")
    return [found[name] for name in crates]


def counted(place: Place, program: Path, *words: object) -> int:
    """The instructions of a run with these words."""
    return place.instructions([program, *map(str, words)])


def said(place: Place, program: Path, *words: object) -> str:
    """What it says with these words."""
    return place.run([program, *map(str, words)]).out.strip()
