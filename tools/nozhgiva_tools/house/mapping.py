"""The map of the crates: what crates.txt says, what may be wrong with it, and how pages and the command `map` tell it."""

import re
import textwrap
from typing import Dict, Iterator, List, NamedTuple, Optional, Set, Tuple

from nozhgiva_tools.places import TOP

FILE = "crates.txt"
WIDTH = 100  # of the picture of all rows
LONGEST = 160  # characters of a sentence


class Crate(NamedTuple):
    """A crate by its line, with the sentence above it."""

    name: str
    sentence: str
    libraries: Tuple[str, ...]


class Row(NamedTuple):
    """A row of crates that have one purpose; each stands on crates of its own row or of those before it."""

    name: str
    sentence: str
    crates: Tuple[Crate, ...]


def read_map(text: str) -> List[Row]:
    """The rows of a crates.txt, from the lowest on. Crates that stand before the first heading have a row without a name."""
    rows: List[Row] = []
    above: List[str] = []
    for line in text.splitlines():
        if line.startswith("## "):
            name, _, sentence = line[3:].partition(":")
            rows.append(Row(name.strip(), sentence.strip(), ()))
            above = []
        elif line.startswith("#"):
            above.append(line.lstrip("# "))
        elif not line.strip():
            above = []
        else:
            head, _, libraries = line.split("#")[0].partition(":")
            if not rows:
                rows.append(Row("", "", ()))
            crate = Crate(head.split()[0], " ".join(above), tuple(libraries.split()))
            rows[-1] = rows[-1]._replace(crates=(*rows[-1].crates, crate))
            above = []
    return rows


def read() -> List[Row]:
    return read_map((TOP / FILE).read_text(encoding="utf-8"))


def folders() -> Set[str]:
    """The crates that there are, by their folders."""
    return {path.parent.name for path in (TOP / "crates").glob("*/src")}


def faults(rows: List[Row], there: Set[str]) -> Iterator[str]:
    """What is wrong with the map of a repository in which these crates are."""
    known = [crate.name for row in rows for crate in row.crates]
    for name in sorted(there - set(known)):
        yield f"{FILE}: no line of the crate {name}"
    for name in sorted({name for name in known if known.count(name) > 1}):
        yield f"{FILE}: {name} has two lines"
    seen: Set[str] = set()
    for row in rows:
        if not row.name or not row.sentence:
            yield f"{FILE}: a row without a name and a sentence, '## NAME: SENTENCE', above {row.crates[0].name if row.crates else row.name}"
        for crate in row.crates:
            yield from bad_crate(crate, seen, set(known))
            seen.add(crate.name)


def bad_crate(crate: Crate, seen: Set[str], known: Set[str]) -> Iterator[str]:
    """What is wrong with a crate's lines, where these crates stand before it."""
    if not crate.sentence:
        yield f"{FILE}: no sentence above {crate.name}"
    elif len(crate.sentence) > LONGEST:
        yield f"{FILE}: the sentence of {crate.name} has {len(crate.sentence)} characters, {LONGEST} at most"
    for library in crate.libraries:
        if library in known and library not in seen:
            yield f"{FILE}: {crate.name} stands above {library}, which it uses"


def layers(rows: List[Row]) -> str:
    """All rows as a picture of lines, the highest first, each with its crates from the lowest on."""
    front = max(len(row.name) for row in rows) + 3
    lines: List[str] = []
    for row in reversed(rows):
        names = textwrap.wrap("  ".join(crate.name for crate in row.crates), WIDTH - front)
        lines += [f" {row.name:{front - 1}}{names[0]}"] + [" " * front + more for more in names[1:]]
    return "```\n" + "\n".join(line.rstrip() for line in lines) + "\n```\n"


def tables(rows: List[Row]) -> str:
    """A heading, a sentence and a table for each row, as they stand in a page."""
    parts = []
    for row in rows:
        body = "".join(f"| `{crate.name}` | {crate.sentence} |\n" for crate in row.crates)
        parts.append(f"### {capital(row.name)}\n\n{capital(row.sentence)}.\n\n| crate | what it is |\n|---|---|\n{body}")
    return "\n" + "\n".join(parts) + "\n"


def capital(sentence: str) -> str:
    return sentence[:1].upper() + sentence[1:]


def lines_of(name: str) -> int:
    """How many lines of code, definitions and proofs a crate has."""
    count = 0
    for part in ("src", "specs", "proofs"):
        for path in (TOP / "crates" / name / part).rglob("*"):
            if path.suffix in (".rt", ".antt"):
                count += path.read_bytes().count(b"\n")
    return count


def fitting(rows: List[Row], word: str) -> List[Row]:
    """The crates in whose name or sentence a word stands, or of a row whose name has it, by their rows."""
    has = re.compile(re.escape(word), re.IGNORECASE)
    found = []
    for row in rows:
        crates = row.crates if has.search(row.name) else tuple(crate for crate in row.crates if has.search(f"{crate.name} {crate.sentence}"))
        if crates:
            found.append(row._replace(crates=crates))
    return found


def told(rows: List[Row], seconds: Optional[Dict[str, float]]) -> Iterator[str]:
    """The map as lines: each row with its crates, their lines of text, and where they are known their seconds in the gate."""
    width = max((len(crate.name) for row in rows for crate in row.crates), default=0)
    for row in rows:
        yield f"{row.name}: {row.sentence}"
        for crate in row.crates:
            cost = "" if seconds is None else f"{seconds.get(crate.name, 0):6.0f} s"
            yield f"  {crate.name:{width}}{lines_of(crate.name):7,}{cost}  {crate.sentence}"
        yield ""
