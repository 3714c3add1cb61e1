"""What a page is made of: sentences, words, links, headings, tables, and the rows of an index."""

import os
import re
from typing import Iterator, List, NamedTuple, Set, Tuple

LINK = re.compile(r"!?\[([^\]]*)\]\(([^)\s]+)\)")
FENCED = re.compile(r"^```.*?^```", re.S | re.M)


class Link(NamedTuple):
    page: str  # from the top; the page itself where the link names only a heading
    anchor: str
    text: str


class Row(NamedTuple):
    """A row of a table: where it stands, and its cells."""

    header: Tuple[str, ...]
    cells: Tuple[str, ...]


def plain(text: str) -> str:
    """A page without its blocks of code and its headings, with code and links in its sentences as words."""
    without = re.sub(r"^(?:    |#).*$", "", FENCED.sub("", text), flags=re.M)
    return LINK.sub(r"\1", re.sub(r"`[^`]*`", "code", without))


def sentences(text: str) -> Iterator[str]:
    """The sentences of a page: of its paragraphs, items and cells."""
    for part in re.split(r"\n\s*\n|^\s*(?:[-*]|\d+\.) |\|", plain(text), flags=re.M):
        yield from re.split(r"(?<=[.!?])\*{0,2}\s+", " ".join(part.split()))


def length(sentence: str) -> int:
    return len(re.findall(r"\S*\w\S*", sentence))


def words(text: str) -> Set[str]:
    """The words of a page's sentences, without what is code."""
    prose = re.sub(r"`[^`]*`", " ", re.sub(r"^    .*$", "", FENCED.sub("", text), flags=re.M))
    return set(re.findall(r"[a-z]+(?:-[a-z]+)*", LINK.sub(r"\1", prose).lower()))


def links(path: str, text: str) -> Iterator[Link]:
    for _, target in LINK.findall(FENCED.sub("", text)):
        if not re.match(r"\w+:", target):
            file, _, anchor = target.partition("#")
            yield Link(os.path.normpath(os.path.join(os.path.dirname(path), file)) if file else path, anchor, target)


def anchors(text: str) -> Set[str]:
    """The places that a page's headings make."""
    heads = re.findall(r"^#+ (.*)$", FENCED.sub("", text), re.M)
    return {re.sub(r"[^\w\- ]", "", head.strip().lower()).replace(" ", "-") for head in heads}


def cells(line: str) -> Tuple[str, ...]:
    return tuple(" ".join(cell.split()) for cell in line.strip().strip("|").split("|"))


def table_rows(text: str) -> Iterator[Row]:
    """The rows of a page's tables, each with the header of its table."""
    header: Tuple[str, ...] = ()
    above = ""
    for line in FENCED.sub("", text).splitlines():
        if not line.startswith("|"):
            header = ()
        elif re.fullmatch(r"\|(?:\s*:?-+:?\s*\|)+", line.strip()):
            header = cells(above)
        elif header:
            yield Row(header, cells(line))
        above = line


def torn_rows(text: str) -> Iterator[str]:
    """Lines of tables that no table has, or that have another number of cells than its header; and lines that end as rows do, and don't begin so."""
    lines = [re.sub(r"`[^`]*`", "code", line) for line in FENCED.sub("", text).splitlines()]
    width = 0
    for i, line in enumerate(lines):
        if not line.startswith("|"):
            width = 0
            if re.search(r"\|\s*$", line) and not line.strip().startswith("|"):
                yield line
        elif not width:
            width = len(cells(line))
            if i + 1 == len(lines) or not re.fullmatch(r"\|(?:\s*:?-+:?\s*\|)+", lines[i + 1].strip()):
                yield line
        elif len(cells(line)) != width:
            yield line


def listed(text: str) -> Iterator[Tuple[str, str, List[str]]]:
    """The rows of an index, of tables and of lists: the heading above, the row, and what its first cell links to, or an item before its colon."""
    heading = ""
    for line in FENCED.sub("", text).splitlines():
        if line.startswith("#"):
            heading = line.strip("# ")
        elif re.match(r"\||\s*[-*] ", line):
            head = cells(line)[0] if line.startswith("|") else line.split(": ")[0]
            targets = [target for _, target in LINK.findall(head)]
            if targets:
                yield heading, line, targets
