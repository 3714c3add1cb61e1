"""What a page may not be. Each check tells the places where one is it."""

import os
import re
from typing import Dict, Iterator, List, Set, Tuple

from nozhgiva_tools.places import TOP

from . import Pages, texts, Tree
from .counting import is_law

FIRST_PAGES = ("README.md", "CHANGELOG.md", "CONTRIBUTING.md", "SECURITY.md", "docs/WHY-BELIEVE.md")
LONGEST_CELL, LONGEST_SENTENCE, LONGEST_FIRST = 200, 45, 30
MAP, COMMANDS, PROGRAM, LADDER, GUARDS = "docs/ARCHITECTURE.md", "docs/COMMAND.md", "docs/promises/PROGRAM.md", "docs/promises/LAWS.md", "docs/SAFETY.md"

INDEX, FRONT = "docs/README.md", "README.md"
# The roads of the index, each by words of its heading.
ROADS = ("uses it", "runs it", "works on it", "believes it")

# How words are spelled here, and how they aren't. Words that stand with and without a hyphen are found without a table.
SPELLINGS = (
    ("mutation test", r"wrong bod(?:y|ies)"),
    ("acknowledgement", r"acknowledgments?"),
    ("judgment", r"judgements?"),
    ("-or, as in color", r"(?:col|behavi|neighb|fav|lab|rum)ours?"),
    ("-ize, as in linearize", r"(?:linear|optim|organ|recogn|real|serial|normal|summar|general|initial)is(?:e[ds]?|ing|able|ations?)"),
    ("afterwards", r"afterward"),
    ("superblock", r"super blocks?"),
    ("data file", r"datafiles?"),
)


def bad_links(pages: Pages) -> Iterator[str]:
    for path, text in pages.items():
        for link in texts.links(path, text):
            if not (TOP / link.page).exists():
                yield f"{path}: no file {link.text}"
            elif link.anchor and link.page in pages and link.anchor not in texts.anchors(pages[link.page]):
                yield f"{path}: no heading {link.text}"


def roads(index: str) -> Dict[str, List[str]]:
    """The roads on which each page of the index stands, by its path from the top."""
    standing: Dict[str, List[str]] = {}
    for heading, _, targets in texts.listed(index):
        for road in (name for name in ROADS if name in heading.lower()):
            for target in targets:
                page = os.path.normpath(os.path.join(os.path.dirname(INDEX), target.partition("#")[0]))
                standing.setdefault(page, []).append(road)
    return standing


def bad_roads(pages: Pages) -> Iterator[str]:
    if INDEX not in pages:
        yield f"no page {INDEX}, which has the roads"
        return
    standing = roads(pages[INDEX])
    for road in sorted(set(ROADS) - {road for named in standing.values() for road in named}):
        yield f"{INDEX}: no page stands on the road \"{road}\""
    for page in sorted(set(pages) - {INDEX, FRONT}):
        named = standing.get(page, [])
        if len(named) != 1:
            yield f"{page}: on {' and '.join(named) or 'no road'} of {INDEX}, and not on one"
    for heading, line, _ in texts.listed(pages[INDEX]):
        if any(name in heading.lower() for name in ROADS) and not re.search(r"\d", texts.LINK.sub("", line)):
            yield f"{INDEX}: no minutes: {line[:60]}"


def bad_names(pages: Pages, tree: Tree) -> Iterator[str]:
    for path, text in pages.items():
        for name in sorted(set(re.findall(r"\b(?:vr|law|cmd|rows|tests)_\w+", text)) - tree.crates):
            yield f"{path}: no crate {name}"


def named(text: str, name: str) -> bool:
    return f"`{name}`" in text


def promises(pages: Pages) -> str:
    return "".join(text for path, text in pages.items() if "promises" in path.lower())


def left_out(pages: Pages, tree: Tree) -> Iterator[str]:
    """Crates, laws, guards and commands that aren't named where they should be."""
    wanted: List[Tuple[str, str, str, str]] = []
    for crate in sorted(tree.crates):
        wanted += [(MAP, pages[MAP], "the crate", crate), ("docs/promises", promises(pages), "the crate", crate)]
        place, text = (LADDER, pages[LADDER]) if is_law(crate) else ("docs/promises", promises(pages))
        wanted += [(place, text, "the law", law) for law in tree.laws.get(crate, ())]
    wanted += [(GUARDS, pages[GUARDS], "the mutation test", guard) for guard in tree.guards]
    wanted += [(PROGRAM, pages[PROGRAM], "the command", name) for name, own in tree.commands.items() if own]
    for place, text, what, name in wanted:
        if not named(text, name):
            yield f"{place}: nothing of {what} {name}"
    for name in tree.commands:
        if not named(pages[COMMANDS], name) and not re.search(rf"nozhgiva {name}\b", pages[COMMANDS]):
            yield f"{COMMANDS}: nothing of the command {name}"


def long_cells(pages: Pages) -> Iterator[str]:
    for path, text in pages.items():
        if "promises" in path.lower():
            for row in texts.table_rows(text):
                for cell in row.cells:
                    if len(cell) > LONGEST_CELL:
                        yield f"{path}: a cell of {len(cell)} characters: {cell[:60]}"


def long_sentences(pages: Pages) -> Iterator[str]:
    for path, text in pages.items():
        most = LONGEST_FIRST if path in FIRST_PAGES else LONGEST_SENTENCE
        for sentence in texts.sentences(text):
            if texts.length(sentence) > most:
                yield f"{path}: a sentence of {texts.length(sentence)} words: {sentence[:80]}"


def bad_spellings(pages: Pages) -> Iterator[str]:
    """Words that the table spells otherwise, and words that stand with a hyphen here and without it there."""
    having: Dict[str, Set[str]] = {}
    for path, text in pages.items():
        prose = " ".join(texts.plain(text).lower().split())
        for better, worse in SPELLINGS:
            for word in sorted(set(re.findall(rf"\b{worse}\b", prose))):
                yield f"{path}: {word}, which is spelled: {better}"
        for word in texts.words(text):
            having.setdefault(word, set()).add(path)
    for word in sorted(having):
        joined = word.replace("-", "")
        if joined != word and joined in having:
            yield f"{sorted(having[word])[0]}: {word}, and {sorted(having[joined])[0]}: {joined}"


def doubled_rows(pages: Pages) -> Iterator[str]:
    """Facts that stand twice: rows that are equal, of tables with equal headers."""
    first: Dict[texts.Row, str] = {}
    for path, text in pages.items():
        for row in texts.table_rows(text):
            if row in first:
                yield f"{path}: a row that {first[row]} has too: {' | '.join(row.cells)[:60]}"
            first.setdefault(row, path)


def torn_tables(pages: Pages) -> Iterator[str]:
    for path, text in pages.items():
        for line in texts.torn_rows(text):
            yield f"{path}: a row outside of its table, or not as wide: {line[:60]}"


def faults(pages: Pages, tree: Tree) -> List[str]:
    """All that is told of these pages, but for what is counted."""
    told = [*bad_links(pages), *bad_roads(pages), *bad_names(pages, tree), *left_out(pages, tree), *long_cells(pages)]
    return told + [*long_sentences(pages), *bad_spellings(pages), *doubled_rows(pages), *torn_tables(pages)]
