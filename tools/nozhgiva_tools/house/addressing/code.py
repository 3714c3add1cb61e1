"""The items of a file of code: what it declares, each function's clauses, and what its `use` lines bring."""

import re
from pathlib import Path
from typing import Dict, Iterator, List, NamedTuple, Tuple

Route = Tuple[str, ...]  # a path of code: crate, modules, item

# What reads as code and isn't: comments, strings, and characters that would be brackets.
MASKED = re.compile(r"//[^\n]*|b?\"(?:\\.|[^\"\\])*\"|'(?:\\.|[{}()\"/;])'", re.S)
HEAD = re.compile(
    r"(?P<public>pub )?(?:pub\([a-z]+\) )?(?:(?:const|unsafe|default|async) (?=fn|unsafe|impl|trait))*"
    r"(?P<kind>fn|struct|enum|trait|impl|mod|const|static|type|ghost use|ghost|use|union)\b")
CLAUSE = re.compile(r"(?P<kind>requires|ensures|ghost)\b(?P<label>[^{};]*)\{")
OPENING, CLOSING = "({[", ")}]"


class Clause(NamedTuple):
    """One line of a contract."""

    kind: str
    label: str
    text: str

    def __str__(self) -> str:
        return " ".join(part for part in (self.kind, self.label, "{ " + " ".join(self.text.split()) + " }") if part)


class Item(NamedTuple):
    """What a file declares: its text is without comments, attributes and bodies. What an `impl` or a trait has is its inner items."""

    kind: str
    name: str
    public: bool
    line: int
    head: str
    text: str
    clauses: Tuple[Clause, ...]
    inner: Tuple["Item", ...]


def masked(text: str) -> str:
    """The text with blanks for what isn't code; each place stays where it was."""
    return MASKED.sub(lambda found: re.sub(r"[^\n]", " ", found[0]), text)


def matching(text: str, start: int) -> int:
    """The place after the bracket that closes the one that opens here."""
    depth = 0
    for place in range(start, len(text)):
        if text[place] in OPENING:
            depth += 1
        elif text[place] in CLOSING:
            depth -= 1
            if depth == 0:
                return place + 1
    return len(text)


def reach(text: str, start: int, wanted: str) -> int:
    """The next place outside brackets, but for the wanted ones, that has one of these signs."""
    place = start
    while place < len(text) and text[place] not in wanted:
        place = matching(text, place) if text[place] in OPENING else place + 1
    return place


def one_line(text: str) -> str:
    return " ".join(text.split())


def without_blanks(text: str) -> str:
    return "\n".join(line.rstrip() for line in text.splitlines() if line.strip())


class Reader:
    """Reads the items of one file."""

    def __init__(self, text: str) -> None:
        self.text = masked(text)

    def items(self, start: int, end: int) -> Iterator[Item]:
        place = start
        while place < end:
            if self.text.startswith("#", place):
                place = matching(self.text, self.text.index("[", place))
                continue
            head = HEAD.match(self.text, place)
            if not head:
                place += 1
                continue
            place, item = self.item(head)
            yield item

    def item(self, head: "re.Match[str]") -> Tuple[int, Item]:
        kind, start = head["kind"], head.start()
        if kind == "fn":
            return self.function(head)
        if kind in ("trait", "impl", "mod"):
            opening = reach(self.text, head.end(), "{;")
            closing = matching(self.text, opening) if self.text.startswith("{", opening) else opening + 1
            inner = tuple(self.items(opening + 1, closing - 1))
            front = one_line(self.text[start:opening])
            return closing, self.made(head, closing, front, front, (), inner)
        closing = reach(self.text, head.end(), "{;")
        if kind in ("struct", "enum", "union") and self.text.startswith("{", closing):
            closing = matching(self.text, closing)
        else:
            closing = reach(self.text, head.end(), ";") + 1
        text = without_blanks(re.sub(r"#\[[^\]]*\]", "", self.text[start:closing]))
        return closing, self.made(head, closing, one_line(text), text, (), ())

    def function(self, head: "re.Match[str]") -> Tuple[int, Item]:
        place = front = head.end()
        clauses: List[Clause] = []
        while True:
            place = reach(self.text, place, "{;reg")
            found = CLAUSE.match(self.text, place)
            if found and not re.match(r"\w", self.text[place - 1]):
                front = front if clauses else place
                end = matching(self.text, found.end() - 1)
                clauses.append(Clause(found["kind"], found["label"].strip(" :"), one_line(self.text[found.end():end - 1])))
                place = end
            elif place >= len(self.text) or self.text[place] in "{;":
                break
            else:
                place += 1
        front = front if clauses else place
        closing = matching(self.text, place) if self.text.startswith("{", place) else place + 1
        text = one_line(self.text[head.start():front])
        return closing, self.made(head, closing, text, text, tuple(clauses), ())

    def made(self, head: "re.Match[str]", closing: int, front: str, text: str, clauses: Tuple[Clause, ...], inner: Tuple[Item, ...]) -> Item:
        named = re.match(r"\s*(\w+)", self.text[head.end():closing])
        line = self.text.count("\n", 0, head.start()) + 1
        return Item(head["kind"], named[1] if named else "", bool(head["public"]), line, front, text, clauses, inner)


def read_items(text: str) -> List[Item]:
    reader = Reader(text)
    return list(reader.items(0, len(reader.text)))


def spread(path: str) -> Iterator[Tuple[Route, str]]:
    """Each path that a `use` brings, and the name that it has then."""
    front, brace, rest = path.partition("{")
    if not brace:
        whole, _, alias = path.strip().partition(" as ")
        parts = tuple(part.strip() for part in whole.split("::"))
        if parts[-1] == "self":
            parts = parts[:-1]
        if parts and parts[-1]:
            yield parts, alias.strip() or parts[-1]
        return
    depth, begin = 0, 0
    inside = rest[:rest.rindex("}")] + ","
    for place, sign in enumerate(inside):
        depth += (sign == "{") - (sign == "}")
        if sign == "," and depth == 0:
            if inside[begin:place].strip():
                yield from spread(front + inside[begin:place].strip())
            begin = place + 1


def brought(items: List[Item]) -> Dict[str, Route]:
    """The names that the `use` lines of a file bring, with their paths."""
    names: Dict[str, Route] = {}
    for item in items:
        if item.kind == "use":
            text = re.sub(r"^(?:pub(?:\([a-z]+\))? )?use ", "", item.text).rstrip(" ;")
            names.update((name, path) for path, name in spread(text))
    return names


def module_of(source: Path, folder: Path) -> Route:
    """The modules of code that lead to a file below src/."""
    parts = source.relative_to(folder).with_suffix("").parts
    return () if parts in (("lib",), ("main",)) else parts
