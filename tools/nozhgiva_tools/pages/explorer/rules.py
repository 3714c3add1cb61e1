"""The rules of docs/RULES.md, as pieces of HTML by their names."""

import json
import os
import re
from html import escape
from typing import Dict, Iterable, List, Tuple, TypedDict

from nozhgiva_tools.places import DOCS

TOLD = os.path.join(os.path.dirname(os.path.abspath(__file__)), "told.json")
PAGE = DOCS / "RULES.md"
FAULT_LINES = ("damage", "stale", "unread", "misdirect")
BELOW = {"take a log": "Taking a log", "jump": "Jumping", "visit": "Visiting"}


class Told(TypedDict):
    """A row of told.json: a rule, and a case of it. Of an event, conditions that hold, and the outputs as a pattern."""

    rule: str
    event: str
    when: List[str]
    says: str


class Rule(TypedDict):
    """A row of the page's tables of rules, as HTML."""

    no: str
    when: str
    what: str


class Rules(TypedDict):
    """The rules by their names, the words by the names that the page gives them, and what each rule asks and puts out."""

    rules: Dict[str, Rule]
    words: Dict[str, str]
    told: List[Told]


def inline(text: str) -> str:
    """A line of Markdown as HTML: code, bold, italics; of a link its words."""
    html = escape(text, quote=False)
    html = re.sub(r"\[([^\]]*)\]\([^)]*\)", r"\1", html)
    html = re.sub(r"`([^`]*)`", r"<code>\1</code>", html)
    html = re.sub(r"\*\*([^*]+)\*\*", r"<b>\1</b>", html)
    return re.sub(r"\*([^*]+)\*", r"<i>\1</i>", html)


def cells(row: str) -> List[str]:
    return [cell.strip() for cell in row.strip().strip("|").split("|")]


def tables(lines: Iterable[str]) -> List[Tuple[List[str], List[List[str]]]]:
    """Each table of a page: its head and its rows."""
    found: List[Tuple[List[str], List[List[str]]]] = []
    rows: List[List[str]] = []
    for line in [*lines, ""]:
        if line.startswith("|"):
            rows.append(cells(line))
        elif rows:
            found.append((rows[0], rows[2:]))
            rows = []
    return found


def section(text: str, title: str) -> str:
    """What stands under a heading, up to the next one."""
    match = re.search(rf"^#+ {re.escape(title)}\n(.*?)(?=^#)", text, re.M | re.S)
    return "" if match is None else " ".join(match[1].split())


def paragraph(text: str, front: str) -> str:
    """The paragraph that begins so."""
    at = text.find(front)
    return "" if at < 0 else " ".join(text[at:].split("\n\n")[0].split())


def read_told() -> List[Told]:
    """What each rule asks of the numbers and puts out, a row for each case."""
    with open(TOLD, encoding="utf-8") as file:
        rows: List[Told] = json.load(file)
    return rows


def read_rules() -> Rules:
    """Those of the page, each with number, condition and effect; and told.json."""
    with open(PAGE, encoding="utf-8") as file:
        text = file.read()
    rules: Dict[str, Rule] = {}
    words: Dict[str, str] = {}
    for head, rows in tables(text.split("\n")):
        for row in rows:
            entry = dict(zip(head, row))
            if head[:2] == ["no", "rule"]:
                rules[entry["rule"].strip("`")] = {"no": entry["no"], "when": inline(entry["when"]), "what": inline(entry["what"])}
            elif head == ["word", "definition", "what it does"]:
                words[entry["word"]] = inline(section(text, BELOW[entry["word"]]) if entry["word"] in BELOW else entry["what it does"])
            elif head == ["line", "what happens", "definition"]:
                names = FAULT_LINES if entry["line"] == "fault lines" else re.findall(r"`(\w+)`", entry["line"])
                words |= {name: inline(entry["what happens"]) for name in names}
    opening = text[text.find("The opening (`opening`) in order:"):]
    words["the opening"] = inline(" ".join(opening.split("\n\n")[1].split()))
    words["start"] += f" {words['the opening']}"
    words["a cut"] = inline(paragraph(text, "*A cut*"))
    words["a fault"] = inline(paragraph(text, "*A fault*"))
    return {"rules": rules, "words": words, "told": read_told()}
