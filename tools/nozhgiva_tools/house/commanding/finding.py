"""The commands that a page shows: lines of its blocks of code."""

import re
from typing import Iterator, List, NamedTuple, Optional, Tuple

from nozhgiva_tools.places import TOP

# What a command begins with, paths of this repository aside. A line beside commands that begins with another word is told.
WORDS = frozenset(
    ". ./nozhgiva apt cd cp docker gdb git go grep install kill nft nice nozhgiva nstat ping podman printf python3 rt runuser ss ssh systemctl umask useradd wg".split())
# What is run where the list doesn't say otherwise; of the others each has to stand there.
RUN = frozenset("./nozhgiva cd grep mv nozhgiva printf python3 ssh".split())
PART = re.compile(r"(?:\s*(?:&&|\|\||[;|&])\s*)(?:(?:do|done)\b\s*)?")
ASSIGNMENT = re.compile(r"""\w+=(?:'[^']*'|"[^"]*"|[^\s'"]*)(?:\s+|$)""")
LOOP = re.compile(r"for \w+ in ")
COMMENT = re.compile(r"\s+# .*$")
# Lines of files that begin as commands do: of a go.mod, and of a backup.
OF_A_FILE = re.compile(r"go \d[\d.]*|nozhgiva backup \d+")
FENCE, INDENT = "```", "    "


class Command(NamedTuple):
    page: str
    line: int
    text: str  # in one line, without a prompt and a comment


class Block(NamedTuple):
    line: int
    lines: Tuple[str, ...]


def blocks(text: str) -> Iterator[Block]:
    """The blocks of code of a page: fenced lines, or lines four spaces in; an empty line ends one."""
    is_fenced = False
    first, held = 0, []  # type: int, List[str]
    for number, line in enumerate([*text.splitlines(), ""], 1):
        is_fence = line.strip().startswith(FENCE)
        is_fenced ^= is_fence
        if line.strip() and not is_fence and (is_fenced or line.startswith(INDENT)):
            first = first if held else number
            held.append(line)
        elif held:
            yield Block(first, tuple(held))
            held = []


def after_assignments(text: str) -> str:
    found = ASSIGNMENT.match(text)
    return after_assignments(text[found.end():]) if found else text


def is_own(word: str) -> bool:
    """Whether a command is a file of this repository, or of what an earlier command made."""
    return "/" in word and (word.startswith("/tmp/") or (TOP / word).is_file())


def is_command(text: str) -> bool:
    """Whether a line, without its prompt, is a command of a shell."""
    rest = after_assignments(text)
    if OF_A_FILE.fullmatch(text):
        return False
    if not rest:
        return text != ""
    word = rest.split()[0]
    return word in WORDS or LOOP.match(rest) is not None or is_own(word)


def may_run(text: str) -> bool:
    """Whether each part of a command is of those that are run: a new one that installs or removes something isn't."""
    rests = map(after_assignments, PART.split(re.sub(r"'[^']*'|\"[^\"]*\"", "''", text)))
    return all(LOOP.match(rest) or rest.split()[0] in RUN or is_own(rest.split()[0]) for rest in rests if rest.strip())


def joined(block: Block) -> Iterator[Tuple[int, str]]:
    """The lines of a block with their numbers; those that end with a backslash are one with the next."""
    whole, first = "", block.line
    for number, line in enumerate(block.lines, block.line):
        first = first if whole else number
        whole += line.strip()
        if whole.endswith("\\"):
            whole = whole[:-1].rstrip() + " "
            continue
        yield first, whole
        whole = ""
    if whole:
        yield first, whole.rstrip()


def find(page: str, text: str) -> Tuple[List[Command], List[str]]:
    """The commands of a page, and a sentence for each line beside commands that isn't known as one. Below a prompt stands what a command writes."""
    found: List[Command] = []
    faults: List[str] = []
    for block in blocks(text):
        lines = list(joined(block))
        has_prompt = any(line.startswith("$ ") for _, line in lines)
        bare = [(number, COMMENT.sub("", line[2:] if has_prompt else line)) for number, line in lines if line.startswith("$ ") or not has_prompt]
        commands = [Command(page, number, line) for number, line in bare if is_command(line)]
        found += commands
        if commands or has_prompt:
            known = {one.line for one in commands}
            faults += [f"{page}:{number}: not known as a command, beside such: {line}" for number, line in bare if number not in known]
    return found, faults


def in_sentence(page: str, text: str, wanted: str) -> Optional[Command]:
    """A command that stands in a sentence of a page, within backquotes."""
    at = text.find(f"`{wanted}`")
    return Command(page, text.count("\n", 0, at) + 1, wanted) if at >= 0 else None


def shown(text: str, first: str) -> List[str]:
    """The lines of the block of a page that begins with this line, without what they are in by; none where there isn't one."""
    for block in blocks(text):
        if block.lines[0].strip() == first:
            depth = len(block.lines[0]) - len(block.lines[0].lstrip())
            return [line[depth:].rstrip() for line in block.lines]
    return []
