"""What is counted of the repository, and where pages say it."""

import os
import re
import textwrap
from typing import Dict, Iterator, List, Match, Pattern, Sequence, Tuple

from nozhgiva_tools.house import mapping

from . import addresses_script, found, Pages, read, Tree

BEGIN, END = "<!-- ./nozhgiva addresses --above -->\n", "<!-- end -->"
LAYERS, CRATES = "<!-- crates.txt: rows -->\n", "<!-- crates.txt: crates -->\n"
WORDS_A_MINUTE = 200
MOST_TESTS, MOST_CRATES = 12, 4  # of mutation tests in the gate: a crate's first one costs a second check of it, each some ten seconds
Numbers = Dict[str, str]

# What pages say that is counted. Each word in braces stands for a number, or a name, of `count`. A sentence is looked for in every page, wherever its lines end,
# and its numbers are put right where it stands. It may go, or move to another page, as long as some sentence of some page still tells each number.
TOLD = (
    "the gate has {gate_tests} of them, of {gate_crates} crates",
    "{hand_tests} others, of {hand_crates} crates, are tried by hand",
    "The gate tries {gate_tests} of them, of {gate_crates} crates; the other {hand_tests}, of {hand_crates} crates,",
    "The tree has {crates} crates",
    "the longest chain has {chain} crates",
    "A message (`GetSync`) has a case in {message_files} files of code, of {message_crates} crates, tests aside",
    "a rule (`mend_found`) stands in {rule_files} files, definitions and laws among them, of {rule_crates} crates",
    "`law_1_machine` to `{last_law}`",
    "{laws} laws, of which {ladder_laws} are the ladder's",
)


def files_with(pattern: str, kinds: Sequence[str], crates: Sequence[str]) -> Tuple[int, int]:
    """How many files of code or definitions have this in them, and of how many crates."""
    having = [
        (crate, path) for crate in crates for kind in kinds for folder in ("src", "specs", "proofs")
        for path in found(f"crates/{crate}/{folder}/**/*.{kind}") if re.search(pattern, read(path))
    ]
    return len(having), len({crate for crate, _ in having})


def mutation_tests(place: str) -> Tuple[int, int]:
    """How many mutation tests stand there, in folders of their crates' names, and of how many crates."""
    tests = found(place)
    return len(tests), len({path.split("/")[1] for path in tests})


def tests_by_hand(place: str) -> Tuple[int, int]:
    """The same of those that are tried by hand: a file for each crate, whose tests begin with a line `== NAME`."""
    files = found(place)
    return sum(len(re.findall(r"(?m)^== \w+$", read(path))) for path in files), len(files)


def bad_gate(numbers: Numbers) -> Iterator[str]:
    """More mutation tests, or more crates with any, than the gate may have."""
    for name, most in (("gate_tests", MOST_TESTS), ("gate_crates", MOST_CRATES)):
        if int(numbers[name]) > most:
            yield f"crates/*/must-fail: {name} is {numbers[name]}, and {most} at most: move some into mutations/"


def is_law(crate: str) -> bool:
    return crate.startswith("law_")


def is_rung(crate: str) -> bool:
    """Whether it is a crate of the ladder, whose rungs have numbers."""
    return re.match(r"law_\d+_", crate) is not None


def count(tree: Tree) -> Numbers:
    """What is counted, by the names that `TOLD` has for it, as a page writes it."""
    told = addresses_script()
    numbers = {"crates": len(tree.crates), "laws": sum(map(len, tree.laws.values()))}
    numbers["ladder_laws"] = sum(len(laws) for crate, laws in tree.laws.items() if is_rung(crate))
    numbers.update(zip(("gate_tests", "gate_crates"), mutation_tests("crates/*/must-fail/*.edit")))
    numbers.update(zip(("hand_tests", "hand_crates"), tests_by_hand("mutations/*.edits")))
    program = sorted(tree.crates - set(tree.rows.get("rows", ())))
    numbers.update(zip(("message_files", "message_crates"), files_with(r"\bGetSync\b", ("rt",), program)))
    numbers.update(zip(("rule_files", "rule_crates"), files_with(r"\bmend_found\b", ("rt", "antt"), sorted(tree.crates))))
    numbers["chain"] = int(re.findall(r"^longest chain: (\d+)", told, re.M)[0])
    last = max(filter(is_rung, tree.crates), key=lambda crate: (int(crate.split("_")[1]), crate))
    return {**{name: f"{number:,}" for name, number in numbers.items()}, "last_law": last}


def pattern_of(sentence: str) -> Tuple[Pattern[str], List[str]]:
    """A sentence of `TOLD` as it may stand in a page, wherever its lines end, and the names in its braces."""
    parts = re.split(r"\{(\w+)\}", sentence)
    spelled = [re.escape(part).replace(r"\ ", r"\s+") if i % 2 == 0 else r"([\w,]*\w)" for i, part in enumerate(parts)]
    return re.compile("".join(spelled)), parts[1::2]


def put_right(text: str, numbers: Numbers) -> str:
    """A page with its counted numbers as they are."""
    for sentence in TOLD:
        pattern, names = pattern_of(sentence)
        for match in reversed(list(pattern.finditer(text))):
            for i in reversed(range(len(names))):
                start, end = match.span(i + 1)
                text = text[:start] + numbers[names[i]] + text[end:]
    return text


def bad_numbers(pages: Pages, numbers: Numbers) -> Iterator[str]:
    untold = set(numbers)
    for sentence in TOLD:
        pattern, names = pattern_of(sentence)
        for path, text in pages.items():
            for match in pattern.finditer(text):
                untold -= set(names)
                for name, said in zip(names, match.groups()):
                    if said != numbers[name]:
                        yield f"{path}: {name} is {numbers[name]}, and the page says {said}"
    for name in sorted(untold):
        yield f"no page tells {name}, which is {numbers[name]}: TOLD in tools/nozhgiva_tools/house/paging/counting.py has the sentences that may"


def minutes(text: str) -> int:
    """How long a page takes to read; a minute that is begun counts."""
    return -(-len(text.split()) // WORDS_A_MINUTE)


def with_minutes(pages: Pages, index: str) -> str:
    """The index with the minutes of each page that a row of its tables begins with."""
    def timed(row: Match[str]) -> str:
        page = os.path.normpath(os.path.join(os.path.dirname(index), row["page"]))
        return row["front"] + (str(minutes(pages[page])) if page in pages else row["minutes"])
    return re.sub(r"^(?P<front>\| \[[^\]]*\]\((?P<page>[^)#]+)(?:#[^)]*)?\) \| )(?P<minutes>\d+)(?= \|)", timed, pages.get(index, ""), flags=re.M)


def bad_minutes(pages: Pages, index: str) -> Iterator[str]:
    for said, right in zip(pages.get(index, "").splitlines(), with_minutes(pages, index).splitlines()):
        if said != right:
            yield f"{index}: the minutes of this row aren't those of its page, at {WORDS_A_MINUTE} words a minute: {said[:60]}"


def above() -> str:
    """How many crates stand above each, as lines of a page."""
    lines: List[str] = []
    for line in addresses_script("--above").splitlines():
        if not line.startswith("- *rows*"):
            kept = re.sub(r"` (\d)", "`\0\\1", line)
            lines += textwrap.wrap(kept, 180, subsequent_indent="  ", break_on_hyphens=False)
    return "".join(line.replace("\0", " ") + "\n" for line in lines) + "- *rows*: none stands on any of them\n"


def blocks() -> Dict[str, str]:
    """What is written into pages by what it is made of: each block by the line that it stands behind."""
    rows = mapping.read()
    return {BEGIN: above(), LAYERS: mapping.layers(rows), CRATES: mapping.tables(rows)}


def with_blocks(text: str, made: Dict[str, str]) -> str:
    """A page with these blocks where it has them."""
    for begin, block in made.items():
        if begin in text:
            head, rest = text.split(begin, 1)
            text = head + begin + block + END + rest.split(END, 1)[1]
    return text


def bad_blocks(pages: Pages, made: Dict[str, str]) -> Iterator[str]:
    for path, text in pages.items():
        for begin, block in made.items():
            if begin in text and text.split(begin)[1].split(END)[0].split() != block.split():
                yield f"{path}: what stands behind {begin.strip()} isn't what ./nozhgiva pages --write makes of crates.txt"
