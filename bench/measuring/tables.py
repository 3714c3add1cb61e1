"""Tables of docs/FIGURES.md: how they are written, and where they stand."""

from typing import List, Sequence

from nozhgiva_tools.house.paging import counting

from . import PAGE, Refused


def table(columns: Sequence[str], rows: Sequence[Sequence[object]]) -> List[str]:
    """The lines of a table."""
    if any(len(row) != len(columns) for row in rows):
        raise ValueError("a row isn't as wide as its table")
    return [row_of(columns), "|" + "---|" * len(columns), *map(row_of, rows)]


def row_of(cells: Sequence[object]) -> str:
    return f"| {' | '.join(map(str, cells))} |"


def grouped(value: float, digits: int = 0) -> str:
    """A number as pages have it: with commas between its thousands."""
    return f"{value:,.{digits}f}"


def marker(block: str) -> str:
    """The line of the page after which a block stands."""
    return f"<!-- bench/figures {block} -->\n"


def has(text: str, block: str) -> bool:
    return marker(block) in text and counting.END in text.partition(marker(block))[2]


def put(text: str, block: str, lines: Sequence[str]) -> str:
    """The page with these lines where the block stands; Refused where it has no such place."""
    if not has(text, block):
        raise Refused(f"{PAGE.name} has no place for {block}: a line {marker(block).strip()}, and after it {counting.END}")
    return counting.with_blocks(text, {marker(block): "\n" + "".join(f"{line}\n" for line in lines) + "\n"})


def block_of(text: str, block: str) -> List[str]:
    """The lines that stand there."""
    return [line for line in text.partition(marker(block))[2].partition(counting.END)[0].splitlines() if line]


def page_with(block: str, lines: Sequence[str]) -> str:
    """The page with these lines there."""
    try:
        return put(PAGE.read_text(encoding="utf-8"), block, lines)
    except OSError as error:
        raise Refused(f"{PAGE} can't be read: {error.strerror}") from error


def write(block: str, lines: Sequence[str]) -> None:
    """Puts them on the page."""
    text = page_with(block, lines)
    try:
        PAGE.write_text(text, encoding="utf-8")
    except OSError as error:
        raise Refused(f"{PAGE} can't be written: {error.strerror}") from error
