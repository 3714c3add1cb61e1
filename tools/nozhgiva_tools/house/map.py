"""Prints the map of the crates, row by row from the lowest on: each crate with its lines of text and its sentence, as crates.txt says.

With words only crates in whose name, sentence or row all of them stand: so `./nozhgiva map checkpoint` tells where checkpoints are. The lines are those
of src, specs and proofs. With a file that ./nozhgiva gate-cost saved, the seconds of a processor that each crate cost the gate stand beside them.

It ends with 1 where no crate has the words, or where --check finds that the map is wrong; with 2 where the words are wrong, or a file can't be read.
"""

import argparse
import json
import os
import sys
from pathlib import Path
from typing import Dict, List, Optional

from . import mapping


class Unread(Exception):
    """A file that can't be read, or isn't what it should be."""


def make_parser() -> argparse.ArgumentParser:
    what, _, more = (__doc__ or "").partition("\n\n")
    form = argparse.ArgumentParser(prog="map", description=what, epilog=more, formatter_class=argparse.RawDescriptionHelpFormatter)
    form.add_argument("--cost", metavar="FILE", type=Path, help="tells the seconds too, out of a file that ./nozhgiva gate-cost saved")
    form.add_argument("--check", action="store_true", help="only tells what is wrong: a crate without a line, a row or a sentence, or above what it uses")
    form.add_argument("words", metavar="WORD", nargs="*", help="only the crates that have each of these (default: all)")
    return form


def words() -> argparse.Namespace:
    parser = make_parser()
    said = parser.parse_args()
    if said.check and (said.words or said.cost):
        parser.error("--check goes with no other word")
    return said


def seconds_of(path: Optional[Path]) -> Optional[Dict[str, float]]:
    """The seconds of each crate out of a saved run."""
    if path is None:
        return None
    try:
        saved = json.loads(path.read_text(encoding="utf-8"))
        return {name: sum(map(float, kinds.values())) for name, kinds in saved[0].items()}
    except (OSError, UnicodeDecodeError) as error:
        raise Unread(f"{path} can't be read: {error}") from error
    except (ValueError, LookupError, AttributeError, TypeError) as error:
        raise Unread(f"{path} is nothing that ./nozhgiva gate-cost --save wrote") from error


def check(rows: List[mapping.Row]) -> int:
    faults = list(mapping.faults(rows, mapping.folders()))
    print("\n".join(faults) or f"{sum(len(row.crates) for row in rows)} crates in {len(rows)} rows, nothing to mend")
    return 1 if faults else 0


def main() -> int:
    said = words()
    try:
        rows, seconds = mapping.read(), seconds_of(said.cost)
    except OSError as error:
        raise Unread(f"{error.filename}: {error.strerror}; it wants a clone of the repository") from error
    if said.check:
        return check(rows)
    found = rows
    for word in said.words:
        found = mapping.fitting(found, word)
    if not found:
        print(f"map: no crate has {' and '.join(said.words)!r} in its name, its sentence or its row", file=sys.stderr)
        return 1
    print("\n".join(mapping.told(found, seconds)).rstrip())
    return 0


def run() -> None:
    """Runs it to its end."""
    try:
        status = main()
        sys.stdout.flush()
        sys.exit(status)
    except Unread as refused:
        print(f"map: {refused}", file=sys.stderr)
        sys.exit(2)
    except KeyboardInterrupt:
        sys.exit(130)
    except BrokenPipeError:
        os.dup2(os.open(os.devnull, os.O_WRONLY), sys.stdout.fileno())
        sys.exit(141)


if __name__ == "__main__":
    run()
