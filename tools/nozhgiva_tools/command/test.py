"""Proves and tests everything: `rt ci`, and after it the checks of tests/checks.txt, which need no proofs and no root.

  ./nozhgiva test               both; the checks have 28 minutes, and what is left then is left out
  ./nozhgiva test --all         the slow checks too, however long all take
  ./nozhgiva test --quick       no proofs, for between two edits: builds the program where it is older than a source (./nozhgiva build), and runs the quick
                             checks; what doesn't fit into five minutes is left out
  ./nozhgiva test --checks      the checks alone, with the program that is built; with --all the slow ones too
  ./nozhgiva test NAME..        these checks alone, with the program that is built
  ./nozhgiva test NAME -- WORD..  one check, at this terminal, with these words in the place of its own: as `./nozhgiva test hunt -- --minutes 10`; those of
                                pytest come behind its own: `./nozhgiva test operate -- -k test_keep`
  ./nozhgiva test --list        what checks there are, and how long each takes

Before anything else it has apt-get install what the checks need and is missing (tests/packages.txt), which takes root; it says so before it begins,
and --no-install goes without. Where it can't, and with --quick or names, it says what is missing. A check whose tool is missing is left out, and it is
said why. One that rests on time is tried once more before it counts as failed. Where CI is set, a package that CI must have and that the registry
didn't lack counts as failed. The last line is `N passed, M failed`: crates, mutation tests and checks together; before it stands what was left out,
and how much. Ends with 0 where nothing failed and something passed, else with 1; with 2 where the words are wrong."""

import argparse
import math
import os
import re
import signal
import subprocess
import sys
import tempfile
import time
from typing import List, NoReturn, Optional, Tuple

from nozhgiva_tools.places import in_memory, NOZHGIVA, TOP

from . import checking, kit, packages

MINUTES, QUICK_MINUTES = 28, 5
SUM = re.compile(r"(\d+) passed, (\d+) failed")


def say(text: str) -> None:
    print(text, flush=True)


def make_parser() -> argparse.ArgumentParser:
    parser = argparse.ArgumentParser(prog="test", description=__doc__, formatter_class=argparse.RawDescriptionHelpFormatter)
    parser.add_argument("--all", action="store_true", help="the slow checks too")
    parser.add_argument("--quick", action="store_true", help="no proofs, five minutes")
    parser.add_argument("--checks", action="store_true", help="no proofs: the checks alone")
    parser.add_argument("--no-install", action="store_true", help="have apt-get install nothing")
    parser.add_argument("--list", action="store_true", help="what checks there are, and how long each takes")
    parser.add_argument("names", nargs="*", metavar="NAME", help="these checks alone; of one, words behind -- are given to it in the place of its own")
    return parser


def parse_words() -> argparse.Namespace:
    parser = make_parser()
    given = sys.argv[1:]
    at = given.index("--") if "--" in given else len(given)
    words = parser.parse_args(given[:at])
    words.given = given[at + 1:] if at < len(given) else None
    if words.given is not None and len(words.names) != 1:
        parser.error("words behind -- go to one check, whose name stands before it")
    unknown = set(words.names) - {one.name for one in checking.read_table()}
    if unknown:
        parser.error(f"no check {', '.join(sorted(unknown))}: --list has them")
    if words.all and (words.quick or words.names):
        parser.error("--all is for all checks: neither --quick nor names go with it")
    return words


def prove() -> Tuple[int, int]:
    """Runs `rt ci`, and gives how much passed and how much failed."""
    rt = kit.find_rt()
    if rt is None:
        say("rt ci: `rt` isn't in PATH: without Rattle's toolchain, which isn't part of this repository, nothing can be proved")
        return 0, 1
    found: Optional[Tuple[int, int]] = None
    with subprocess.Popen([rt, "ci"], cwd=TOP, stdin=subprocess.DEVNULL, stdout=subprocess.PIPE, stderr=subprocess.STDOUT, text=True, errors="replace") as child:
        assert child.stdout is not None
        for line in child.stdout:
            counts = SUM.fullmatch(line.strip())
            found = (int(counts[1]), int(counts[2])) if counts else found
            say(f"rt ci: {line.rstrip()}" if counts else line.rstrip())
    if found is None:
        say(f"rt ci: it ended with status {child.returncode}, and doesn't say how much passed")
        return 0, 1
    return found[0], max(found[1], int(child.returncode != 0))


def build_if_older() -> bool:
    """Compiles the program where there is none that is newer than the sources; whether one is there."""
    if checking.find_program():
        return True
    return subprocess.run([str(NOZHGIVA), "build"], stdin=subprocess.DEVNULL, check=False).returncode == 0


def list_checks() -> int:
    checks = checking.read_table()
    for one in checks:
        marks = [f"some {one.seconds} s", *(f"needs {need}" for need in one.needs), *sorted(one.marks)]
        say(f"{one.name}: {' '.join(one.command)} ({', '.join(marks)})")
    slow = [one.seconds for one in checks if checking.SLOW in one.marks]
    others = [one.seconds for one in checks if not one.marks & {checking.SLOW, checking.NAMED}]
    say(f"{len(checks) - len(others) - len(slow)} that are run by their name alone, since another one runs them too")
    say(f"in all: {len(others)} checks, some {sum(others) / 60:.0f} minutes; and {len(slow)} slow ones, with --all alone, some {sum(slow) / 60:.0f} minutes")
    return 0


def choose(words: argparse.Namespace) -> List[checking.Check]:
    """Those that are named; else all that are quick, where that is asked for, and without --all none that is slow."""
    table = checking.read_table()
    if words.names:
        return [one for one in table if one.name in words.names]
    table = [one for one in table if checking.NAMED not in one.marks]
    return [one for one in table if (checking.QUICK in one.marks or not words.quick) and (words.all or checking.SLOW not in one.marks)]


def time_until(words: argparse.Namespace, begun: float) -> float:
    """When the checks end at the latest, by the clock that begins somewhere."""
    if words.quick:
        return begun + 60 * QUICK_MINUTES
    return math.inf if words.all or words.names else time.monotonic() + 60 * MINUTES


def run_one(name: str, words: List[str]) -> int:
    """Runs a check with other words than its own, at this terminal, and gives its code."""
    check = checking.with_words(next(one for one in checking.read_table() if one.name == name), words)
    asks_help = not {"-h", "--help"}.isdisjoint(words)
    why = checking.lacks(check, checking.find_program())
    if why and not asks_help:
        say(f"nothing was tried: {why}")
        return checking.NONE
    os.chdir(TOP)
    called = checking.words_to_run(check.command)
    sys.stdout.flush()
    os.execvpe(called[0], called, {**os.environ, "PYTHONDONTWRITEBYTECODE": "1"})


def end_by_signal(number: int, _: object) -> NoReturn:
    sys.exit(128 + number)


def tell_end(run: checking.Run, passed: int, failed: int) -> int:
    """The last lines, and the exit code."""
    for line in run.left_out:
        say(f"left out: {line}")
    if run.left_out:
        say(f"left out: {run.without} checks, and parts of {run.in_part}")
    if not passed:
        say("nothing was checked" if not failed else "nothing passed")
    say(f"{passed} passed, {failed} failed")
    return 1 if failed or not passed else 0


def main() -> int:
    words = parse_words()
    if words.list:
        return list_checks()
    if words.given is not None:
        return run_one(words.names[0], words.given)
    for number in (signal.SIGTERM, signal.SIGHUP):
        signal.signal(number, end_by_signal)
    begun, chosen = time.monotonic(), choose(words)
    is_part = words.quick or bool(words.names)
    is_set_up = packages.set_up(say, {one.name for one in chosen}, not (is_part or words.no_install))
    passed, failed = 0, int(not is_set_up)
    if words.quick and not build_if_older():
        failed += 1
    elif not (is_part or words.checks):
        proved = prove()
        passed, failed = proved[0], failed + proved[1]
    with tempfile.TemporaryDirectory(prefix="nozhgiva-", dir=os.environ.get("TMPDIR") or in_memory()) as folder:
        run = checking.Run(TOP, folder, time_until(words, begun), say)
        run.all_of(chosen)
    return tell_end(run, passed + run.passed, failed + run.failed)


def run() -> None:
    """Runs it to its end."""
    try:
        sys.exit(main())
    except KeyboardInterrupt:
        sys.exit(130)
    except BrokenPipeError:
        os.dup2(os.open(os.devnull, os.O_WRONLY), 1)
        print("test: nobody reads standard output", file=sys.stderr)
        sys.exit(6)


if __name__ == "__main__":
    run()
