"""Plays the schedules of examples/standstills, in each of which a group stands still although the members that run are well, and shows each twice: as
it is, and with the stops and starts that the policy of operate/keep asks for.

  ./nozhgiva test standstill -- [--patience SECONDS] [--seconds SECONDS] [FILE..]

Behind the lines of a file time goes on, counted and not waited for: the members that run tick, every message arrives but those that the file says are
cut, and a new client asks for an operation again and again. It takes the built program (crates/vr_app/out/vr_app, made by `rt ci`), or
the one that NOZHGIVA_PROGRAM names. A comment of each file says whether the policy ends it: of some a member's restart is no end. Ends with 0 where each stands still as it
is, and with the policy goes on, or not, as it says; else with 1."""

import argparse
import glob
import os
import sys

from nozhgiva_tools.operate import policy
from nozhgiva_tools.places import EXAMPLES
from nozhgiva_tools.run import built as program, standing


def parse_words() -> argparse.Namespace:
    parser = argparse.ArgumentParser(prog="standstill", description=__doc__, formatter_class=argparse.RawDescriptionHelpFormatter)
    parser.add_argument("files", nargs="*", metavar="FILE", help="schedules (default: all of examples/standstills)")
    parser.add_argument("--patience", type=float, default=policy.PATIENCE, metavar="SECONDS", help="of the policy (default: %(default)s)")
    parser.add_argument("--seconds", type=float, default=45.0, help="how long time goes on behind a file (default: %(default)s)")
    return parser.parse_args()


def show(built: str, path: str, words: argparse.Namespace) -> bool:
    """One file, both ways; whether it is as it has to be."""
    with open(path) as file:
        text = file.read()
    print(f"{os.path.basename(path)}: {text.splitlines()[0][2:]}")
    plain = standing.play(built, text, words.seconds, 0)
    print(f"  as it is: {plain.answers} answers in {words.seconds:.0f} s")
    kept = standing.play(built, text, words.seconds, words.patience)
    for restart in kept.restarts:
        print(f"  {restart.seconds:5.1f} s  member {restart.member} is stopped and started: it {restart.reason}")
    first = "no answer" if kept.first is None else f"first answer after {kept.first:.1f} s"
    wanted = standing.is_ended(text)
    print(f"  with the policy: {kept.answers} answers, {first}" + ("" if wanted else "; a restart is no end of it"))
    return plain.answers == 0 and (kept.first is not None) == wanted


def main() -> int:
    words = parse_words()
    missing = [path for path in words.files if not os.path.isfile(path)]
    if missing:
        print(f"standstill: no file {missing[0]}", file=sys.stderr)
        return 2
    paths = words.files or sorted(glob.glob(str(EXAMPLES / "standstills" / "*.txt")))
    built = program.or_end()
    shown = [show(built, path, words) for path in paths]
    return 0 if shown and all(shown) else 1


if __name__ == "__main__":
    sys.exit(main())
