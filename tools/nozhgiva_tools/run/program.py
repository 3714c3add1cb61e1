"""Prints the path of the program that the scripts of this repository run, and says once on standard error which it is:

  the one that NOZHGIVA_PROGRAM names (nothing is said); PROGRAM, its old name, is still read, which is said;
  else the proved one, crates/vr_app/out/vr_app (made by `rt ci`), where it is newer than every source;
  else the one compiled without proofs, out/vr_app (made by `nozhgiva build`), where it is newer than every source;
  where there are no sources, the one that was installed: the file `program` at the top.

Without any it says what to do, and ends with status 2."""

import argparse
import ctypes
import os
import signal
import sys
from typing import NamedTuple, Optional

from nozhgiva_tools.places import TOP

GIVEN, PROVED, COMPILED, INSTALLED = "given", "proved", "compiled", "installed"
BUILT = ((PROVED, os.path.join("crates", "vr_app", "out", "vr_app")), (COMPILED, os.path.join("out", "vr_app")))
SOURCES = (".rt", ".antt")
DEATH_SIGNAL = 1  # PR_SET_PDEATHSIG of prctl
FORWARDED = (signal.SIGTERM, signal.SIGINT, signal.SIGHUP, signal.SIGQUIT, signal.SIGUSR1, signal.SIGUSR2)  # to a child that runs the program


class Missing(Exception):
    """There is no program; the text says why, and what to do."""


class Found(NamedTuple):
    """The program: its kind, its path, and what is said of it."""

    kind: str
    path: str
    says: str = ""


def is_program(path: str) -> bool:
    return os.path.isfile(path) and os.access(path, os.X_OK)


def newer_than(path: str) -> Optional[str]:
    """A source that is newer than a program, if there is one."""
    made = os.stat(path).st_mtime_ns
    if os.stat(TOP / "crates.txt").st_mtime_ns > made:
        return "crates.txt"
    for folder, names, files in os.walk(TOP / "crates"):
        if "out" in names:
            names.remove("out")
        for name in files:
            if name.endswith(SOURCES) and os.stat(os.path.join(folder, name)).st_mtime_ns > made:
                return os.path.relpath(os.path.join(folder, name), TOP)
    return None


def given() -> Optional[Found]:
    """The one that the environment names."""
    named = os.environ.get("NOZHGIVA_PROGRAM", "")
    old = os.environ.get("PROGRAM", "")
    if not named and not old:
        return None
    path = os.path.realpath(named or old)
    if not is_program(path):
        raise Missing(f"no program: NOZHGIVA_PROGRAM names {path}")
    return Found(GIVEN, path, "" if named else "PROGRAM is the old name of NOZHGIVA_PROGRAM, and still read")


def built(only: str = "") -> Found:
    """The proved one, or else the compiled one; with `only` that of the two."""
    why = "none is built"
    for kind, place in BUILT:
        path = str(TOP / place)
        if (only and only != kind) or not is_program(path):
            continue
        newer = newer_than(path)
        if newer is None:
            return Found(kind, path, f"program: {place}, proved" if kind == PROVED else f"program: {place}, compiled, not proved: `rt ci` proves it")
        why = f"{newer} is newer than {place}"
    raise Missing(f"no program: {why}. `./nozhgiva build` compiles one without proofs (some two minutes), `rt ci` proves it; NOZHGIVA_PROGRAM=PATH names another one")


def find(only: str = "") -> Found:
    """The program that is run; Missing where there is none."""
    found = given() if not only else None
    if found is not None:
        return found
    if (TOP / "crates").is_dir():
        return built(only)
    path = str(TOP / "program")
    if not is_program(path):
        raise Missing(f"no program: {path} isn't there; NOZHGIVA_PROGRAM=PATH names another one")
    return Found(INSTALLED, path)


def or_end() -> str:
    """Its path; without it the script ends with 2. Which one it is, or that there is none, is said on standard error."""
    try:
        found = find()
    except Missing as why:
        print(why, file=sys.stderr)
        sys.exit(2)
    if found.says:
        print(found.says, file=sys.stderr)
    return found.path


def end_with_parent() -> None:
    """In a child that is to run it: it is killed where its parent is, since nothing can be passed on then; and it hears signals again. A data file that it makes
    holds all keys and values, and is for its owner alone."""
    os.umask(0o077)
    try:
        ctypes.CDLL(None).prctl(DEATH_SIGNAL, signal.SIGKILL)
    except (OSError, AttributeError):
        pass
    signal.pthread_sigmask(signal.SIG_UNBLOCK, FORWARDED)


def make_parser() -> argparse.ArgumentParser:
    parser = argparse.ArgumentParser(prog="program", description=__doc__, formatter_class=argparse.RawDescriptionHelpFormatter)
    parser.add_argument("--kind", action="store_true", help="write its kind (given, proved, compiled, installed) before the path")
    parser.add_argument("--quiet", action="store_true", help="don't say which one was found")
    which = parser.add_mutually_exclusive_group()
    which.add_argument("--proved", dest="only", action="store_const", const=PROVED, default="", help="the proved one alone, whatever NOZHGIVA_PROGRAM names")
    which.add_argument("--compiled", dest="only", action="store_const", const=COMPILED, help="the compiled one alone")
    return parser


def main() -> int:
    words = make_parser().parse_args()
    try:
        found = find(words.only)
    except Missing as why:
        print(why, file=sys.stderr)
        return 2
    if found.says and not words.quiet:
        print(found.says, file=sys.stderr)
    print(f"{found.kind} {found.path}" if words.kind else found.path)
    return 0


def run() -> None:
    sys.exit(main())


if __name__ == "__main__":
    run()
