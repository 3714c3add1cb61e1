"""Makes the page that plays: one file in which a browser runs the program itself, without a network.

  play > play.html             of the module out/nozhgiva.bc, which `./nozhgiva build` leaves, or the one that PLAY_MODULE names
  play --proved > play.html    of the module of a build that proved it, and the page says so (docs/PLAY.md)
  play --wasm > program.wasm   the program alone

The compiler of the kit makes WebAssembly of the module, which takes some three minutes of a processor the first time; it says how far it is. A module
of other sources than those that are there is refused. With `wasm-opt` (Debian's package binaryen) the page also runs in browsers without 64-bit
memories, and the program waits for the next line; without it each line plays the whole schedule anew. Exit status: 2 for wrong words, 3 where
something is missing, stale, or fails."""

import argparse
import json
import os
import subprocess
import sys

from nozhgiva_tools.places import TOP

from .player.building import is_older, kit_name, Missing, program_of
from .player.paging import page_of


def commit_of() -> str:
    """The commit of this clone, with a word where files were changed since."""
    made = subprocess.run(["git", "-C", str(TOP), "rev-parse", "--short=12", "HEAD"], capture_output=True, text=True, check=False)
    if made.returncode:
        return "unknown"
    changed = subprocess.run(["git", "-C", str(TOP), "status", "--porcelain", "--untracked-files=no"], capture_output=True, text=True, check=False).stdout
    return made.stdout.strip() + (" with changes" if changed else "")


def origin(is_proved: bool) -> str:
    """What the page says of where its program comes from."""
    said = "It was proved." if is_proved else "It was compiled, not proved: <code>rt ci</code> proves the source, and this build left that out."
    older = " (its module was made before the last change of a source)" if is_older() else ""
    return f"This is the program of commit <code>{commit_of()}</code>{older}, by the kit <code>{kit_name()}</code>. {said}"


def make_parser() -> argparse.ArgumentParser:
    parser = argparse.ArgumentParser(prog="play", description=__doc__, formatter_class=argparse.RawDescriptionHelpFormatter)
    either = parser.add_mutually_exclusive_group()
    either.add_argument("--proved", action="store_true", help="say on the page that its program was proved")
    either.add_argument("--wasm", action="store_true", help="write the program alone, as WebAssembly")
    return parser


def main() -> int:
    words = make_parser().parse_args()
    try:
        program = program_of()
        if words.wasm:
            sys.stdout.buffer.write(program)
        else:
            sys.stdout.write(page_of(program, origin(words.proved)))
        sys.stdout.flush()
    except BrokenPipeError:
        os.dup2(os.open(os.devnull, os.O_WRONLY), 1)
        return 3
    except (Missing, OSError, subprocess.SubprocessError, json.JSONDecodeError) as error:
        print(f"play: {error}", file=sys.stderr)
        return 3
    return 0


def run() -> None:
    """Runs it to its end."""
    sys.exit(main())


if __name__ == "__main__":
    run()
