"""Asks the keeper of a member for its health, and prints the line.

  health /var/lib/nozhgiva/0.socket      by its socket, on its machine
  health 10.0.0.1:4100                   by the port that keep --health opens

Ends with 0 where the member is well, with 1 where it isn't, with 3 where no keeper answers. The words of the line:

  well         yes, or why not: corrupt (it applied something else than before); down; hangs (no turn for a second); no_file (nothing at FILE can be
               read as its file: don't stop it); changes (in a view change for 5 seconds); stands (it stands still for half the patience); lacks_blocks
               (it votes, and applies nothing until it has its checkpoint's blocks); unsure (its file can't tell of some slots)
  state, view  leads, follows, changes or down, and in which view
  applied, commit, head
               the operations that it has applied (0: not known), knows as committed, has in its log. A follower in an idle group writes nothing, so
               these are of its last word
  asks, mends  what it can't go on without; what its disk lost and its memory has: don't restart it then (-: nothing)
  stands, waits, ago
               seconds that it has stood still with something open; that clients have asked in vain; since it applied something
  up, restarts, ends
               seconds that it runs; how often its keeper restarted it because it stood still; how often it ended otherwise
  lines, dropped
               lines that the member wrote, and those that the log couldn't take
  unsure, damaged
               how many slots its file can't tell of; how many damaged places something stands on, those among them
  version, mode; keys, sessions
               of its file; that the group holds
  checkpoint, anchored, missing, lost, unknown, last
               what its file holds of what a whole quorum needs: its checkpoint, whether that operation's header is known, how many blocks can't be
               read; above it the operations that are lost, those of which it can't tell, the last known header
  root, has_state
               the name of the checkpoint's root, which is the same at all members that have that checkpoint; whether it has each of its blocks
  looked       seconds since the file was looked at: once a minute, and for whoever asks if it is older than two seconds
  views, undecided
               views entered in the last 30 seconds; the operation for which its choice of a log waits

docs/OPERATING.md says what to do when."""

import argparse
import os
import sys

from . import asking, doors, standard, vitals as health


def is_port(place: str) -> bool:
    """Whether a place is HOST:PORT, and no path of a socket."""
    try:
        doors.place_of(place)
    except ValueError:
        return False
    return "/" not in place and not os.path.exists(place)


def make_parser() -> argparse.ArgumentParser:
    parser = argparse.ArgumentParser(prog="health", description=__doc__, formatter_class=argparse.RawDescriptionHelpFormatter)
    parser.add_argument("place", metavar="PLACE", help="the keeper's socket, FILE.socket, or its port, HOST:PORT")
    parser.add_argument("--restart", action="store_true", help="stop and start the member instead; by the socket alone")
    return parser


def parse_words() -> argparse.Namespace:
    parser = make_parser()
    words = parser.parse_args()
    if words.restart and is_port(words.place):
        parser.error(f"--restart takes the keeper's socket, FILE.socket, on the member's machine; the port {words.place} only tells")
    return words


def ask(words: argparse.Namespace) -> str:
    """What the keeper answers; OSError where none does."""
    if is_port(words.place):
        return asking.ask_port(words.place)
    return asking.ask(words.place, "restart" if words.restart else "health")


def main() -> int:
    words = parse_words()
    try:
        answer = ask(words)
    except OSError as error:
        print(f"health: no keeper answers at {words.place}: {error.strerror or error}", file=sys.stderr)
        return 3
    print(answer)
    if words.restart:
        return 0 if answer == "restarting" else 1
    try:
        return 0 if health.read(answer)["well"] == "yes" else 1
    except ValueError as error:
        print(f"health: {error}", file=sys.stderr)
        return 3


def run() -> None:
    """Runs it to its end."""
    standard.end(main)


if __name__ == "__main__":
    run()
