"""Writes the keys of a group, out of the data file of one member, as a text with a checksum.

  backup FILE > BACKUP           to standard output
  backup FILE --to BACKUP        to a file, for its owner alone, which replaces what is there only once it is whole

It has the keys of the newest checkpoint, and what the operations after it made of them, up to the commit number that the file tells: all of it was
committed. The member may run meanwhile: what it just writes is read again. A file's commit number is that of its last checkpoint or change of view, so
what was committed since, at most some 64 operations, isn't in the backup; 64 gets, asked before, bring the file up to what was there then. Each line
`uncommitted ..`, which only --uncommitted writes, is an operation above it: it may have been acknowledged, or it may never be. Sessions aren't kept.
Ends with 0: written, and said on standard error what. 1: the file can't be read, or not wholly; nothing is written then. 2: the words. 6: no room."""

import argparse
import sys

from . import backups, standard

REFUSED, UNWRITTEN = 1, 6


def make_parser() -> argparse.ArgumentParser:
    parser = argparse.ArgumentParser(prog="backup", description=__doc__, formatter_class=argparse.RawDescriptionHelpFormatter)
    parser.add_argument("file", metavar="FILE", help="the member's data file")
    parser.add_argument("--to", metavar="BACKUP", help="where the backup is written (default: standard output)")
    parser.add_argument("--uncommitted", action="store_true", help="write the operations above the commit number too, each marked")
    return parser


def parse_words() -> argparse.Namespace:
    return make_parser().parse_args()


def say(text: str) -> None:
    print(f"backup: {text}", file=sys.stderr)


def tell(backup: backups.Backup, above: backups.Above, has_above: bool) -> None:
    """What was written, and what wasn't."""
    say(backup.describe())
    if not has_above and above.last > backup.op:
        say(f"operations {backup.op + 1} to {above.last} stand above the commit number, and aren't in it; --uncommitted writes them too")
    if above.head > above.last:
        say(f"operations {above.last + 1} to {above.head} stand above it as well, and can't be read here")


def put_out(text: bytes, path: str) -> None:
    if path:
        return backups.write(path, text)
    sys.stdout.buffer.write(text)
    sys.stdout.buffer.flush()


def main() -> int:
    words = parse_words()
    try:
        backup, above = backups.read_file(words.file)
    except backups.Unreadable as why:
        say(f"refused: {words.file}: {why}. Take the file of another member")
        return REFUSED
    except OSError as error:
        say(f"refused: {words.file}: {error.strerror}")
        return REFUSED
    if not words.uncommitted:
        backup = backup._replace(above=[])
    try:
        put_out(backups.spell(backup), words.to)
    except BrokenPipeError:
        raise
    except OSError as error:
        standard.forget_output()
        say(f"{words.to or 'standard output'} can't be written: {error.strerror}")
        return UNWRITTEN
    tell(backup, above, words.uncommitted)
    return 0


def run() -> None:
    """Runs it to its end."""
    standard.end(main)


if __name__ == "__main__":
    run()
