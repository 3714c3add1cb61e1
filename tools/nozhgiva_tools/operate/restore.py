"""Puts the keys of a backup into a new group, by a client, and reads them back.

  restore BACKUP CLUSTER ADDR.. [--v2]     into the group CLUSTER, which has another number than the one that was lost
  restore BACKUP --check                   only looks whether the backup is whole, and says what it holds

Before anything is written it looks at all of it, and refuses: a backup that is damaged or was cut off; a value that is longer than the group's version
takes; the number of the group that was backed up, since a member of it that comes back would mix with the new ones; a group that has one of the keys
with another value, so isn't new. With --over the last two are taken: keys of the backup get its values, and other keys stay. Where it was interrupted,
or had no answer, it may be run again. Sessions aren't restored: each client registers anew.
Ends with 0: all keys were put and read back. 1: refused, or a key isn't there afterwards. 2: the words, or no program. 13: no answer; run it again."""

import argparse
import subprocess
import sys
from typing import Dict, List, Optional

from nozhgiva_tools import places
from nozhgiva_tools.told import datafile

from . import backups, standard
from .processes import pipe

REFUSED, WORDS = 1, 2
MOST_NAMED = 3  # keys that are named where many are wrong


class Refused(Exception):
    """Nothing is written; the text says why."""


class Ended(Exception):
    """The client has no answer; its text says why, its code is that of the client."""

    def __init__(self, code: int, text: str) -> None:
        super().__init__(text)
        self.code = code


def make_parser() -> argparse.ArgumentParser:
    parser = argparse.ArgumentParser(prog="restore", description=__doc__, formatter_class=argparse.RawDescriptionHelpFormatter)
    parser.add_argument("backup", metavar="BACKUP", help="what operate/backup wrote")
    parser.add_argument("cluster", nargs="?", type=int, metavar="CLUSTER", help="the number of the new group")
    parser.add_argument("addresses", nargs="*", metavar="ADDR", help="the addresses of all its members, in their order")
    parser.add_argument("--check", action="store_true", help="look at the backup alone, and ask nobody")
    parser.add_argument("--v2", action="store_true", help="the new group's files are of version 2")
    parser.add_argument("--uncommitted", action="store_true", help="restore the marked operations too, which may never have been committed")
    parser.add_argument("--over", action="store_true", help="into a group that is in use, or the one that was backed up")
    parser.add_argument("--for", type=float, default=60.0, dest="most", metavar="SECONDS", help="try each line for so long (default: %(default)s)")
    parser.add_argument("--program", default=standard.program(), help="the program (default: $NOZHGIVA_PROGRAM, else vr_app)")
    return parser


def parse_words() -> argparse.Namespace:
    parser = make_parser()
    words = parser.parse_args()
    if words.check != (words.cluster is None):
        parser.error("give CLUSTER and the addresses, or --check")
    if not words.check and not words.addresses:
        parser.error("give the addresses of the new group's members")
    return words


def some(keys: List[str]) -> str:
    """A few keys by their names, and how many there are."""
    more = f" and {len(keys) - MOST_NAMED} more" if len(keys) > MOST_NAMED else ""
    return ", ".join(keys[:MOST_NAMED]) + more


class Asker:
    """A client of the group, by operate/ask."""

    def __init__(self, words: argparse.Namespace) -> None:
        command = [*places.words_of_module("nozhgiva_tools.operate.ask"), "--again", "--for", str(words.most), "--program", words.program, str(words.cluster)] + words.addresses
        command += ["--v2"] * words.v2
        self.child = subprocess.Popen(command, stdin=subprocess.PIPE, stdout=subprocess.PIPE, text=True, bufsize=1)
        self.input, self.output = pipe(self.child.stdin), pipe(self.child.stdout)

    def ask(self, line: str) -> str:
        try:
            self.input.write(line + "\n")
            answer = self.output.readline().strip()
        except BrokenPipeError:
            answer = ""
        if answer in ("", "unknown", "not asked"):
            raise self.end()
        return answer

    def end(self) -> Ended:
        """Why it doesn't answer."""
        self.close()
        code = self.child.wait()
        if code == 13:
            return Ended(code, "the group doesn't answer: look whether its members run, at the addresses and their order. Then run this again")
        return Ended(WORDS, "the client ended: what it said stands above")

    def close(self) -> None:
        try:
            self.input.close()
        except BrokenPipeError:
            pass
        self.child.wait()
        self.output.close()

    def value(self, key: str) -> Optional[str]:
        answer = self.ask(f"get {key}")
        return answer[len("value "):] if answer.startswith("value ") else None


Values = Dict[str, Optional[str]]  # of the keys; None for one that isn't there


def check_before(backup: backups.Backup, keys: Values, words: argparse.Namespace) -> None:
    """What can be refused without asking anybody."""
    version = 2 if words.v2 else 1
    most = datafile.VALUE[version]
    long = sorted(key for key in keys if len(keys[key] or "") > most)
    if long:
        more = "has a longer one" if len(long) == 1 else "have longer ones"
        raise Refused(f"a group of version {version} takes values of at most {most:,} bytes, and {some(long)} {more}: make the new group of version 2, and say --v2")
    if words.cluster == backup.group and not words.over:
        raise Refused(f"{words.cluster} is the number of the group that was backed up: give the new one another number, since a member of the old one that comes back would mix with it")


def check_group(asker: Asker, keys: Values) -> None:
    """Whether the group is new, as far as these keys tell, or has what an earlier restore put there."""
    others = [key for key in sorted(keys) if asker.value(key) not in (None, keys[key])]
    if others:
        raise Refused(f"the group isn't new: it has other values of {some(others)}. --over replaces them")


def put_all(asker: Asker, keys: Values) -> None:
    for key in sorted(keys, key=lambda one: (keys[one] is not None, one)):  # what is deleted makes room
        answer = asker.ask(f"del {key}" if keys[key] is None else f"put {key} {keys[key]}")
        if answer == "full":
            raise Ended(REFUSED, f"put {key}: full: the group has other keys than those of the backup, and holds {datafile.KEYS}; what was put stays")
    wrong = [key for key in sorted(keys) if asker.value(key) != keys[key]]
    if wrong:
        raise Ended(REFUSED, f"read back, {some(wrong)} {'has' if len(wrong) == 1 else 'have'} another value: somebody else writes to the group")


def restore(words: argparse.Namespace) -> int:
    backup = backups.read_text(words.backup)
    if words.check:
        print(f"whole: {backup.describe()}")
        return 0
    keys = backups.keys_after(backup, words.uncommitted)
    check_before(backup, keys, words)
    asker = Asker(words)
    try:
        if not words.over:
            check_group(asker, keys)
        put_all(asker, keys)
    finally:
        asker.close()
    left = len(backup.above) if not words.uncommitted else 0
    count = sum(value is not None for value in keys.values())
    print(f"restored: {count} keys of group {backup.group} at operation {backup.op}{', and what stood above it' if backup.above and not left else ''}")
    if left:
        print(f"restore: {left} changes in the backup may not be committed, and weren't restored; --uncommitted restores them too", file=sys.stderr)
    return 0


def main() -> int:
    words = parse_words()
    try:
        return restore(words)
    except (backups.Damaged, Refused) as why:
        prefix = f"{words.backup}: " if isinstance(why, backups.Damaged) else ""
        print(f"restore: refused: {prefix}{why}", file=sys.stderr)
        return REFUSED
    except Ended as why:
        print(f"restore: {why}", file=sys.stderr)
        return why.code
    except OSError as error:
        print(f"restore: refused: {words.backup}: {error.strerror}", file=sys.stderr)
        return REFUSED


def run() -> None:
    """Runs it to its end."""
    standard.end(main)


if __name__ == "__main__":
    run()
