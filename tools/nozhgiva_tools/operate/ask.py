"""Asks a group to put, get or delete keys, in one session a run.

  ask [CLUSTER ADDR..] get KEY             writes the value alone
  ask [CLUSTER ADDR..] put KEY VALUE
  ask [CLUSTER ADDR..] del KEY
  ask [CLUSTER ADDR..] < LINES             lines `put KEY VALUE`, `get KEY`, `del KEY`, as for `client`; each answer is a line

CLUSTER is the group's number, ADDR.. are the addresses of all members, in their order. Without them the group is the one of the environment:
NOZHGIVA_GROUP is its number, and NOZHGIVA_ADDRS has the addresses, with spaces between them; or NOZHGIVA_GROUP is a file that says CLUSTER=.. and
ADDRS="..". Without NOZHGIVA_GROUP it is that of /etc/nozhgiva/group, such a file. CLUSTER ADDR.. may stand behind KEY or VALUE too, and behind --
what begins with a dash is a key or a value.

A line is asked until its answer comes, under one number, so it is executed at most once however often it is asked. Where none comes in --for seconds
`unknown` is written where it may have been executed, `not asked` where it wasn't, and ask ends with 13. So it does where the group has ended the
session and a put or a del may have been executed; a get is asked again in a new one. What seems to be wrong is said on standard error within a second.

Ends with 0, with 1 where a key isn't there or there is no room for it (at get, put and del as words), with 2 where the words are wrong, with 3 where a
line is refused, with 6 where standard output can't be written, with 13 without an answer."""

from __future__ import annotations

import os
import sys
import time

from nozhgiva import Delete, Error, Get, Group, OutcomeKind, Put, SessionLost, Unknown, Unresolved
from nozhgiva.messages import encode_operation

TYPE_CHECKING = False  # what type checkers take for true; typing is nearly half of what this script would read
if TYPE_CHECKING:
    import argparse
    from typing import Dict, List, NoReturn, Optional, Tuple

    from nozhgiva import Operation, Outcome, Session

FORMS = {"put": (Put, ("KEY", "VALUE")), "get": (Get, ("KEY",)), "del": (Delete, ("KEY",))}
FILE = "/etc/nozhgiva/group"
UNKNOWN, NOT_ASKED = "unknown", "not asked"
MISSING, REFUSED, NO_OUTPUT, NO_ANSWER = 1, 3, 6, 13
PAUSE = 0.5  # seconds between two tries where no name can be resolved


class Refused(Exception):
    """The line is none that a client takes."""


class Wrong(Exception):
    """The words are wrong, or don't say which group is meant."""


class Words:
    """What the command line says."""

    def __init__(self) -> None:
        self.words: List[str] = []
        self.v2 = False
        self.most = 60.0


def quick(given: List[str]) -> Optional[Words]:
    """The words, where they are plain ones; None where `full` has to look at them."""
    found, rest = Words(), iter(given)
    for word in rest:
        if word == "--":
            found.words += rest
        elif word == "--v2":
            found.v2 = True
        elif word in ("--for", "--program"):
            value = next(rest, "")
            if word == "--for" and not value.isdecimal():
                return None
            found.most = float(value) if word == "--for" else found.most
        elif not word.startswith("-"):
            found.words.append(word)
        elif word != "--again":
            return None
    return found if found.most > 0 else None


def make_parser() -> argparse.ArgumentParser:
    import argparse  # a third of all that would be read, and seldom needed

    parser = argparse.ArgumentParser(prog="ask", description=__doc__, formatter_class=argparse.RawDescriptionHelpFormatter)
    parser.add_argument("words", nargs="*", metavar="WORD", help="the group, and what it is asked, as above")
    parser.add_argument("--v2", action="store_true", help="the group's files are of version 2; without it that is found out")
    parser.add_argument("--again", action="store_true", help="was to ask puts and dels again too; that is done always now, and never executes one twice")
    parser.add_argument("--for", type=float, default=60.0, dest="most", metavar="SECONDS", help="ask each line for so long (default: %(default)s)")
    parser.add_argument("--program", help="was the program; none is needed now")
    return parser


def full(given: List[str]) -> Words:
    """The words as argparse reads them: it knows help, and what is wrong."""
    parser = make_parser()
    read = parser.parse_args(given)
    if not read.most > 0:
        parser.error("--for is above 0")
    found = Words()
    found.words, found.v2, found.most = read.words, read.v2, read.most
    return found


def parted(words: List[str]) -> Tuple[List[str], List[str]]:
    """The words of the group, and those of what is asked; either may be none."""
    at = next((place for place, word in enumerate(words) if word in FORMS), len(words))
    if at == len(words):
        return words, []
    end = at + 1 + len(FORMS[words[at]][1])
    if len(words) < end or (at and len(words) > end):
        raise Wrong(f"it is {form(words[at])}")
    return words[:at] or words[end:], words[at:end]


def form(kind: str) -> str:
    return " ".join([kind, *FORMS[kind][1]])


def read_group(path: str) -> List[str]:
    """The group's number and addresses, as a file has them for systemd and for a shell."""
    said: Dict[str, str] = {}
    try:
        with open(path, encoding="utf-8", errors="replace") as file:
            for line in file:
                name, _, value = line.strip().partition("=")
                said[name] = value.strip("\"'")
    except OSError as error:
        if path == FILE and isinstance(error, FileNotFoundError):
            raise Wrong(f"which group? Give CLUSTER ADDR.., or set NOZHGIVA_GROUP and NOZHGIVA_ADDRS, or write {FILE}") from None
        raise Wrong(f"{path}: {(error.strerror or str(error)).lower()}") from None
    if not said.get("CLUSTER") or not said.get("ADDRS"):
        raise Wrong(f"{path}: it doesn't say CLUSTER=.. and ADDRS=\"..\"")
    return [said["CLUSTER"], *said["ADDRS"].split()]


def from_environment() -> List[str]:
    """The group's number and addresses, where the words have none."""
    group, addresses = os.environ.get("NOZHGIVA_GROUP", ""), os.environ.get("NOZHGIVA_ADDRS", "").split()
    if group.isdecimal() and addresses:
        return [group, *addresses]
    if group.isdecimal():
        raise Wrong("NOZHGIVA_GROUP is a number, so NOZHGIVA_ADDRS has to have the addresses of all members")
    if addresses:
        raise Wrong("NOZHGIVA_ADDRS needs NOZHGIVA_GROUP beside it, the group's number")
    return read_group(group or FILE)


def say(text: str) -> None:
    print(f"ask: {text}", file=sys.stderr, flush=True)


def group_of(words: List[str], is_v2: bool) -> Group:
    """The group that is meant."""
    cluster, *addresses = words or from_environment()
    if not cluster.isdecimal():
        raise Wrong(f"CLUSTER is the group's number, and {cluster!r} is none")
    if not addresses:
        raise Wrong("after CLUSTER stand the addresses of all members, in their order")
    try:
        return Group(int(cluster), addresses, version=2 if is_v2 or len(addresses) == 1 else 1, notice=say)
    except (TypeError, ValueError) as error:
        raise Wrong(str(error)) from None


def operation_of(words: List[str]) -> Operation:
    """What a line asks for. What is raised has no value, which may be a secret."""
    if not words or words[0] not in FORMS:
        raise Refused(f"a line is {', '.join(map(form, FORMS))}, and begins with no other word")
    kind, names = FORMS[words[0]]
    if len(words) != 1 + len(names) or "" in words:
        raise Refused(f"it is {form(words[0])}, with one space between words, and {len(words)} words stand there")
    operation: Operation = kind(*words[1:])
    try:
        encode_operation(operation, 2)
    except ValueError as error:
        raise Refused(str(error)) from None
    return operation


def said(outcome: Outcome) -> str:
    """An answer as `client` writes it."""
    return f"value {outcome.value}" if outcome.kind == OutcomeKind.VALUE else outcome.kind.name.lower()


class Asker:
    """Asks a group in a session, which is begun when it is needed."""

    def __init__(self, group: Group, most: float) -> None:
        self.group, self.most = group, most
        self.session: Optional[Session] = None

    def answer(self, operation: Operation) -> str:
        """The answer to a line, `unknown` or `not asked`."""
        end = time.monotonic() + self.most
        while (left := end - time.monotonic()) > 0:
            try:
                return said(self.ask(operation, end))
            except SessionLost as error:
                self.session = None
                if error.is_asked and not isinstance(operation, Get):
                    say(str(error))
                    return UNKNOWN
            except Unknown as error:
                say(str(error))
                return NOT_ASKED if self.session is None or isinstance(operation, Get) else UNKNOWN
            except Unresolved as error:
                say(str(error))
                time.sleep(min(PAUSE, left))
            except ValueError as error:
                raise Refused(str(error)) from None
        return NOT_ASKED

    def ask(self, operation: Operation, end: float) -> Outcome:
        if self.session is None:
            self.session = self.group.register(timeout=end - time.monotonic())
        return self.session.ask(operation, max(end - time.monotonic(), 0.001))


def ask_lines(asker: Asker) -> int:
    if sys.stdin is None:
        raise Wrong("there is no standard input to read lines from")
    if "NOZHGIVA_INPUT" in os.environ:
        raise Wrong("standard input is a folder, and has no lines")
    for number, raw in enumerate(sys.stdin.buffer, 1):
        try:
            answer = asker.answer(operation_of(raw.decode("ascii", "surrogateescape").rstrip("\n").split(" ")))
        except Refused as why:
            raise Refused(f"line {number}: {why}") from None
        print(answer, flush=True)
        if answer in (UNKNOWN, NOT_ASKED):
            return NO_ANSWER
    return 0


def ask_one(asker: Asker, words: List[str]) -> int:
    answer = asker.answer(operation_of(words))
    if answer == "absent":
        say(f"absent: there is no {words[1]}")
        return MISSING
    if answer == "full":
        say("full: the key is new, and the group holds as many as it can; nothing has changed")
        return MISSING
    if answer in (UNKNOWN, NOT_ASKED):
        say(answer)
        return NO_ANSWER
    print(answer[len("value "):] if words[0] == "get" else answer)
    return 0


def main() -> int:
    words = quick(sys.argv[1:]) or full(sys.argv[1:])
    if sys.stdout is None:
        say("there is no standard output to write to")
        return NO_OUTPUT
    try:
        of_group, asked = parted(words.words)
        asker = Asker(group_of(of_group, words.v2), words.most)
        return ask_one(asker, asked) if asked else ask_lines(asker)
    except Wrong as why:
        say(f"{why} (ask --help)")
        return 2
    except Refused as why:
        say(f"refused: {why}")
        return REFUSED
    except Error as why:
        say(str(why))
        return NO_ANSWER


def run() -> NoReturn:
    """Runs to the end. What ends it otherwise is for `standard`, which isn't read before."""
    if sys.version_info < (3, 9):
        say(f"it needs python3, 3.9 or later, and this is {sys.version.split()[0]}")
        sys.exit(2)
    try:
        code = main()
        if sys.stdout is not None:
            sys.stdout.flush()
    except BrokenPipeError as error:
        ended: BaseException = error
    except OSError as error:
        say(f"standard output can't be written: {(error.strerror or str(error)).lower()}")
        os._exit(NO_OUTPUT)
    except BaseException as error:
        ended = error
    else:
        os._exit(code)  # nothing is left to do, and the system takes the sockets back
    from . import standard

    def fail() -> int:
        raise ended

    standard.end(fail)


if __name__ == "__main__":
    run()
