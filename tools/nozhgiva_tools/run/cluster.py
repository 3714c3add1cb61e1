"""Runs a group of three members on loopback, each on a file of its own in a new folder, and prints a line that asks it.

  cluster                        until Ctrl-C; where a member ends it says so, and by which line it is started again
  cluster -- COMMAND [WORD..]    while COMMAND runs, which finds the group in NOZHGIVA_GROUP and NOZHGIVA_ADDRS
  cluster --show                 asks it; stops the primary; asks on, while the two others change to the next view; starts the first again, which
                                 catches up; shows what each printed

The group's number is drawn by chance, so that no member of an earlier group is taken for one of this. Ports are 4000 to 4002, or others where those
aren't free; then it says who holds them. At the end all members are ended, also those that its own lines started, and the folder is removed.
SCHEME=tcp: and V2=1 in the environment say the same as --tcp and --v2.
Ends with 0, also by Ctrl-C; with 1 and a line that says what where something fails; with 2 where the words are wrong or there is no program; with the
code of COMMAND where there is one."""

import argparse
import itertools
import os
import random
import re
import shutil
import signal
import subprocess
import sys
import time
from typing import Any, List, NoReturn, Optional, Sequence

from . import ports, program
from .group import Failed, Group, LAST_WORD, send, SIZE, TURNS
from .nets import Net

ENDING = (signal.SIGINT, signal.SIGTERM, signal.SIGHUP)
NAME = os.environ.get("NOZHGIVA", "./nozhgiva")
FEWEST, MOST = 10 ** 6, 10 ** 9  # numbers of groups that are drawn
GIVEN_TIME = 120.0  # seconds that a client has
COMES = 10.0  # seconds in which a member puts out a line
FILES = re.compile(r"[012](\.keep)?")


class Told(Exception):
    """It was told to end, by a signal, whose number this has."""

    def __init__(self, number: int) -> None:
        super().__init__(number)
        self.number = number


class Cluster(Group):
    """A group of its own number, since a member takes what any other of the same number and addresses sends for its group's; it ends with this process."""

    def __init__(self, found: str, first: int, scheme: str, version: int, keeps_lines: bool) -> None:
        number = random.SystemRandom().randrange(FEWEST, MOST)
        super().__init__(Net(SIZE, range(first, first + SIZE)), scheme, version=version, number=number, program=found)
        self.keeps_lines = keeps_lines

    def spawn(self, member: int, words: Sequence[str], **how: Any) -> "subprocess.Popen[bytes]":
        """A Ctrl-C at the terminal isn't for a member, and it ends with this process."""
        return super().spawn(member, words, start_new_session=True, preexec_fn=program.end_with_parent, **how)

    def ask(self, client: int, lines: Sequence[str], most: float = GIVEN_TIME) -> List[str]:
        return super().ask(client, lines, most)

    def starts_again(self, command: str, member: int) -> str:
        """A line of a shell that starts an ended member again."""
        return " ".join([command, *self.words(member, turns=TURNS)[1:], "> /dev/null"])

    def close(self) -> None:
        """Ends the members, those too that others started on these files, and removes the folder; Failed where one is left."""
        for member in list(self.members):
            self.stop(member)
        self.end_others()
        # From here on nobody finds the files any more; who found them before still has them open, by their new name.
        gone = f"{self.folder}.gone"
        os.rename(self.folder, gone)
        self.folder = gone
        self.end_others()
        shutil.rmtree(gone, ignore_errors=True)
        left = ports.of_ports(self.ports)
        if left:
            raise Failed(f"a port of this group is still held: {'; '.join(left)}")

    def end_others(self) -> None:
        """Ends who has a member's file open."""
        for number in (signal.SIGTERM, signal.SIGKILL):
            until = time.monotonic() + LAST_WORD
            found = ports.of_files(self.folder, FILES)
            for one in found:
                send(one.pid, number)
            while found and time.monotonic() < until:
                time.sleep(0.05)
                found = ports.of_files(self.folder, FILES)
            if not found:
                return


def free_port() -> int:
    found = ports.free_run(SIZE)
    if found is None:
        raise Failed("no three ports in a row are free")
    return found


def first_port(asked: Optional[int]) -> int:
    """The port that was asked for, else 4000, else one that is free; it says who holds what isn't."""
    first = asked or 4000
    wanted = list(range(first, first + SIZE))
    if ports.are_free(wanted):
        return first
    held = "; ".join(ports.of_ports(wanted)) or "by a process of another user, or lately closed"
    if asked:
        raise Failed(f"ports {first} to {wanted[-1]} aren't all free: {held}")
    found = free_port()
    print(f"cluster: ports {first} to {wanted[-1]} aren't all free, so it takes {found} to {found + SIZE - 1}: {held}", file=sys.stderr)
    return found


def port_of(text: str) -> int:
    if not text.isdecimal() or not 1 <= int(text) <= 65536 - SIZE:
        raise argparse.ArgumentTypeError(f"{text} isn't from 1 to {65536 - SIZE}")
    return int(text)


def make_parser() -> argparse.ArgumentParser:
    usage = "%(prog)s [-h] [--v2] [--tcp] [--lines] [--port N] [-- COMMAND [WORD ...]]\n       %(prog)s [-h] --show [--v2] [--tcp]"
    parser = argparse.ArgumentParser(prog="cluster", usage=usage, description=__doc__, formatter_class=argparse.RawDescriptionHelpFormatter)
    parser.add_argument("--v2", action="store_true", default=bool(os.environ.get("V2")), help="on files of version 2")
    parser.add_argument("--tcp", action="store_true", default=os.environ.get("SCHEME") == "tcp:", help="over TCP instead of UDP")
    parser.add_argument("--lines", action="store_true", help="keep what the members put out in that folder, some 100 MB a day where nobody asks")
    parser.add_argument("--port", type=port_of, metavar="N", help="take ports N to N+2, from 1 to 65533")
    parser.add_argument("--show", action="store_true", help="ask it, stop its primary, and show what each printed")
    parser.add_argument("command", nargs="*", metavar="COMMAND", help="what runs beside the group, behind --")
    return parser


def parse_words() -> argparse.Namespace:
    parser = make_parser()
    given = sys.argv[1:]
    at = given.index("--") if "--" in given else len(given)
    words = parser.parse_args(given[:at])
    if words.command:
        parser.error(f"{words.command[0]}: a command stands behind --")
    words.command = given[at + 1:]
    if at < len(given) and (words.show or not words.command):
        parser.error("behind -- stands a command, and --show takes none")
    return words


def say(text: str = "") -> None:
    print(text, flush=True)


def hears(group: Cluster, client: int, lines: "list[str]", wanted: "list[str]") -> None:
    heard = group.ask(client, lines)
    say(f"client {client}: {', '.join(heard)}")
    if heard != wanted:
        raise Failed(f"client {client} was to hear: {', '.join(wanted)}{group.last_words()}")


def show(group: Cluster) -> int:
    """Asks the group, stops a member and starts it again, and shows what all printed."""
    group.start_all()
    hears(group, 7, ["put color green", "get color"], ["session", "ok", "value green"])
    say("member 0 is stopped")
    group.stop(0)
    hears(group, 8, ["get color", "put size 3", "get size"], ["session", "value green", "ok", "value 3"])
    say("member 0 is started again")
    group.start(0)
    group.await_line(0, "commit 0 op 7 ", COMES)
    hears(group, 9, ["del color", "get color", "get size"], ["session", "ok", "absent", "value 3"])
    group.await_line(0, "commit 0 op 11 ", COMES)
    for member in range(SIZE):
        if group.members[member].poll() is not None:
            raise Failed(f"member {member} has ended{group.last_words()}")
        group.stop(member)
        told = group.told(member)
        say(f"\nmember {member} printed, with {sum(line.startswith('send') for line in told)} messages sent:")
        for line, _ in itertools.groupby(line for line in told if not line.startswith("send")):
            say(f"  {line}")
    return 0


def tell_ended(group: Cluster, member: int, status: int) -> None:
    """Says of a member that it has ended, and how it is started again."""
    del group.members[member]
    word = (group.errors(member) or [""])[-1]
    say(f"member {member} has ended with status {status if status >= 0 else 128 - status}{f': {word}' if word else ''}; this starts it again:")
    say(f"  {group.starts_again(NAME, member)}")


def watch(group: Cluster, command: "Optional[subprocess.Popen[bytes]]" = None) -> int:
    """Waits for what ends: members, of which each end is told, and the command, whose status is given."""
    while True:
        pid, status = os.wait()
        code = os.waitstatus_to_exitcode(status)
        if command is not None and pid == command.pid:
            command.returncode = code
            return code if code >= 0 else 128 - code
        for member, child in list(group.members.items()):
            if child.pid == pid:
                child.returncode = code
                tell_ended(group, member, code)
        if not group.members and command is None:
            raise Failed(f"no member is left{group.last_words()}")


def begin(group: Cluster) -> None:
    group.start_all()
    group.ask(1, ["get color"])


def serve(group: Cluster) -> int:
    """Runs the group until it is told to end."""
    begin(group)
    numbers = " ".join(str(child.pid) for child in group.members.values())
    asks = " ".join([NAME, "ask", str(group.number), *group.addresses, *group.of_version()])
    say(f"three members run until Ctrl-C, as processes {numbers}, with their files in {group.folder}. Ask them, from another terminal:")
    say(f"  printf 'put color green\\nget color\\n' | {asks}")
    say(f"End one of them (kill {group.members[0].pid}), and ask on: two are enough.")
    if group.keeps_lines:
        say(f"A page of what they put out: {NAME} explore --members {group.folder}/[012].text > members.html")
    return watch(group)


def end_command(command: "subprocess.Popen[bytes]") -> None:
    command.terminate()
    try:
        command.wait(LAST_WORD)
    except subprocess.TimeoutExpired:
        command.kill()


def begin_command() -> None:
    """In the command's process, before the command: there signals do what they do by default."""
    signal.signal(signal.SIGINT, signal.SIG_DFL)
    signal.pthread_sigmask(signal.SIG_UNBLOCK, ENDING)


def run_beside(group: Cluster, words: "list[str]") -> int:
    """Runs the group while a command runs. A Ctrl-C at the terminal is for the command."""
    begin(group)
    signal.signal(signal.SIGINT, signal.SIG_IGN)
    env = {**os.environ, "NOZHGIVA_GROUP": str(group.number), "NOZHGIVA_ADDRS": " ".join(group.addresses)}
    signal.pthread_sigmask(signal.SIG_BLOCK, ENDING)  # until the command is known, so that it is ended too
    try:
        with subprocess.Popen(words, env=env, preexec_fn=begin_command) as command:
            try:
                signal.pthread_sigmask(signal.SIG_UNBLOCK, ENDING)
                return watch(group, command)
            except Told:
                end_command(command)
                raise
    except OSError as error:
        raise Failed(f"{words[0]} doesn't start: {error.strerror}") from error
    finally:
        signal.pthread_sigmask(signal.SIG_UNBLOCK, ENDING)


def told_to_end(number: int, _frame: object) -> NoReturn:
    """Once: what comes after it is left alone, while all is ended."""
    for other in ENDING:
        signal.signal(other, signal.SIG_IGN)
    raise Told(number)


def find_program() -> str:
    """The program; where there is none it is said, and the script ends with 2."""
    try:
        return program.find().path
    except program.Missing as why:
        print(why, file=sys.stderr)
        sys.exit(2)


def run_group(group: Cluster, words: argparse.Namespace) -> int:
    if words.show:
        return show(group)
    return run_beside(group, words.command) if words.command else serve(group)


def run_and_close(group: Cluster, words: argparse.Namespace) -> int:
    """Runs the group, and ends it whatever happens."""
    folder, status = group.folder, 1
    try:
        status = run_group(group, words)
    except Told as told:
        status = 128 + told.number if words.command else 0
        if not words.command:
            say()  # behind the ^C of a terminal
    except Failed as error:
        print(f"failed: {error}", file=sys.stderr)
    finally:
        for number in ENDING:
            signal.signal(number, signal.SIG_IGN)
        group.close()
    if not (words.show or words.command):
        say(f"the members are ended, {folder} is removed")
    return status


def main() -> int:
    words = parse_words()
    for number in ENDING:
        signal.signal(number, told_to_end)
    try:
        found = find_program()
        port = free_port() if words.show and not words.port else first_port(words.port)
        return run_and_close(Cluster(found, port, "tcp:" if words.tcp else "", 2 if words.v2 else 1, words.lines or words.show), words)
    except Failed as error:
        print(f"cluster: {error}", file=sys.stderr)
        return 1
    except Told as told:
        return 128 + told.number
    except BrokenPipeError:
        os.dup2(os.open(os.devnull, os.O_WRONLY), 1)
        return 141


def run() -> None:
    """Runs it to its end."""
    sys.exit(main())


if __name__ == "__main__":
    run()
