"""Moves a group from files of version 1 to files of version 2, member by member, as docs/NODE.md says ("Moving a group to version 2").

  migrate-group 5 3 --files '/var/lib/nozhgiva/{}' --sockets '/var/lib/nozhgiva/{}.socket' --stop 'systemctl stop nozhgiva@{}' --start 'systemctl start nozhgiva@{}'
  migrate-group 5 3 --health 'ssh m{} nozhgiva health /var/lib/nozhgiva/{}.socket' --inspect 'ssh m{} nozhgiva inspect /var/lib/nozhgiva/{} json' \\
      --migrate 'ssh m{} nozhgiva migrate 5 {} 3 /var/lib/nozhgiva/{}' --stop 'ssh m{} systemctl stop nozhgiva@{}' --start 'ssh m{} systemctl start nozhgiva@{}'

In a command {} is the member's number. THERE IS NO WAY BACK from version 2. Without --go it looks at all files and members, and says what it would do.
Each member is stopped (with its keeper), its file looked at, moved and looked at again, and started; the one that leads comes last. Where a file holds
less than before, since its disk couldn't read it, the walk stops before the handover and says what to do. What was broken off, also by kill -9 at any
moment, goes on where it was when this is run again: it waits for the commands that are still under way, and starts whoever was left standing.
Ends with 0, with 1 where it stopped, with 2 at wrong words."""

import argparse
import fcntl
import hashlib
import json
import os
import shlex
import signal
import subprocess
import sys
import tempfile
import time
from typing import Dict, List, Optional, Tuple

from nozhgiva_tools.places import OPERATE

from . import asking, migrating, rolling, standard, vitals as health

COMMAND_SECONDS = 120  # for one command
ENDING = (signal.SIGTERM, signal.SIGINT, signal.SIGHUP)


def make_parser() -> argparse.ArgumentParser:
    parser = argparse.ArgumentParser(prog="migrate-group", description=__doc__, formatter_class=argparse.RawDescriptionHelpFormatter)
    parser.add_argument("cluster", type=int, metavar="CLUSTER", help="the number of the group")
    parser.add_argument("members", type=int, metavar="N", help="how many members it has, 2 to 6")
    parser.add_argument("--files", metavar="PATH", help="the members' files, where all are on this machine")
    parser.add_argument("--sockets", metavar="PATH", help="the keepers' sockets, where all are on this machine")
    parser.add_argument("--health", metavar="COMMAND", help="prints a member's line of health")
    parser.add_argument("--inspect", metavar="COMMAND", help="prints what `operate/inspect FILE json` does")
    parser.add_argument("--migrate", metavar="COMMAND", help="moves a member's file, by `vr_app migrate`")
    parser.add_argument("--stop", metavar="COMMAND", required=True, help="ends a keeper with its member, and ends once that is done")
    parser.add_argument("--start", metavar="COMMAND", required=True, help="starts a keeper, and ends")
    parser.add_argument("--accept", type=numbers, default=[], metavar="R,R..", help="go on although these members' files lost something: their disks were looked at")
    parser.add_argument("--go", action="store_true", help="do it; there is no way back")
    parser.add_argument("--bound", type=float, default=60.0, metavar="SECONDS", help="in which a member has to catch up (default: %(default)s)")
    parser.add_argument("--program", default=standard.program(), help="the program that moves, with --files (default: $NOZHGIVA_PROGRAM, else vr_app)")
    return parser


def parse_words() -> argparse.Namespace:
    parser = make_parser()
    words = parser.parse_args()
    if words.members not in migrating.HANDOVER:
        parser.error("a group of version 1 has 2 to 6 members")
    if words.files is None and (words.inspect is None or words.migrate is None):
        parser.error("give --files, or --inspect and --migrate")
    if words.sockets is None and words.health is None:
        parser.error("give --sockets, or --health")
    return complete(words)


def complete(words: argparse.Namespace) -> argparse.Namespace:
    """The commands of members on this machine, where others aren't given."""
    if words.files is not None:
        words.inspect = words.inspect or f"{shlex.quote(str(OPERATE / 'inspect'))} {shlex.quote(words.files)} json"
        words.migrate = words.migrate or f"{shlex.quote(words.program)} migrate {words.cluster} {{}} {words.members} {shlex.quote(words.files)}"
    return words


def numbers(text: str) -> List[int]:
    """`0,2`"""
    return [int(word) for word in text.split(",")]


def filled(text: str, member: int) -> str:
    return text.replace("{}", str(member))


def lock_path(words: argparse.Namespace) -> str:
    """The lock of the walks through one group, by its number and its commands, that this user makes from here. It is held too by what a killed walk had started."""
    of = "\0".join([str(words.cluster), words.stop, words.start, words.migrate])
    return os.path.join(tempfile.gettempdir(), f"nozhgiva-migrate-group-{os.getuid()}-{hashlib.sha256(of.encode()).hexdigest()[:16]}")


def take_lock(path: str, wait: float = COMMAND_SECONDS) -> int:
    """Takes the lock, and gives its descriptor."""
    until = time.monotonic() + wait
    while True:
        lock = os.open(path, os.O_RDWR | os.O_CREAT | os.O_NOFOLLOW, 0o600)
        if is_taken(lock, path):
            return lock
        os.close(lock)
        if time.monotonic() > until:
            raise rolling.Stopped(f"another walk through this group, or a command of one that was killed, still runs after {wait:.0f} s (it holds {path})")
        time.sleep(0.1)


def is_taken(lock: int, path: str) -> bool:
    """Takes a lock that nobody has; whether it is the one at its path, which whoever had it may have removed."""
    try:
        fcntl.flock(lock, fcntl.LOCK_EX | fcntl.LOCK_NB)
        return os.path.samestat(os.fstat(lock), os.stat(path))
    except (BlockingIOError, FileNotFoundError):
        return False


def drop_lock(lock: int, path: str) -> None:
    """Gives a lock back, and removes it where no command that was cut has it still."""
    os.close(lock)
    again = os.open(path, os.O_RDWR | os.O_CREAT | os.O_NOFOLLOW, 0o600)
    if is_taken(again, path):
        os.unlink(path)
    os.close(again)


def run_command(command: str, held: Tuple[int, ...] = ()) -> None:
    """A command of the operator's, which holds these descriptors as long as it runs; Stopped where it fails."""
    code = run_for_code(command, held)
    if code != 0:
        raise rolling.Stopped(f"this ended with {code}: {command}")


def run_for_code(command: str, held: Tuple[int, ...]) -> int:
    try:
        return subprocess.run(command, shell=True, timeout=COMMAND_SECONDS, stdin=subprocess.DEVNULL, pass_fds=held).returncode
    except subprocess.TimeoutExpired:
        raise rolling.Stopped(f"this didn't end in {COMMAND_SECONDS} s: {command}")


def output(command: str) -> str:
    made = subprocess.run(command, shell=True, timeout=COMMAND_SECONDS, stdin=subprocess.DEVNULL, stdout=subprocess.PIPE, text=True)
    return made.stdout


def asked(words: argparse.Namespace, member: int) -> Optional[Dict[str, str]]:
    """The line of health of a member, None where there is none."""
    try:
        if words.health is None:
            return health.read(asking.ask(filled(words.sockets, member), "health"))
        return health.read(output(filled(words.health, member)))
    except (OSError, ValueError, subprocess.TimeoutExpired):
        return None


def look(words: argparse.Namespace, member: int) -> migrating.File:
    command = filled(words.inspect, member)
    try:
        return migrating.file_of(json.loads(output(command)))
    except (ValueError, subprocess.TimeoutExpired):
        raise rolling.Stopped(f"member {member}: this tells of no member's file: {command}")


def say(text: str) -> None:
    try:
        print(f"{time.strftime('%H:%M:%S')} {text}", flush=True)
    except BrokenPipeError:
        standard.forget_output()  # The walk isn't ended in its midst because nobody reads it any more.


def end_by_signal(number: int, _: object) -> None:
    raise rolling.Stopped(f"ended by signal {number}")


def tell_plan(walk: migrating.Walk) -> None:
    """What would be done, and nothing else."""
    standing = walk.left_standing()
    for member in standing:
        say(f"would start member {member} first, which isn't moved and has no keeper")
    walk.look_around()
    batches = walk.batches()
    if not batches:
        say("all members are moved already")
        return
    if not standing:
        walk.check(batches[0])
    moved = len(walk.moved)
    for batch in batches:
        hands_over = moved < migrating.HANDOVER[walk.size] <= moved + len(batch)
        moved += len(batch)
        say(f"would move {' and '.join(f'member {member}' for member in batch)}" + (": the handover, in which the group pauses and goes over to version 2" if hands_over else ""))
    say("nothing was done: --go does it, and there is no way back")


def hands_of(words: argparse.Namespace, lock: int) -> migrating.Hands:
    """What a walk does, by the operator's commands. What starts a keeper doesn't hold the lock, which a keeper would keep."""
    return migrating.Hands(
        health=lambda member: asked(words, member),
        look=lambda member: look(words, member),
        stop=lambda member: run_command(filled(words.stop, member), (lock,)),
        start=lambda member: run_command(filled(words.start, member)),
        migrate=lambda member: run_for_code(filled(words.migrate, member), (lock,)),
        sleep=time.sleep,
        clock=time.monotonic,
        say=say,
    )


def main() -> int:
    words = parse_words()
    for number in ENDING:
        signal.signal(number, end_by_signal)
    try:
        lock = take_lock(lock_path(words))
    except rolling.Stopped as why:
        return tell_stop(why, [])
    walk = migrating.Walk(hands_of(words, lock), words.members, rolling.Bounds(words.bound, 15.0), set(words.accept))
    try:
        walk.go() if words.go else tell_plan(walk)
    except rolling.Stopped as why:
        return tell_stop(why, walk.away)
    finally:
        drop_lock(lock, lock_path(words))
    return 0


def tell_stop(why: rolling.Stopped, away: List[int]) -> int:
    print(f"migrate-group: stopped: {why}", file=sys.stderr)
    if away:
        print(f"migrate-group: stopped members: {', '.join(map(str, away))}", file=sys.stderr)
    return 1


def run() -> None:
    """Runs it to its end."""
    standard.end(main)


if __name__ == "__main__":
    run()
