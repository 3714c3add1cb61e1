"""Restarts the members of a group one after the other, as for a new program: the next only once the one before applies what the others commit.

  roll 3 --health 'ssh m{} nozhgiva health /var/lib/nozhgiva/{}.socket' --restart 'ssh m{} systemctl restart nozhgiva@{}'
  roll 3 --sockets /var/lib/nozhgiva/{}.socket                                    members of this machine, by their keepers

In a command {} is the member's number. The member that leads comes last. A member that was away for more than some sixty operations fetches the
others' checkpoint, a block with each tick, while they write over its blocks: under load it may never catch up, though it runs and votes. Restarting
the next one then would leave one whole copy. So roll waits, and where a member hasn't caught up after --hold-after seconds it has the clients held by
--hold, until it has, and lets them go by --release, whatever signal ends it, KILL too. After --bound seconds it stops and says why. It
stops no member while those that stay wouldn't go on without it: one hangs, has a file that can't tell of a slot (`unsure`), or together they lack what a
quorum needs (lost, blocks, window, as `status` names it). It waits for that, and then stops and says which. Ends with 0, with 1 where it stopped."""

import argparse
import signal
import subprocess
import sys
import time
from typing import Dict, List, Optional

from . import asking, rolling, standard, vitals as health

COMMAND_SECONDS = 60  # for one command
ENDING = (signal.SIGTERM, signal.SIGINT, signal.SIGHUP)
GUARD = 'read -r _ || eval "$1"'  # a shell's: the command is run once whoever started it is gone, unless it had a line


def make_parser() -> argparse.ArgumentParser:
    parser = argparse.ArgumentParser(prog="roll", description=__doc__, formatter_class=argparse.RawDescriptionHelpFormatter)
    parser.add_argument("members", type=int, metavar="N", help="how many members the group has, 1 to 6; one that is alone is just restarted")
    parser.add_argument("--only", type=numbers, metavar="R,R..", help="restart these alone")
    parser.add_argument("--sockets", metavar="PATH", help="the keepers' sockets, where all are on this machine")
    parser.add_argument("--health", metavar="COMMAND", help="prints a member's line of health")
    parser.add_argument("--restart", metavar="COMMAND", help="restarts a member, and ends once that is done")
    parser.add_argument("--hold", metavar="COMMAND", help="holds the clients back")
    parser.add_argument("--release", metavar="COMMAND", help="lets them go again; it may be run where they are let go already")
    parser.add_argument("--hold-after", type=float, default=15.0, metavar="SECONDS", help="(default: %(default)s)")
    parser.add_argument("--bound", type=float, default=60.0, metavar="SECONDS", help="in which a member has to catch up (default: %(default)s)")
    return parser


def parse_words() -> argparse.Namespace:
    parser = make_parser()
    words = parser.parse_args()
    if not 1 <= words.members <= 6:
        parser.error("a group has 1 to 6 members")
    if words.sockets is None and (words.health is None or words.restart is None):
        parser.error("give --sockets, or --health and --restart")
    if (words.hold is None) != (words.release is None):
        parser.error("give both of --hold and --release, or none")
    if words.only and not 0 <= min(words.only) <= max(words.only) < words.members:
        parser.error("--only: a member's number is below N")
    return words


def numbers(text: str) -> List[int]:
    """`0,2`"""
    return [int(word) for word in text.split(",")]


def filled(text: str, member: int) -> str:
    return text.replace("{}", str(member))


def run_command(command: str) -> None:
    """A command of the operator's; Stopped where it fails."""
    try:
        code = subprocess.run(command, shell=True, timeout=COMMAND_SECONDS, stdin=subprocess.DEVNULL).returncode
    except subprocess.TimeoutExpired:
        raise rolling.Stopped(f"this didn't end in {COMMAND_SECONDS} s: {command}")
    if code != 0:
        raise rolling.Stopped(f"this ended with {code}: {command}")


class Clients:
    """The clients, who are held and let go by the operator's commands. A process beside lets them go where this one is killed meanwhile."""

    def __init__(self, hold: str, release: str) -> None:
        self.commands = hold, release
        self.guard: "Optional[subprocess.Popen[bytes]]" = None

    def hold(self) -> None:
        self.guard = subprocess.Popen(["sh", "-c", GUARD, "sh", self.commands[1]], stdin=subprocess.PIPE, start_new_session=True)
        run_command(self.commands[0])

    def release(self) -> None:
        run_command(self.commands[1])
        if self.guard is not None:
            self.guard.communicate(b"\n")
        self.guard = None


def asked(words: argparse.Namespace, member: int) -> Optional[Dict[str, str]]:
    """The line of health of a member, None where there is none."""
    try:
        if words.health is None:
            return health.read(asking.ask(filled(words.sockets, member), "health"))
        made = subprocess.run(filled(words.health, member), shell=True, timeout=COMMAND_SECONDS, stdin=subprocess.DEVNULL, capture_output=True, text=True)
        return health.read(made.stdout)
    except (OSError, ValueError, subprocess.TimeoutExpired):
        return None


def restart(words: argparse.Namespace, member: int) -> None:
    if words.restart is not None:
        return run_command(filled(words.restart, member))
    try:
        answer = asking.ask(filled(words.sockets, member), "restart")
    except OSError as error:
        raise rolling.Stopped(f"member {member}: {error}")
    if answer != "restarting":
        raise rolling.Stopped(f"member {member}: {answer}")


def end_by_signal(number: int, _: object) -> None:
    """The clients, where they are held, are let go on the way out, and no second signal cuts that short."""
    for other in ENDING:
        signal.signal(other, signal.SIG_IGN)
    raise SystemExit(f"roll: stopped by signal {number}")


def say(text: str) -> None:
    try:
        print(f"{time.strftime('%H:%M:%S')} {text}", flush=True)
    except BrokenPipeError:
        standard.forget_output()  # A roll isn't ended in its midst because nobody reads it any more.


def main() -> int:
    words = parse_words()
    for number in ENDING:
        if signal.getsignal(number) != signal.SIG_IGN:  # as nohup has it
            signal.signal(number, end_by_signal)
    members, clients = list(range(words.members)), Clients(words.hold, words.release) if words.hold else None
    hands = rolling.Hands(
        health=lambda member: asked(words, member),
        restart=lambda member: restart(words, member),
        hold=clients.hold if clients else None,
        release=clients.release if clients else None,
        sleep=time.sleep,
        clock=time.monotonic,
        say=say,
    )
    try:
        rolling.roll(hands, members, rolling.Bounds(words.bound, words.hold_after), words.only)
    except rolling.Stopped as why:
        print(f"roll: stopped: {why}", file=sys.stderr)
        return 1
    return 0


def run() -> None:
    """Runs it to its end."""
    standard.end(main)


if __name__ == "__main__":
    run()
