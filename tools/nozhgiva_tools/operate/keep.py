"""Runs one member of a group: starts it, reads its lines and writes them with times, starts it again when it ended, and ends a standstill.

The member is started again where it ended with 0, 8 or 11, or by a signal, after a pause, and a few times at 7 where its file was never open. At
2, 6, 7, 9, 10 and 12 somebody has to look first: it isn't started again, a sentence on standard error says at what, and keep ends with that code.
Where the member leads and doesn't go on although something is open, for --patience seconds, or asks for the same thing in vain for twice as long, it
is stopped and started; each time that doesn't help the patience is doubled, up to 64 times, and up to a half more of it goes by chance. Where its
file can't tell of some slots, after a start, the group is asked 64 gets, once, which have all slots written anew.

Its health, one line, is said each minute, at the signal USR1, to whoever asks at the socket (operate/health), and on a port where one is given. HUP opens the log anew, for whoever
moved it away; a member is restarted by `health --restart`. TERM and INT end the member, and keep with it, with 0. Another keeper of the same file
ends with 20. In FILE.keep it notes sequence and head of the file once they are synced; where the file is older at a start, as one that was put back from a
copy, keep ends with 21. A member that applies something else under a number than before is told as corrupt. The member is never made here: do that once, by operate/make-member. Where FILE
isn't there keep ends with 9 and starts nothing; where
there is no program, with 2."""

import argparse
import os
import random
import shutil
import socket
import sys

from nozhgiva_tools.told.lines import spelling

from . import doors, keeper, log, policy, standard


def make_parser() -> argparse.ArgumentParser:
    parser = argparse.ArgumentParser(prog="keep", description=__doc__, formatter_class=argparse.RawDescriptionHelpFormatter)
    parser.add_argument("cluster", type=int, metavar="CLUSTER", help="the number of the group")
    parser.add_argument("replica", type=int, metavar="REPLICA", help="the member's number in it, from 0")
    parser.add_argument("file", metavar="FILE", help="the member's data file; FILE.keep, beside it, is the keeper's lock, and its note of the file")
    parser.add_argument("addresses", nargs="+", metavar="ADDR", help="the addresses of all members, in their order")
    parser.add_argument("--program", default=standard.program(), help="the program (default: $NOZHGIVA_PROGRAM, else vr_app)")
    parser.add_argument("--patience", type=float, default=policy.PATIENCE, metavar="SECONDS",
                        help="how long the member may stand still while it leads; 0 for ever, else at least 2 (default: %(default)s)")
    parser.add_argument("--pause", type=float, default=1.0, metavar="SECONDS", help="from an end to the next start; doubled after short lives (default: %(default)s)")
    parser.add_argument("--log", metavar="PATH", help="where the lines are written, keys and values among them, for its owner alone; none are kept without it")
    parser.add_argument("--log-size", type=int, default=50, metavar="MEGABYTES", help="at which the log is put aside (default: %(default)s)")
    parser.add_argument("--log-files", type=int, default=5, metavar="N", help="how many that were put aside are kept (default: %(default)s)")
    parser.add_argument("--no-values", action="store_true", help="write * in the log in the place of each value; keys stand there all the same")
    parser.add_argument("--most", type=int, default=100, metavar="N", help="the most lines that are written in a second (default: %(default)s)")
    parser.add_argument("--socket", metavar="PATH", help="where health is asked (default: FILE.socket)")
    parser.add_argument("--renew", type=float, default=0.25, metavar="SECONDS",
                        help="from one get to the next where slots are written anew; 0: that is never done (default: %(default)s)")
    parser.add_argument("--health", metavar="HOST:PORT", help="where the line of health is told to whoever connects, and nothing else (default: nowhere)")
    parser.add_argument("--metrics", metavar="HOST:PORT", help="where metrics are told over HTTP, as Prometheus reads them (default: nowhere)")
    parser.add_argument("--metrics-file", metavar="PATH", help="a file that metrics are written to each 10 seconds, for the node exporter's textfile collector; its name ends with .prom")
    return parser


def parse_words() -> argparse.Namespace:
    parser = make_parser()
    words = parser.parse_args()
    check_places(parser, words)
    if words.patience != 0 and words.patience < 2:
        parser.error("--patience: 0, or at least 2 seconds: a view change of a slow group takes that long")
    if words.renew < 0:
        parser.error("--renew isn't below 0")
    if words.pause <= 0 or words.log_size < 1 or words.log_files < 0 or words.most < 1:
        parser.error("--pause, --log-size and --most are above 0, --log-files isn't below 0")
    return words


def check_places(parser: argparse.ArgumentParser, words: argparse.Namespace) -> None:
    for name, text in (("--health", words.health), ("--metrics", words.metrics)):
        try:
            text is None or doors.place_of(text)
        except ValueError as why:
            parser.error(f"{name}: {why}")


def refuse(why: object, code: int) -> int:
    print(f"keep: refused: {why}", file=sys.stderr)
    return code


def main() -> int:
    words = parse_words()
    if shutil.which(words.program) is None:
        return refuse(f"there is no program {words.program}, which --program, $NOZHGIVA_PROGRAM or the PATH would name", 2)
    try:
        keeper.check_file(words.file)
        lock = keeper.Lock(words.file + ".keep", wait=5.0)
    except keeper.Unfit as why:
        return refuse(why, why.code)
    except keeper.Held as who:
        return refuse(f"this file is kept already ({who})", keeper.HELD)
    except OSError as error:
        return refuse(error, keeper.HELD)
    try:
        listener = doors.listen_in(words.socket or words.file + ".socket")
    except OSError as error:
        return refuse(error, keeper.HELD)
    code = keep(words, lock, listener)
    os.unlink(words.socket or words.file + ".socket")
    return code


def keep(words: argparse.Namespace, lock: keeper.Lock, listener: socket.socket) -> int:
    """Keeps the member to its end, and gives the code that this comes to."""
    file = log.Rotating(words.log, words.log_size * 1_000_000, words.log_files) if words.log else None
    writer = log.Writer(file, log.to_standard_error, spelling(words.no_values))
    member = keeper.Words(keeper.tie(), words.program, words.cluster, words.replica, words.file, words.addresses)
    seen = policy.Policy(words.patience, random.random, alone=len(words.addresses) == 1)
    kept = keeper.Keeper(member, seen, writer, log.Thinner(words.most), lock, keeper.Pauses(words.pause, words.renew))
    kept.add_door(listener, kept.reply)
    if words.health:
        kept.add_port(words.health, kept.tell_health)
    if words.metrics:
        kept.add_port(words.metrics, kept.tell_metrics)
    if words.metrics_file:
        kept.post_metrics(words.metrics_file)
    code = kept.run()
    writer.end()
    return code


def run() -> None:
    """Runs it to its end."""
    standard.end(main)


if __name__ == "__main__":
    run()
