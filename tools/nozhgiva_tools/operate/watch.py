"""Reads a member's lines and writes them with times, without what repeats; for a member that runs under no keeper.

  vr_app node .. | watch [--log PATH]
  watch < FILE                         lines that a member wrote before; the times are those of the reading

Every line is read as soon as it is there, whatever becomes of the log: a member waits while nobody reads its lines. Of lines that say the same one in
a minute is written, heartbeats among them, and at most --most of all in a second. Once a minute a line of health tells what is known of the member,
on standard error too. Without --log the lines go to standard output, and watch ends once nobody reads that."""

import argparse
import errno
import os
import selectors
import sys
import time

from nozhgiva_tools.told.lines import parse, spelling, Splitter

from . import keeper, log, policy, standard, vitals as health


def make_parser() -> argparse.ArgumentParser:
    parser = argparse.ArgumentParser(prog="watch", description=__doc__, formatter_class=argparse.RawDescriptionHelpFormatter)
    parser.add_argument("--log", metavar="PATH", help="where the lines are written, for its owner alone")
    parser.add_argument("--log-size", type=int, default=50, metavar="MEGABYTES", help="at which the log is put aside (default: %(default)s)")
    parser.add_argument("--log-files", type=int, default=5, metavar="N", help="how many that were put aside are kept (default: %(default)s)")
    parser.add_argument("--no-values", action="store_true", help="write * in the place of each value; keys stand there all the same")
    parser.add_argument("--most", type=int, default=100, metavar="N", help="the most lines that are written in a second (default: %(default)s)")
    parser.add_argument("--every", type=float, default=keeper.MINUTE, metavar="SECONDS", help="from one line of health to the next (default: %(default)s)")
    return parser


def parse_words() -> argparse.Namespace:
    parser = make_parser()
    words = parser.parse_args()
    if words.log_size < 1 or words.log_files < 0 or words.most < 1 or words.every <= 0:
        parser.error("--log-size, --most and --every are above 0, --log-files isn't below 0")
    return words


class Watch:
    """What is known of the member whose lines are read. Its number is told by its lines; -1 until then."""

    def __init__(self, writer: log.Writer, thinner: log.Thinner, every: float) -> None:
        self.writer, self.thinner, self.every = writer, thinner, every
        self.policy = policy.Policy(0, lambda: 0.0)
        self.member, self.lines, self.began = -1, 0, time.monotonic()
        self.policy.begin(self.began)
        self.due = self.began + every

    def hear(self, text: bytes) -> None:
        now, line = time.monotonic(), parse(text)
        self.lines += 1
        if line.kind in ("start", "applied"):
            self.member = int(text.split(b" ", 2)[1])
        self.policy.hear(now, line)
        if self.thinner.keeps(now, text, line):
            self.writer.put(text)

    def look_at_clock(self) -> None:
        if time.monotonic() >= self.due:
            self.due += self.every
            self.say_health()

    def say_health(self) -> None:
        life = health.Life(self.member, self.began, 0, 0, self.lines, self.writer.dropped)
        self.writer.put(f"watch: {health.line(self.policy, time.monotonic(), life)} left_out={self.thinner.left_out}".encode(), said=True)


def follow(watch: Watch, stream: int) -> None:
    """Reads to the end of the lines."""
    splitter, selector = Splitter(), selectors.PollSelector()  # which takes a plain file too
    selector.register(stream, selectors.EVENT_READ)
    while True:
        ready = selector.select(max(0.0, watch.due - time.monotonic()))
        watch.look_at_clock()
        if not ready:
            continue
        piece = os.read(stream, keeper.PIECE)
        for text in splitter.take(piece):
            watch.hear(text)
        if not piece:
            break
    rest = splitter.end()
    if rest:
        watch.writer.put(rest)


class Standard:
    """Standard output in the place of a log. Once nobody reads it there is nothing to do any more."""

    name = "standard output"

    def open(self) -> None:
        """It has no path by which it could be opened anew."""

    def write(self, text: bytes) -> None:
        if sys.stdout is None:  # It was closed before this began.
            raise OSError(errno.EBADF, os.strerror(errno.EBADF))
        try:
            while text:
                text = text[os.write(sys.stdout.fileno(), text):]
        except BrokenPipeError:
            os._exit(0)


def log_of(words: argparse.Namespace) -> log.Log:
    """Where the lines go; OSError where that can't be opened."""
    if not words.log:
        return Standard()
    file = log.Rotating(words.log, words.log_size * 1_000_000, words.log_files)
    file.open()
    return file


def main() -> int:
    words = parse_words()
    try:
        file = log_of(words)
    except OSError as error:
        print(f"watch: refused: {error}", file=sys.stderr)
        return 2
    watch = Watch(log.Writer(file, log.to_standard_error, spelling(words.no_values)), log.Thinner(words.most), words.every)
    try:
        follow(watch, sys.stdin.fileno())
        watch.say_health()
    except KeyboardInterrupt:
        pass
    watch.writer.end()
    return 0


def run() -> None:
    """Runs it to its end."""
    standard.end(main)


if __name__ == "__main__":
    run()
