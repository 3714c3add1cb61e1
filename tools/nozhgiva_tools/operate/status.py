"""Tells how a whole group is, from one place.

  status 5 10.0.0.1:4000 10.0.0.2:4000 10.0.0.3:4000 --keepers 10.0.0.1:4100,10.0.0.2:4100,10.0.0.3:4100
  status 5 127.0.0.1:4000 127.0.0.1:4001 127.0.0.1:4002 --sockets '/var/lib/nozhgiva/{}.socket'
  status 5 10.0.0.1:4000 10.0.0.2:4000 10.0.0.3:4000                    the members alone, without what their keepers know

It asks each keeper for its line of health, and each member something that takes no session and changes nothing: a get by a client that never registered,
which whoever leads answers by `evicted`. Ends with 0: all is well. 1: the group answers, and a member ails. 3: too little is known to tell. 4: the group
doesn't answer. 5: it is corrupt, since members hold different states of one checkpoint, or one applied something else than before. 2: the words. Of each member it tells its state, view and
commit number, by how many operations it is behind, since when it runs, how
often it was restarted for standing still and how often it ended, version and mode of its file, how many keys and sessions are in use of how many, and
how many places of its file are damaged, and of how many slots the file can't tell (unsure).

With the keepers it also tells which members have the whole state, which quorums are whole, and of each member whether it may be stopped: whether those that would be left have, by their files,
all that they need to go on without it. With --may-stop R it ends with 0 where member R may be stopped, and with 1 where it may not, or doesn't run.

With --page it goes on until it is interrupted, and shows the group as it runs on one page that a browser reads at http://HOST:PORT/."""

import argparse
import json
import sys
import time
from typing import List, Tuple

from . import doors, judging, paging, probing, standard, surveying, telling

MOST_LOOKS = 6  # where keepers haven't looked at the files lately: being asked they do, and where there is damage that takes a second
AGAIN = 0.3  # seconds from one look to the next where a view may be changing
PAGE_WAIT = 0.4  # seconds; the page asks again and again, so that one answer that comes late is no matter


def make_parser() -> argparse.ArgumentParser:
    parser = argparse.ArgumentParser(prog="status", description=__doc__, formatter_class=argparse.RawDescriptionHelpFormatter)
    parser.add_argument("cluster", type=int, metavar="CLUSTER", help="the number of the group")
    parser.add_argument("addresses", nargs="+", metavar="ADDR", help="the addresses of all members, in their order")
    parser.add_argument("--keepers", metavar="HOST:PORT,..", help="the ports of the members' keepers (keep --health), in the same order")
    parser.add_argument("--sockets", metavar="PATH", help="the keepers' sockets, where all are on this machine; {} is the member's number")
    parser.add_argument("--health", metavar="COMMAND", help="prints a member's line of health; {} is the member's number")
    parser.add_argument("--wait", type=float, default=1.0, metavar="SECONDS", help="how long an answer is waited for (default: %(default)s)")
    parser.add_argument("--json", action="store_true", help="all of it as JSON")
    parser.add_argument("--may-stop", type=int, metavar="R", help="tell whether member R may be stopped: whether those that would be left go on without it")
    parser.add_argument("--page", metavar="HOST:PORT", help="serve a live page there; who can reach it can read it, so give an address of this machine alone")
    return parser


def parse_words() -> argparse.Namespace:
    parser = make_parser()
    words = parser.parse_args()
    if not 1 <= len(words.addresses) <= 6 or not 0 <= words.cluster < 2 ** 64:
        parser.error("a group has 1 to 6 addresses, and a number below 2^64")
    if sum(given is not None for given in (words.keepers, words.sockets, words.health)) > 1:
        parser.error("give one of --keepers, --sockets and --health")
    if not 0 < words.wait <= 60:
        parser.error("--wait is above 0, and at most 60")
    if words.may_stop is not None and (not 0 <= words.may_stop < len(words.addresses) or words.page or not has_keepers(words)):
        parser.error("--may-stop is the number of a member, and takes the keepers, and no page")
    check_places(parser, words)
    return words


def check_places(parser: argparse.ArgumentParser, words: argparse.Namespace) -> None:
    """All addresses are of their form, and as many as they should be."""
    words.keepers = words.keepers.split(",") if words.keepers else None
    if words.keepers is not None and len(words.keepers) != len(words.addresses):
        parser.error("--keepers are as many as the members")
    try:
        for address in words.addresses:
            probing.places_of(address)
        for address in (words.keepers or []) + ([words.page] if words.page else []):
            doors.place_of(address)
    except ValueError as why:
        parser.error(str(why))


def survey_of(words: argparse.Namespace, wait: float) -> surveying.Survey:
    found = [surveying.source(member, words.keepers, words.sockets, words.health, wait) for member in range(len(words.addresses))]
    return surveying.Survey(words.cluster, words.addresses, [source for source in found if source is not None] if has_keepers(words) else None, wait)


def has_keepers(words: argparse.Namespace) -> bool:
    return bool(words.keepers or words.sockets or words.health)


def settled(words: argparse.Namespace) -> Tuple[List[judging.Known], judging.Verdict]:
    """What is known, and what follows: looked at again for a second where the group doesn't answer, since its view may be changing."""
    survey, settling, looks = survey_of(words, words.wait), judging.Settling(), 0
    while True:
        members, looks = survey.look(), looks + 1
        found = judging.judge(members, has_keepers(words))
        verdict = settling.hear(time.monotonic(), found)
        if verdict.code == found.code and (looks >= MOST_LOOKS or not judging.is_late(members)):
            return members, verdict
        time.sleep(AGAIN)


def serve(words: argparse.Namespace) -> int:
    """Serves the page until it is interrupted."""
    try:
        page = paging.Page(words.page, paging.Sampler(survey_of(words, min(words.wait, PAGE_WAIT)), has_keepers(words)))
    except OSError as error:
        print(f"status: refused: {words.page}: {error.strerror or error}", file=sys.stderr)
        return 2
    print(f"http://{words.page}/", flush=True)
    page.run()
    return 0


def main() -> int:
    words = parse_words()
    if words.page:
        return serve(words)
    members, verdict = settled(words)
    told = judging.as_json(words.cluster, members, verdict, has_keepers(words))
    if words.json:
        print(json.dumps(told, indent=1))
    else:
        print(telling.table(told))
    if words.may_stop is not None:
        return 0 if told["members"][words.may_stop]["may_be_stopped"] else 1
    return verdict.code


def run() -> None:
    """Runs it to its end."""
    standard.end(main)


if __name__ == "__main__":
    run()
