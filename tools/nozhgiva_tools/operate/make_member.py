"""Makes the file of a member, once. No start of a keeper ever does that.

  make-member CLUSTER REPLICA FILE ADDR.. [--careful] [--v2] [--anyway]

Do it by hand, once for each member of a new group, and never again for that member, whatever happens to its file: what it promised would be forgotten.
It refuses where anything is at FILE, and where FILE's folder isn't there, since its volume may not be mounted. It asks all the addresses, and refuses
where the member runs already, or others of its group do whose log isn't empty, or can't be told to be: so make all members before one is started.
--anyway makes it all the same. It warns where the disk's physical sectors are larger than 512 bytes. The member has one turn and ends; start it with
operate/keep. Ends with 0: the file is made. 1: refused. 2: the words, or no program. Else with the program's code."""

import argparse
import os
import shutil
import subprocess
import sys

from . import endings, founding, probing, standard

TURNS = "1"


def make_parser() -> argparse.ArgumentParser:
    parser = argparse.ArgumentParser(prog="make-member", description=__doc__, formatter_class=argparse.RawDescriptionHelpFormatter)
    parser.add_argument("cluster", type=int, metavar="CLUSTER", help="the number of the group")
    parser.add_argument("replica", type=int, metavar="REPLICA", help="the member's number in it, from 0")
    parser.add_argument("file", metavar="FILE", help="the data file that is made")
    parser.add_argument("addresses", nargs="+", metavar="ADDR", help="the addresses of all members, in their order")
    parser.add_argument("--careful", action="store_true", help="a careful file (docs/NODE.md says which to choose)")
    parser.add_argument("--v2", action="store_true", help="a file of version 2, as all of its group have to be")
    parser.add_argument("--anyway", action="store_true", help="make it although its group answers: what this member promised before is forgotten")
    parser.add_argument("--program", default=standard.program(), help="the program (default: $NOZHGIVA_PROGRAM, else vr_app)")
    return parser


def parse_words() -> argparse.Namespace:
    parser = make_parser()
    words = parser.parse_args()
    if not 0 <= words.replica < len(words.addresses) <= 6 or not 0 <= words.cluster < 2 ** 64:
        parser.error("a group has 1 to 6 addresses and a number below 2^64, and REPLICA is below the number of addresses")
    try:
        for address in words.addresses:
            probing.where_of(address)
    except ValueError as why:
        parser.error(str(why))
    return words


def refusal(path: str) -> str:
    """Why nothing is made at a path; an empty text where it may be."""
    folder = os.path.dirname(os.path.abspath(path))
    if os.path.lexists(path):
        return f"there is something at {path} already: a member is made once; operate/inspect tells what it holds"
    return "" if os.path.isdir(folder) else f"there is no folder {folder}: look whether its volume is mounted"


def refuse(why: str) -> int:
    print(f"make-member: refused: {why}", file=sys.stderr)
    return 1


def main() -> int:
    words = parse_words()
    why = refusal(words.file)
    if why:
        return refuse(why)
    if shutil.which(words.program) is None:
        print(f"make-member: refused: there is no program {words.program}, which --program, $NOZHGIVA_PROGRAM or the PATH would name", file=sys.stderr)
        return 2
    unknown = [address for address in words.addresses if not probing.is_known(address)]
    if unknown:
        return refuse(f"no host is known for {', '.join(unknown)}")
    why = "" if words.anyway else founding.refusal(words.cluster, words.replica, words.addresses)
    if why:
        return refuse(why)
    folder = os.path.dirname(os.path.abspath(words.file))
    warning = founding.warning(folder, founding.physical_sector(folder))
    if warning:
        print(f"make-member: warning: {warning}", file=sys.stderr)
    os.umask(0o077)  # The file holds all values.
    command = [words.program, "node", str(words.cluster), str(words.replica), words.file, TURNS] + words.addresses + ["--fresh"]
    command += ["--careful"] * words.careful + ["--v2"] * words.v2
    code = subprocess.run(command, stdin=subprocess.DEVNULL, stdout=subprocess.DEVNULL).returncode
    if code == 0:
        print(f"member {words.replica} of group {words.cluster} is made in {words.file}; never make it again")
    else:
        print(f"make-member: the program ended with {code}: {endings.LOOK.get(code) or endings.AGAIN.get(code, endings.UNHEARD_OF)}", file=sys.stderr)
    return code if code >= 0 else 128 - code


def run() -> None:
    """Runs it to its end."""
    standard.end(main)


if __name__ == "__main__":
    run()
