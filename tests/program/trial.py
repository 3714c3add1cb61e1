"""Lets the program try a group of three members on loopback, some times in a row, each time with new files: it starts them, asks, kills the primary,
starts it again, asks on, and ends them. Each time it must write the same lines, end with status 0 and leave no member running; what it does otherwise
stands in one line, and this script then ends with status 1.

  ./nozhgiva test trial                        over UDP
  ./nozhgiva test trial -- --tcp --times 3     over TCP, three times"""

import argparse
import subprocess
import sys
import tempfile
import time
from typing import List, Optional

from nozhgiva_tools.operate import standard
from nozhgiva_tools.run import ports, program

LONGEST = 300.0  # seconds
KEYS = range(1, 9)
WANTED = [*(f"started {r}" for r in range(3)), "session", *("ok" for _ in KEYS), "stopped 0", "started 0", *(f"value v{key}" for key in KEYS), *(f"stopped {r}" for r in range(3))]


def parse_words() -> argparse.Namespace:
    parser = argparse.ArgumentParser(prog="trial", description=__doc__, formatter_class=argparse.RawDescriptionHelpFormatter)
    parser.add_argument("--tcp", action="store_true", help="over TCP instead of UDP")
    parser.add_argument("--times", type=standard.counted, default=10, metavar="N", help="how many times, 1 or more (default: %(default)s)")
    return parser.parse_args()


def addresses(is_tcp: bool) -> List[str]:
    first = ports.first_of(3)
    return [f"{'tcp:' if is_tcp else ''}127.0.0.1:{port}" for port in range(first, first + 3)]


def wrong(path: str, folder: str, number: int, is_tcp: bool) -> Optional[str]:
    """What a trial did otherwise than it has to; None where it did nothing."""
    files = f"{folder}/{number}."
    ran = subprocess.run([path, "trial", "5", "10000", files, *addresses(is_tcp)], stdout=subprocess.PIPE, stderr=subprocess.PIPE, text=True, timeout=LONGEST, check=False)
    heard = ran.stdout.splitlines()
    if ran.returncode:
        return f"ends with status {ran.returncode}: {ran.stderr.strip()} after: {heard[-1] if heard else 'nothing'}"
    if heard != WANTED:
        return f"writes otherwise: {next(((one, other) for one, other in zip(heard, WANTED) if one != other), (len(heard), len(WANTED)))}"
    if subprocess.run(["pgrep", "-f", "--", files], stdout=subprocess.DEVNULL, check=False).returncode == 0:
        return "leaves members running"
    return None


def main() -> int:
    words, path = parse_words(), program.or_end()
    with tempfile.TemporaryDirectory() as folder:
        for number in range(1, words.times + 1):
            begun = time.monotonic()
            why = wrong(path, folder, number, words.tcp)
            if why:
                print(f"failed: trial {number} {why}", file=sys.stderr)
                return 1
            print(f"trial {number}: {len(WANTED)} lines as they should be, in {(time.monotonic() - begun) * 1000:.0f} ms", flush=True)
    return 0


if __name__ == "__main__":
    standard.end(main)
